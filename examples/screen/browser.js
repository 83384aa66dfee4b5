/**
 * browser.js: the page in headless Chromium. It checks that the page, opened as a file, shows what a feed publishes,
 * goes on after its socket was dropped, fits a phone, and can be read in both themes.
 *
 *   node examples/screen/browser.js                          against mock.js
 *   node examples/screen/browser.js 8080 8081                against a server with these ports that nobody feeds, which
 *                                                            was started with the config of examples/market/generate
 *   node examples/screen/browser.js 8080 8081 page.png dark  only takes a picture of the page, after some seconds; the
 *                                                            theme is dark or light
 *
 * CHROMIUM names the browser where it isn't on the PATH. Without one it says so, and ends with 0. Else it ends with 0
 * where all holds.
 */
'use strict';

const assert = require('node:assert/strict');
const { execFileSync } = require('node:child_process');
const net = require('node:net');
const path = require('node:path');
const { pathToFileURL } = require('node:url');
const chromium = require('./chromium.js');
const mock = require('./mock.js');

const PICTURE = { width: 1440, height: 860, waitMillis: 60000 };
const PHONE = { width: 360, height: 780 };
/** The least contrast of a text with what is under it (WCAG 2.1, 1.4.3). */
const LEAST_CONTRAST = 4.5;

const soon = (ms) => new Promise((done) => setTimeout(done, ms));

/** A feed that publishes an event and reads its reply. */
function feedOf(port) {
  const socket = net.connect({ host: '127.0.0.1', port });
  socket.setEncoding('utf8');
  socket.write('feed 2\n');
  let seq = Date.now() * 1000;
  return {
    publish: async (item, event) => {
      seq += 1;
      const reply = new Promise((done, fail) => {
        socket.once('data', done);
        socket.once('error', fail);
      });
      socket.write(`${item} ${seq} ${event}\n`);
      assert.match(await reply, /^ok [0-9]+\n$/);
    },
    close: () => socket.destroy(),
  };
}

async function shows(browser, what, expression) {
  for (let tries = 0; tries < 200; tries += 1) {
    if (await browser.value(expression)) {
      console.log(`ok ${what}`);
      return;
    }
    await soon(50);
  }
  throw new Error(`the page doesn't show ${what}`);
}

const has = (id, text) => `document.getElementById('${id}').textContent.includes(${JSON.stringify(text)})`;
const isState = (state) => `document.getElementById('state').dataset.state === '${state}'`;
const click = (browser, id) => browser.value(`document.getElementById('${id}').click()`);

async function check(browser, feed) {
  await feed.publish('ALDR', 'name=Alder%20%26%20Sons&last=77.31&change=%2B0.42');
  await shows(browser, 'an open session', isState('open'));
  await shows(browser, 'a quote',
    ['Alder & Sons', '77.31', '+0.42'].map((text) => has('quotes', text)).join(' && '));
  await feed.publish('ALDR', 'last=77.30');
  await shows(browser, 'a price that fell, by a sign too',
    "document.querySelector('#quotes .last').className.includes('fell') && " +
    "getComputedStyle(document.querySelector('#quotes .last'), '::before').content.includes('\\u25bc')");
  await feed.publish('book', 'key=bid-1&command=ADD&side=bid&price=77.30&size=1230&orders=4');
  await feed.publish('book', 'key=ask-1&command=ADD&side=ask&price=77.32&size=450&orders=2');
  await shows(browser, 'both sides of the book', `${has('bids', '1,230')} && ${has('asks', '77.32')}`);
  await feed.publish('book', 'key=ask-1&command=DELETE');
  await shows(browser, 'the book without a row', `!${has('asks', '77.32')}`);
  await feed.publish('news', 'time=10:00:00&source=Wire&headline=<b>caf%C3%A9</b>');
  await shows(browser, 'news, as text', has('news', '<b>café</b>'));
  await click(browser, 'lose');
  await feed.publish('ALDR', 'last=77.99');
  await shows(browser, 'the quote after a dropped socket', `${has('quotes', '77.99')} && ${isState('open')}`);
  await shows(browser, 'one recovery, in the same session',
    `${has('recoveries', '1')} && ${has('log', 'goes on after line')}`);
  await feed.publish('book', '!');
  await shows(browser, 'an empty book', "document.getElementById('bids').rows.length === 0");
  await browser.value(`(() => { const list = document.getElementById('frequency'); list.value = '2';
    list.dispatchEvent(new Event('change')); })()`);
  await shows(browser, 'another frequency', has('quotes-frequency', 'at 2 per second'));
  await click(browser, 'power');
  await shows(browser, 'a closed session, and values as old',
    `${isState('closed')} && document.body.matches('.is-old')`);
  await click(browser, 'power');
  await shows(browser, 'a new session with the last quote', `${isState('open')} && ${has('quotes', '77.99')}`);
}

/** The contrasts of each colour of text with each colour that may be under it, which are below the least. */
const FAINT = `(() => {
  const probe = document.body.appendChild(document.createElement('i'));
  const channels = (name) => {
    probe.style.color = 'var(--' + name + ')';
    return getComputedStyle(probe).color.match(/[0-9.]+/g).map(Number);
  };
  const light = (name) => {
    const [red, green, blue] = channels(name).map((value) => value / 255)
      .map((value) => (value <= 0.04045 ? value / 12.92 : ((value + 0.055) / 1.055) ** 2.4));
    return 0.2126 * red + 0.7152 * green + 0.0722 * blue;
  };
  const pairs = [['ink', 'panel soft up-flash down-flash flash up-bar down-bar'], ['dim', 'panel soft up-bar down-bar'],
    ['up', 'panel up-bar up-flash'], ['down', 'panel down-bar down-flash']];
  const faint = [];
  for (const [text, unders] of pairs) {
    for (const under of unders.split(' ')) {
      const [low, high] = [light(text), light(under)].sort((one, other) => one - other);
      const contrast = (high + 0.05) / (low + 0.05);
      if (contrast < ${LEAST_CONTRAST}) faint.push(text + ' on ' + under + ': ' + contrast.toFixed(2));
    }
  }
  probe.remove();
  return faint.join(', ');
})()`;

async function checkLooks(browser) {
  for (const theme of ['light', 'dark']) {
    await browser.value(`document.documentElement.dataset.theme = '${theme}'`);
    assert.equal(await browser.value(FAINT), '', `too little contrast, ${theme}`);
  }
  console.log(`ok contrasts of at least ${LEAST_CONTRAST} in both themes`);
  await browser.resize(PHONE);
  const wide = await browser.value(`[...document.querySelectorAll('body *')]
    .filter((one) => one.getBoundingClientRect().right > innerWidth + 0.5)
    .map((one) => one.outerHTML.slice(0, 60)).join()`);
  assert.equal(wide, '', 'wider than a phone');
  assert.equal(await browser.value('document.documentElement.scrollWidth'), PHONE.width);
  console.log(`ok nothing is wider than ${PHONE.width} pixels`);
}

async function main() {
  const [port, feedPort, picture, theme = 'dark'] = process.argv.slice(2);
  const name = chromium.program();
  if (name === undefined) {
    console.log('skipped: there is no Chromium here');
    return;
  }
  const config = execFileSync(path.join(__dirname, '..', 'market', 'generate'), ['config'], { encoding: 'utf8' });
  const server = port === undefined ? await mock.start({ config }) : { port, feed: Number(feedPort), close: () => {} };
  const browser = await chromium.start(name, PICTURE);
  const feed = picture === undefined ? feedOf(server.feed) : null;
  const page = pathToFileURL(path.join(__dirname, 'index.html'));
  page.search = `port=${server.port}&theme=${theme}`;
  try {
    await browser.open(page.href);
    await shows(browser, 'the page', 'document.readyState === "complete" && document.getElementById("state") !== null');
    if (picture === undefined) {
      await check(browser, feed);
      await checkLooks(browser);
    } else {
      await soon(PICTURE.waitMillis);
      await browser.picture(picture);
    }
    assert.deepEqual(browser.faults, []);
  } finally {
    feed?.close();
    await browser.stop();
    server.close();
  }
}

main().catch((error) => {
  console.error(error.message);
  process.exit(1);
});
