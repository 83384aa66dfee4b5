/**
 * chromium.js: a page in headless Chromium, driven over the browser's debugging port, without a dependency.
 *
 *   const browser = await chromium.start(chromium.program(), { width: 390, height: 844 });
 *   await browser.open('file:///..');
 *   await browser.value('document.title');
 *   await browser.picture('page.png');
 *   await browser.stop();
 */
'use strict';

const { spawn, spawnSync } = require('node:child_process');
const fs = require('node:fs');
const os = require('node:os');
const path = require('node:path');
const { ClientSocket } = require('./socket.js');

const SWITCHES = ['--headless=new', '--disable-gpu', '--hide-scrollbars', '--no-first-run',
  '--remote-debugging-port=0'];

/** The name of a browser that runs here: `CHROMIUM`, or one on the PATH; undefined where there is none. */
function program() {
  return [process.env.CHROMIUM, 'chromium', 'chromium-browser', 'google-chrome']
    .find((name) => name && spawnSync(name, ['--version']).status === 0);
}

/** The address of a browser's debugging port, which it tells on standard error. */
function addressOf(child) {
  return new Promise((done, fail) => {
    let said = '';
    child.stderr.on('data', (piece) => {
      said += piece;
      const found = /DevTools listening on ws:\/\/([^/]+)\//.exec(said);
      if (found !== null) done(found[1]);
    });
    child.once('exit', () => fail(new Error(`the browser ended:\n${said}`)));
  });
}

/** Commands of the debugging protocol over a socket: each is answered, and events are handed to `onEvent`. */
async function commandsOver(socket, onEvent) {
  const waiting = new Map();
  socket.onmessage = ({ data }) => {
    const { id, result, error, method, params } = JSON.parse(data);
    if (id === undefined) onEvent(method, params);
    else if (error === undefined) waiting.get(id).done(result);
    else waiting.get(id).fail(new Error(error.message));
  };
  await new Promise((done, fail) => {
    socket.onopen = done;
    socket.onerror = ({ message }) => fail(new Error(message));
  });
  let last = 0;
  return (method, params = {}) => new Promise((done, fail) => {
    last += 1;
    waiting.set(last, { done, fail });
    socket.send(JSON.stringify({ id: last, method, params }));
  });
}

/**
 * Starts a browser with one empty page.
 * @param {string} name the program.
 * @param {{width: number, height: number}} size the page's, in CSS pixels; below 600 it is shown as a phone shows it.
 * @returns {Promise<object>} `open(url)`, `value(expression)`, `picture(file)`, `resize(size)` and `stop()`; `faults`
 *   are the exceptions that nothing in the page caught so far.
 */
async function start(name, size) {
  const folder = fs.mkdtempSync(path.join(os.tmpdir(), 'screen-'));
  // Chromium's own sandbox doesn't run as root.
  const sandbox = process.getuid?.() === 0 ? ['--no-sandbox'] : [];
  const child = spawn(name, [...SWITCHES, ...sandbox, `--user-data-dir=${folder}`, 'about:blank'],
    { stdio: ['ignore', 'ignore', 'pipe'] });
  let socket;
  const stop = async () => {
    socket?.close();
    child.kill();
    if (child.exitCode === null && child.signalCode === null) await new Promise((done) => child.once('exit', done));
    fs.rmSync(folder, { recursive: true, force: true, maxRetries: 5, retryDelay: 100 });
  };
  try {
    const targets = await (await fetch(`http://${await addressOf(child)}/json/list`)).json();
    const faults = [];
    socket = new ClientSocket(targets.find((one) => one.type === 'page').webSocketDebuggerUrl);
    const textOf = ({ exception, text }) => exception?.description ?? text;
    const ask = await commandsOver(socket, (method, params) => {
      if (method === 'Runtime.exceptionThrown') faults.push(textOf(params.exceptionDetails));
    });
    await ask('Page.enable');
    await ask('Runtime.enable');
    const resize = ({ width, height }) => ask('Emulation.setDeviceMetricsOverride',
      { width, height, mobile: width < 600, deviceScaleFactor: 1 });
    await resize(size);
    const value = async (expression) => {
      const { result, exceptionDetails } = await ask('Runtime.evaluate', { expression, returnByValue: true });
      if (exceptionDetails !== undefined) throw new Error(textOf(exceptionDetails));
      return result.value;
    };
    const open = async (url) => {
      const { errorText } = await ask('Page.navigate', { url });
      if (errorText !== undefined) throw new Error(`${url}: ${errorText}`);
    };
    const picture = async (file) => {
      const { data } = await ask('Page.captureScreenshot', { format: 'png' });
      fs.writeFileSync(file, Buffer.from(data, 'base64'));
    };
    return { faults, open, picture, resize, stop, value };
  } catch (error) {
    await stop();
    throw error;
  }
}

module.exports = { program, start };
