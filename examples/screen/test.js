/**
 * test.js: tests of tlcp.js in node, without a dependency.
 *
 *   node examples/screen/test.js              all tests; those over real sockets run against mock.js
 *   node examples/screen/test.js 8080 8081    those over real sockets alone, against a server that was started by
 *                                             ./tlcpd serve 8080 8081 < examples/screen/test.config
 *
 * It ends with 0 where all pass.
 */
'use strict';

const assert = require('node:assert/strict');
const fs = require('node:fs');
const net = require('node:net');
const path = require('node:path');
const { after, test } = require('node:test');
const tlcp = require('./tlcp.js');
const mock = require('./mock.js');
const { ClientSocket } = require('./socket.js');

const [serverPort, serverFeed] = process.argv.slice(2).map(Number);
const scripted = serverPort === undefined ? test : () => {};
// A test that failed may have left a socket open: that shall not keep the process.
after(() => setTimeout(() => process.exit(), 1000).unref());

const soon = (ms = 0) => new Promise((done) => setTimeout(done, ms));

async function until(holds, what, ms = 20000) {
  const end = performance.now() + ms;
  while (!holds()) {
    if (performance.now() > end) assert.fail(`waited in vain for ${what}`);
    await soon(1);
  }
}

// ---- Coded fields and lines

const reason = (name) => (error) => error instanceof tlcp.LineError && error.reason === name;

scripted('coded fields: the rows of docs/TLCP.md', () => {
  const rows = [
    [' %7C%25%0A%7F|#|$|%23x|%C3%A9', [' |%\n\x7f', null, '', '#x', 'é']],
    [' %7C%25%0A%7F~^#$|^4', [' |%\n\x7f~^#$', null, '', '#x', 'é']],
    ['^4|%5E1', [' |%\n\x7f~^#$', null, '', '#x', '^1']],
    ['|1|2||3', [' |%\n\x7f~^#$', '1', '2', '#x', '3']],
  ];
  let before = null;
  for (const [coded, row] of rows) {
    assert.equal(mock.coded(before, row), coded);
    before = tlcp.decodeFields(before, coded, 5);
    assert.deepEqual(before, row);
  }
});

scripted('coded fields: reading is lenient', () => {
  const before = ['a', 'b', 'c', 'd'];
  const reads = (coded, row) => assert.deepEqual(tlcp.decodeFields(before, coded, 4), row);
  reads('|||', before);
  reads('^1|^3', before);
  reads('^2||^1', before);
  reads('#x|$y|a#|a^2', ['#x', '$y', 'a#', 'a^2']);
  reads('é|%c3%a9|100%|%zz', ['é', 'é', '100%', '%zz']);
  reads('%EF%BB%BF|%00|+|a,b', ['\ufeff', '\0', '+', 'a,b']);
  assert.deepEqual(tlcp.decodeFields(null, '^2|x', 3), [null, null, 'x']);
});

scripted('coded fields: each refusal', () => {
  const refuses = (coded, name) => assert.throws(() => tlcp.decodeFields(null, coded, 3), reason(name));
  for (const coded of ['', 'a|b', '^2']) refuses(coded, 'TooFew');
  for (const coded of ['a|b|c|d', '^3|', '^3|^9']) refuses(coded, 'TooMany');
  for (const coded of ['^4', 'a|^3', '^0|a|b', '^|a|b', '^01|a|b', '^x|a|b', '^-1|a']) refuses(coded, 'BadRun');
  for (const coded of ['%FF|a|b', '%C3|a|b', '%ED%A0%80|a|b', 'Ã%A9|a|b']) refuses(coded, 'BadText');
  refuses('^9|%FF|b', 'BadRun');
  refuses('a|%FF', 'BadText');
});

scripted('coded fields: drawn rows, written by the stand-in and read again', () => {
  const values = [null, '', '#', '$', '^2', '#x', 'a|b', '100%', '%41', 'é', '\u{1f600}', 'a,b c', '\r\n', '\x7f'];
  const draw = (list) => list[Math.floor(Math.random() * list.length)];
  for (let round = 0; round < 2000; round += 1) {
    const count = 1 + Math.floor(Math.random() * 9);
    let before = null;
    for (let step = 0; step < 4; step += 1) {
      const row = Array.from({ length: count }, (_, at) =>
        (before !== null && Math.random() < 0.6 ? before[at] : draw(values)));
      assert.deepEqual(tlcp.decodeFields(before, mock.coded(before, row), count), row);
      before = row;
    }
  }
});

scripted('lines: each layout, and each refusal', () => {
  assert.deepEqual(tlcp.readLine('CONOK,S1,50000,5000,*'),
    { tag: 'CONOK', session: 'S1', limit: 50000, keepalive: 5000, control: '*' });
  assert.deepEqual(tlcp.readLine('REQERR,7,21,Bad group, or none'),
    { tag: 'REQERR', request: '7', code: 21, message: 'Bad group, or none' });
  assert.deepEqual(tlcp.readLine('U,1,2,a,b|c'), { tag: 'U', sub: 1, item: 2, coded: 'a,b|c' });
  const refuses = (text, name) => assert.throws(() => tlcp.readLine(text), reason(name));
  for (const text of ['', 'u,1,1,a', 'toString', 'HELLO,1']) refuses(text, 'BadTag');
  for (const text of ['U,1,1', 'EOS,1', 'EOS,1,1,1', 'PROBE,1', 'END,31']) refuses(text, 'BadCount');
  for (const text of ['EOS,01,1', 'EOS,1,-1', 'U,x,1,a', 'PROG,', 'PROG,9007199254740993']) refuses(text, 'BadNumber');
});

scripted('lines: every line that the examples expect is read', () => {
  const folder = path.join(__dirname, '..');
  const files = fs.readdirSync(folder).filter((name) => name.endsWith('.expected'));
  let read = 0;
  for (const file of files) {
    for (const line of fs.readFileSync(path.join(folder, file), 'utf8').split('\n')) {
      const text = /^[A-Za-z0-9_.-]+?:(.*)$/.exec(line);
      if (text === null || line.startsWith('-')) continue;
      tlcp.readLine(text[1]);
      read += 1;
    }
  }
  assert.ok(read > 300, `${read} lines`);
});

scripted('pauses grow to their limit, and are drawn', () => {
  const whole = [0, 1, 2, 3, 9, 1000].map((tries) => tlcp.pauseBefore(tries, 500, 10000, () => 1));
  assert.deepEqual(whole, [500, 1000, 2000, 4000, 10000, 10000]);
  assert.equal(tlcp.pauseBefore(2, 500, 10000, () => 0), 1000);
});

// ---- A session over sockets that a test plays by hand

class HandSocket {
  sent = [];
  closed = false;

  constructor(url, protocol) {
    Object.assign(this, { url, protocol });
    HandSocket.made.push(this);
  }

  send(text) {
    this.sent.push(text.replace('\r\n', ' '));
  }

  close() {
    this.closed = true;
  }

  open(...lines) {
    this.onopen({});
    this.say(...lines);
  }

  say(...lines) {
    for (const line of lines) this.onmessage?.({ data: `${line}\r\n` });
  }

  lose() {
    this.onclose?.({});
  }

  /** What was sent since the last call. */
  news() {
    return this.sent.splice(0);
  }
}

const BEGIN = ['CONOK,S1,50000,5000,*', 'SERVNAME,tlcpd', 'CONS,unlimited'];
const URL_OF = 'ws://localhost:1/lightstreamer';

/** A session whose sockets are played by hand, and all that it told. */
function played(options = {}) {
  HandSocket.made = [];
  const session = new tlcp.Session(URL_OF, { WebSocket: HandSocket, pauseMillis: 0, ...options });
  const told = [];
  session.addEventListener('statechange', (event) => told.push(event.state));
  session.addEventListener('error', (event) => told.push(`error ${event.error.code ?? event.error.reason}`));
  session.addEventListener('end', (event) => told.push(`end ${event.code} ${event.message}`));
  session.addEventListener('session', (event) => told.push(`session ${event.id} ${event.renewed}`));
  const socket = async (at) => {
    await until(() => HandSocket.made.length > at, `socket ${at}`);
    return HandSocket.made[at];
  };
  return { session, told, socket };
}

function heard(subscription) {
  const told = [];
  const add = (type, text) => subscription.addEventListener(type, (event) => told.push(text(event)));
  add('subscribed', (event) => `subscribed ${event.items} ${event.fields}`);
  add('update', (event) => `${event.item} ${event.snapshot ? 'was' : 'is'} ` +
    `${event.command === undefined ? '' : `${event.command} ${event.key} `}` +
    `${JSON.stringify(Object.values(event.row))} by ${event.changed}`);
  add('endofsnapshot', (event) => `end of snapshot ${event.item}`);
  add('clear', (event) => `clear ${event.item}`);
  add('lostupdates', (event) => `lost ${event.count} of ${event.item}`);
  add('configured', (event) => `at ${event.maxFrequency} ${event.filtered}`);
  add('unsubscribed', () => 'unsubscribed');
  add('error', (event) => `error ${event.error.code} ${event.error.message} of ${event.error.request}`);
  return told;
}

const quote = (more = {}) => new tlcp.Subscription({ mode: 'MERGE', items: ['q'], fields: ['last', 'time'], ...more });

scripted('a session is created, and its subscriptions are added', async () => {
  const { session, told, socket } = played({ adapterSet: 'A B', maxBandwidth: 40 });
  const one = new tlcp.Subscription({ mode: 'DISTINCT', items: ['a', 'b'], fields: ['x'], snapshot: 3, bufferSize: 9,
    maxFrequency: 2.5 });
  session.subscribe(one);
  assert.throws(() => session.subscribe(one), TypeError);
  session.open();
  session.open();
  const first = await socket(0);
  assert.equal(first.protocol, 'TLCP-2.1.0.lightstreamer.com');
  assert.deepEqual(first.sent, []);
  first.open();
  assert.deepEqual(first.news(),
    ['create_session LS_adapter_set=A%20B&LS_keepalive_millis=5000&LS_requested_max_bandwidth=40']);
  first.say(...BEGIN);
  assert.deepEqual(first.news(), ['control LS_reqId=1&LS_session=S1&LS_op=add&LS_subId=1&LS_mode=DISTINCT&' +
    'LS_group=a%20b&LS_schema=x&LS_snapshot=3&LS_requested_buffer_size=9&LS_requested_max_frequency=2.5']);
  const two = quote();
  session.subscribe(two);
  session.constrain('unlimited');
  one.setMaxFrequency('unlimited');
  assert.deepEqual(first.news(), [
    'control LS_reqId=2&LS_session=S1&LS_op=add&LS_subId=2&LS_mode=MERGE&LS_group=q&LS_schema=last%20time&' +
      'LS_snapshot=false',
    'control LS_reqId=3&LS_session=S1&LS_op=constrain&LS_requested_max_bandwidth=unlimited',
    'control LS_reqId=4&LS_session=S1&LS_op=reconf&LS_subId=1&LS_requested_max_frequency=unlimited']);
  assert.equal(one.active, false);
  first.say('REQOK,1', 'SUBOK,1,2,1');
  assert.equal(one.active, true);
  session.close();
  assert.deepEqual(first.news(), ['control LS_reqId=5&LS_session=S1&LS_op=destroy']);
  assert.ok(first.closed);
  assert.deepEqual(told, ['connecting', 'session S1 false', 'open', 'closed']);
  assert.equal(one.active, false);
  assert.equal(session.subscriptions.length, 2);
});

scripted('four modes', async () => {
  const { session, socket } = played();
  const merge = quote({ items: ['q', 'r'], snapshot: true });
  const distinct = new tlcp.Subscription({ mode: 'DISTINCT', items: ['d'], fields: ['x'], snapshot: 2 });
  const command = new tlcp.Subscription({ mode: 'COMMAND', items: ['k'], fields: ['n', 'key', 'command'],
    snapshot: true });
  const raw = new tlcp.Subscription({ mode: 'RAW', items: ['q'], fields: ['last'] });
  const told = [merge, distinct, command, raw].map(heard);
  for (const one of [merge, distinct, command, raw]) session.subscribe(one);
  session.open();
  const first = await socket(0);
  first.open(...BEGIN);
  first.say('SUBOK,1,2,2', 'CONF,1,2.5,filtered', 'SUBOK,2,1,1', 'SUBCMD,3,1,3,2,3', 'SUBOK,4,1,1',
    'CONF,4,unlimited,unfiltered');
  first.say('U,1,1,3.04|20:00', 'U,1,2,#|$', 'U,1,1,3.05|');
  assert.deepEqual(told[0], ['subscribed 2 2', 'at 2.5 true', 'q was ["3.04","20:00"] by last,time',
    'r was [null,""] by last,time', 'q is ["3.05","20:00"] by last']);
  assert.deepEqual(merge.row('q'), { last: '3.05', time: '20:00' });
  assert.equal(merge.row('none'), null);
  first.say('U,2,1,a', 'U,2,1,', 'EOS,2,1', 'U,2,1,b', 'CS,2,1', 'U,2,1,');
  assert.deepEqual(told[1], ['subscribed 1 1', 'd was ["a"] by x', 'd was ["a"] by ', 'end of snapshot d',
    'd is ["b"] by x', 'clear d', 'd is ["b"] by ']);
  first.say('U,3,1,1|a|ADD', 'EOS,3,1', 'U,3,1,2||UPDATE', 'U,3,1,|b|ADD', 'U,3,1,3|a|UPDATE', 'U,3,1,#|b|DELETE');
  assert.deepEqual(told[2], ['subscribed 1 3', 'k was ADD a ["1","a","ADD"] by n,key,command', 'end of snapshot k',
    'k is UPDATE a ["2","a","UPDATE"] by n,command', 'k is ADD b ["2","b","ADD"] by n,key,command',
    'k is UPDATE a ["3","a","UPDATE"] by n', 'k is DELETE b [null,"b","DELETE"] by n,command']);
  assert.deepEqual([...command.rows('k')], [['a', { n: '3', key: 'a', command: 'UPDATE' }]]);
  first.say('CS,3,1', 'U,3,1,|a|ADD');
  assert.deepEqual(command.rows('k').get('a'), { n: null, key: 'a', command: 'ADD' });
  first.say('U,4,1,1', 'OV,4,1,7', 'U,4,1,9');
  assert.deepEqual(told[3], ['subscribed 1 1', 'at unlimited false', 'q is ["1"] by last', 'lost 7 of q',
    'q is ["9"] by last']);
  assert.equal(session.count, 26);
  session.close();
});

scripted('the examples of the program, as a client sees them', async () => {
  const linesOf = (name) => fs.readFileSync(path.join(__dirname, '..', `${name}.expected`), 'utf8').split('\n')
    .filter((line) => /^[a-z.0-9]+:(?!REQOK)/.test(line)).map((line) => line.slice(line.indexOf(':') + 1));
  const shown = async (name, subscription, item) => {
    const { session, socket, told } = played();
    session.subscribe(subscription);
    session.open();
    (await socket(0)).open(...linesOf(name));
    assert.deepEqual(told.filter((one) => one.startsWith('error')), []);
    const seen = subscription.mode === 'COMMAND' ? [...subscription.rows(item)] : subscription.row(item);
    session.close();
    return seen;
  };
  const orders = new tlcp.Subscription({ mode: 'COMMAND', items: ['o'], fields: ['key', 'command', 'qty', 'px'] });
  assert.deepEqual(await shown('command', orders, 'o'),
    [['b', { key: 'b', command: 'ADD', qty: '4', px: '8' }]]);
  const text = new tlcp.Subscription({ mode: 'MERGE', items: ['t'], fields: ['t'] });
  assert.deepEqual(await shown('escaped', text, 't'), { t: 'é' });
});

scripted('a lost socket: the session is taken up after the lines that came', async () => {
  const { session, told, socket } = played();
  const one = quote();
  const seen = heard(one);
  session.subscribe(one);
  session.open();
  const first = await socket(0);
  first.open(...BEGIN, 'REQOK,1', 'SUBOK,1,1,2', 'CONF,1,unlimited,filtered', 'U,1,1,1|a');
  first.news();
  first.lose();
  assert.equal(session.state, 'recovering');
  first.say('U,1,1,9|z');
  session.constrain(5);
  const second = await socket(1);
  second.open();
  assert.deepEqual(second.news(), ['bind_session LS_session=S1&LS_keepalive_millis=5000&LS_recovery_from=3']);
  // The server may begin earlier than it was asked to.
  second.say(...BEGIN, 'PROG,2', 'U,1,1,1|a', 'U,1,1,2|');
  assert.deepEqual(second.news(), ['control LS_reqId=2&LS_session=S1&LS_op=constrain&LS_requested_max_bandwidth=5']);
  assert.deepEqual(seen.slice(2), ['q is ["1","a"] by last,time', 'q is ["2","a"] by last']);
  assert.equal(session.count, 4);
  assert.deepEqual(told, ['connecting', 'session S1 false', 'open', 'recovering', 'open']);
  session.close();
});

scripted('LOOP: the session is bound at once, on the same socket, without a count', async () => {
  const { session, told, socket } = played();
  session.subscribe(quote());
  session.open();
  const first = await socket(0);
  first.open(...BEGIN, 'SUBOK,1,1,2');
  first.news();
  session.forceRebind();
  first.say('REQOK,2', 'LOOP,0');
  assert.deepEqual(first.news(), ['control LS_reqId=2&LS_session=S1&LS_op=force_rebind',
    'bind_session LS_session=S1&LS_keepalive_millis=5000']);
  session.constrain(3);
  assert.deepEqual(first.news(), []);
  first.say(...BEGIN, 'U,1,1,1|a');
  // The add has no answer yet, and isn't asked again on this socket.
  assert.deepEqual(first.news(), ['control LS_reqId=3&LS_session=S1&LS_op=constrain&LS_requested_max_bandwidth=3']);
  assert.equal(session.count, 2);
  assert.deepEqual(told, ['connecting', 'session S1 false', 'open']);
  first.say('LOOP,0');
  first.lose();
  const second = await socket(1);
  second.open();
  assert.deepEqual(second.news(), ['bind_session LS_session=S1&LS_keepalive_millis=5000&LS_recovery_from=2']);
  session.close();
});

scripted('requests without an answer are asked again', async () => {
  const { session, told, socket } = played();
  const [one, two] = [quote(), quote()];
  const seen = [heard(one), heard(two)];
  session.subscribe(one);
  session.subscribe(two);
  session.open();
  const first = await socket(0);
  first.open(...BEGIN);
  session.unsubscribe(two);
  session.forceRebind();
  first.lose();
  const second = await socket(1);
  second.open(...BEGIN, 'PROG,0');
  // The add of a subscription that is to be deleted, and a wish to leave the old stream, aren't.
  assert.deepEqual(second.news().slice(1).map((text) => text.slice(8, 62)), [
    'LS_reqId=1&LS_session=S1&LS_op=add&LS_subId=1&LS_mode=',
    'LS_reqId=3&LS_session=S1&LS_op=delete&LS_subId=2']);
  // Both were done on the first socket. The answers come before the lines.
  second.say('REQERR,1,72,Subscription id in use', 'REQERR,3,19,Unknown subscription');
  assert.deepEqual(seen, [[], ['unsubscribed']]);
  session.subscribe(two);
  second.say('SUBOK,1,1,2', 'CONF,1,unlimited,filtered', 'SUBOK,2,1,2', 'CONF,2,unlimited,filtered', 'U,2,1,x|y',
    'UNSUB,2', 'U,1,1,1|a', 'SUBOK,3,1,2', 'U,3,1,5|e');
  assert.deepEqual(seen[0], ['subscribed 1 2', 'at unlimited true', 'q is ["1","a"] by last,time']);
  assert.deepEqual(seen[1], ['unsubscribed', 'subscribed 1 2', 'q is ["5","e"] by last,time']);
  // The subscription came after its delete was refused, so it is deleted again, and that changes nothing here.
  assert.deepEqual(second.news().map((text) => text.slice(8)).filter((text) => text.includes('=delete')),
    ['LS_reqId=6&LS_session=S1&LS_op=delete&LS_subId=2']);
  second.say('REQERR,6,19,Unknown subscription');
  assert.equal(two.active, true);
  assert.deepEqual(told, ['connecting', 'session S1 false', 'open', 'recovering', 'open']);
  session.close();
});

scripted('refused requests have a code and a message', async () => {
  const { session, told, socket } = played();
  const one = quote();
  const seen = heard(one);
  session.subscribe(one);
  session.open();
  const first = await socket(0);
  first.open(...BEGIN, 'REQERR,1,21,Bad group');
  assert.deepEqual(seen, ['error 21 Bad group of add']);
  assert.equal(session.subscriptions.length, 0);
  session.subscribe(one);
  first.say('REQOK,2', 'SUBOK,2,1,2');
  one.setMaxFrequency(0);
  session.constrain(0);
  first.say('REQERR,3,65,Malformed request', 'REQERR,4,65,Malformed request', 'ERROR,65,Malformed request');
  assert.deepEqual(seen.slice(1), ['subscribed 1 2', 'error 65 Malformed request of reconf']);
  assert.deepEqual(told.slice(3), ['error 65', 'error 65']);
  first.news();
  session.unsubscribe(one);
  first.say('REQERR,5,70,Too many lines waiting');
  await soon(5);
  assert.deepEqual(first.news(), ['control LS_reqId=5&LS_session=S1&LS_op=delete&LS_subId=2',
    'control LS_reqId=6&LS_session=S1&LS_op=delete&LS_subId=2']);
  first.say('U,2,1,1|a', 'REQOK,6', 'UNSUB,2');
  assert.deepEqual(seen.slice(3), ['unsubscribed']);
  const long = quote({ fields: Array.from({ length: 9000 }, (_, at) => `field${at}`) });
  const longSeen = heard(long);
  session.subscribe(long);
  assert.deepEqual(first.news(), []);
  assert.deepEqual(longSeen, ['error 65 Malformed request of add']);
  session.close();
});

scripted('a session that the server has no more is followed by a new one', async () => {
  for (const [code, message] of [[4, 'Recovery not possible'], [20, 'Unknown session'], [74, 'Counter spent']]) {
    const { session, told, socket } = played();
    const one = quote({ snapshot: true });
    const leaving = quote();
    const seen = heard(one);
    const left = heard(leaving);
    session.subscribe(one);
    session.subscribe(leaving);
    session.open();
    const first = await socket(0);
    first.open(...BEGIN, 'REQOK,1', 'REQOK,2', 'SUBOK,1,1,2', 'U,1,1,1|a');
    session.unsubscribe(leaving);
    first.lose();
    const second = await socket(1);
    second.open(`CONERR,${code},${message}`);
    assert.deepEqual(left, ['unsubscribed']);
    assert.equal(one.row('q'), null);
    assert.equal(second.news()[1], 'create_session LS_keepalive_millis=5000');
    second.say('CONOK,S2,50000,5000,*', 'SUBOK,3,1,2', 'U,3,1,5|e');
    assert.deepEqual(second.news().map((text) => text.slice(8, 54)),
      ['LS_reqId=4&LS_session=S2&LS_op=add&LS_subId=3&']);
    assert.deepEqual(seen.slice(2), ['subscribed 1 2', 'q was ["5","e"] by last,time']);
    assert.equal(session.count, 2);
    assert.deepEqual(told, ['connecting', 'session S1 false', 'open', 'recovering', 'connecting', `error ${code}`,
      'session S2 true', 'open']);
    session.close();
  }
  const { session, told, socket } = played({ renew: false });
  session.open();
  (await socket(0)).open(...BEGIN);
  (await socket(0)).lose();
  (await socket(1)).open('CONERR,20,Unknown session');
  assert.deepEqual(told.slice(3), ['recovering', 'ended', 'error 20', 'end 20 Unknown session']);
});

scripted('refused sessions: some are tried again, others end', async () => {
  for (const code of [8, 75]) {
    const { session, told, socket } = played();
    session.open();
    (await socket(0)).open(`CONERR,${code},Later`);
    (await socket(1)).open(...BEGIN);
    assert.deepEqual(told, ['connecting', `error ${code}`, 'session S1 false', 'open']);
    session.close();
  }
  for (const code of [2, 60, 65, 74]) {
    const { session, told, socket } = played();
    session.open();
    const first = await socket(0);
    first.open(`CONERR,${code},No`);
    assert.ok(first.closed);
    assert.deepEqual(told, ['connecting', 'ended', `error ${code}`, `end ${code} No`]);
  }
});

scripted('END ends; a later open begins anew', async () => {
  const { session, told, socket } = played();
  const one = quote();
  session.subscribe(one);
  session.open();
  (await socket(0)).open(...BEGIN, 'END,31,Destroyed by request');
  assert.deepEqual(told.slice(3), ['ended', 'error 31', 'end 31 Destroyed by request']);
  await soon(5);
  assert.equal(HandSocket.made.length, 1);
  session.open();
  const second = await socket(1);
  second.open('CONOK,S2,50000,5000,*');
  assert.equal(second.news().length, 2);
  assert.deepEqual(told.slice(6), ['connecting', 'session S2 true', 'open']);
  session.close();
});

scripted('a line that cannot be read: the session is left, and a new one begun', async () => {
  const cases = [['U,1,1,a', 'TooFew'], ['U,1,1,a|b|c', 'TooMany'], ['U,1,1,^3', 'BadRun'], ['U,1,1,%FF|a', 'BadText'],
    ['U,1,2,a|b', 'Unknown'], ['U,9,1,a|b', 'Unknown'], ['EOS,1,2', 'Unknown'], ['CONF,9,1.0,filtered', 'Unknown'],
    ['SUBOK,1,1,3', 'BadShape'], ['SUBCMD,1,1,2,1,2', 'BadShape'], ['U,1', 'BadCount'], ['EOS,1,x', 'BadNumber'],
    ['WHAT', 'BadTag'], ['PROG,3', 'Gap']];
  for (const [line, name] of cases) {
    const { session, told, socket } = played();
    session.subscribe(quote());
    session.open();
    const first = await socket(0);
    first.open(...BEGIN, 'SUBOK,1,1,2', line, 'U,1,1,after|it');
    assert.ok(first.closed);
    assert.match(first.news().at(-1), /^control LS_reqId=2&LS_session=S1&LS_op=destroy$/);
    const second = await socket(1);
    second.open('CONOK,S2,50000,5000,*');
    assert.match(second.news()[0], /^create_session /);
    assert.deepEqual(told, ['connecting', 'session S1 false', 'open', `error ${name}`, 'connecting', 'session S2 true',
      'open']);
    session.close();
  }
  const { session, told, socket } = played();
  session.subscribe(new tlcp.Subscription({ mode: 'COMMAND', items: ['k'], fields: ['key', 'command'] }));
  session.open();
  (await socket(0)).open(...BEGIN, 'SUBCMD,1,1,2,1,2', 'U,1,1,#|ADD');
  (await socket(1)).open(...BEGIN, 'SUBCMD,2,1,2,1,2', 'U,2,1,a|add');
  assert.deepEqual(told.filter((one) => one.startsWith('error')), ['error NoKey', 'error BadCommand']);
  session.close();
});

scripted('several lines in one message, and lines that are let pass', async () => {
  const { session, told, socket } = played();
  session.open();
  const first = await socket(0);
  first.open();
  first.onmessage({ data: `${BEGIN.join('\r\n')}\r\nPROBE\r\nSYNC,0\r\nNOOP,x\r\nMSGDONE,*,1` });
  assert.deepEqual(told, ['connecting', 'session S1 false', 'open']);
  assert.equal(session.count, 1);
  const texts = [];
  session.addEventListener('line', (event) => texts.push(event.text));
  first.onmessage({ data: 'PROBE\r\nEND,31,Destroyed by request\r\nPROBE\r\n' });
  assert.deepEqual(texts, ['PROBE', 'END,31,Destroyed by request']);
});

scripted('silence: stalled, and then lost', async () => {
  const { session, told, socket } = played({ stalledMillis: 20, lostMillis: 30 });
  session.open();
  const first = await socket(0);
  first.open('CONOK,S1,50000,20,*');
  await until(() => session.state === 'stalled', 'stalled');
  first.say('PROBE');
  assert.equal(session.state, 'open');
  const second = await socket(1);
  assert.ok(first.closed);
  assert.deepEqual(told, ['connecting', 'session S1 false', 'open', 'stalled', 'open', 'stalled', 'recovering']);
  second.open('CONOK,S1,50000,20,*', 'PROG,0');
  assert.equal(session.state, 'open');
  session.close();
});

scripted('tries that bring nothing are given up after their limit', async () => {
  const { session, told, socket } = played({ retries: 2, connectMillis: 10 });
  session.open();
  (await socket(0)).lose();
  await socket(1);
  await until(() => session.state === 'ended', 'the end');
  assert.equal(HandSocket.made.length, 3);
  assert.deepEqual(told, ['connecting', 'ended', 'error undefined', 'end 0 no answer came']);
});

scripted('a try that brought a line counts no more; sessions that are left for a line do', async () => {
  const { session, told, socket } = played({ retries: 1 });
  session.subscribe(quote());
  session.open();
  (await socket(0)).open(...BEGIN, 'SUBOK,1,1,2');
  (await socket(0)).lose();
  (await socket(1)).open(...BEGIN, 'PROG,1', 'U,1,1,1|a');
  (await socket(1)).lose();
  (await socket(2)).open(...BEGIN, 'PROG,2', 'U,1,1,^9');
  assert.deepEqual(told.slice(-3), ['ended', 'error undefined', 'end 0 BadRun in the line U,1,1,^9']);
});

scripted('a listener may close the session', async () => {
  for (const type of ['line', 'session', 'statechange']) {
    const { session, socket } = played();
    session.subscribe(quote());
    session.open();
    session.addEventListener(type, () => session.close());
    const first = await socket(0);
    first.open(...BEGIN, 'SUBOK,1,1,2');
    await soon(5);
    assert.equal(session.state, 'closed');
    assert.equal(HandSocket.made.length, 1);
  }
});

scripted('a listener may close the session and open it again', async () => {
  const { session, socket } = played();
  session.open();
  (await socket(0)).open(...BEGIN);
  const again = () => {
    session.removeEventListener('statechange', again);
    session.close();
    session.open();
  };
  session.addEventListener('statechange', again);
  (await socket(0)).lose();
  const second = await socket(1);
  second.open(...BEGIN);
  await soon(5);
  assert.equal(session.state, 'open');
  assert.equal(HandSocket.made.length, 2);
  session.close();
});

scripted('subscriptions check their form', () => {
  assert.throws(() => quote({ mode: 'merge' }), TypeError);
  assert.throws(() => quote({ items: [] }), TypeError);
  assert.throws(() => quote({ items: 'q' }), TypeError);
  assert.throws(() => quote({ fields: ['a b'] }), TypeError);
  assert.throws(() => new tlcp.Session(URL_OF, { WebSocket: undefined }), TypeError);
});

scripted('the ES module has the same names', async () => {
  const loaded = await import('./tlcp.mjs');
  for (const name of Object.keys(tlcp)) assert.equal(loaded[name], tlcp[name], name);
});

// ---- Over real sockets

/** A client socket that tells the test of itself, so that it can be lost. */
class LosableSocket extends ClientSocket {
  constructor(...words) {
    super(...words);
    LosableSocket.last = this;
  }
}

/** A feed: events are published one after the other, and their replies awaited. */
async function feedTo(port, adapter) {
  const socket = net.connect({ host: '127.0.0.1', port, noDelay: true });
  socket.setEncoding('utf8');
  let seq = Date.now() * 1000;
  let rest = '';
  const waiting = [];
  socket.on('data', (piece) => {
    const lines = (rest + piece).split('\n');
    rest = lines.pop();
    for (const line of lines) waiting.shift()(line);
  });
  socket.write(`feed ${adapter}\n`);
  const publish = async (item, event) => {
    seq += 1;
    const reply = await new Promise((done) => {
      waiting.push(done);
      socket.write(`${item} ${seq} ${event}\n`);
    });
    assert.match(reply, /^ok [0-9]+$/, `${item} ${event}`);
  };
  return { publish, close: () => socket.destroy() };
}

async function withServer(work) {
  if (serverPort !== undefined) return work({ port: serverPort, feed: serverFeed });
  const config = fs.readFileSync(path.join(__dirname, 'test.config'), 'utf8');
  const server = await mock.start({ config });
  try {
    return await work(server);
  } finally {
    server.close();
  }
}

scripted('a server that was started anew: a new session follows', { timeout: 30000 }, async () => {
  const config = fs.readFileSync(path.join(__dirname, 'test.config'), 'utf8');
  let server = await mock.start({ config });
  const { port } = server;
  const session = new tlcp.Session(`ws://127.0.0.1:${port}/lightstreamer`,
    { WebSocket: ClientSocket, pauseMillis: 5, pauseLimitMillis: 20 });
  const begun = [];
  session.addEventListener('session', (event) => begun.push(event.renewed));
  const one = new tlcp.Subscription({ mode: 'MERGE', items: ['count'], fields: ['n'], snapshot: true });
  session.subscribe(one);
  session.open();
  for (const n of ['1', '2']) {
    const source = await feedTo(server.feed, 1);
    await source.publish('count', `n=${n}`);
    await until(() => one.row('count')?.n === n, `the value ${n}`);
    source.close();
    server.close();
    await until(() => session.state !== 'open', 'the loss');
    assert.equal(session.state, 'recovering');
    if (n === '1') server = await mock.start({ config, port });
  }
  assert.deepEqual(begun, [false, true]);
  session.close();
});

const LOSSES = 200;
const EVENTS = 4000;

test('200 sockets lost in mid-stream: no gap and no repeat, in four modes', { timeout: 240000 }, () =>
  withServer(async ({ port, feed }) => {
    const session = new tlcp.Session(`ws://127.0.0.1:${port}/lightstreamer`,
      { WebSocket: LosableSocket, pauseMillis: 1, pauseLimitMillis: 20 });
    const faults = [];
    session.addEventListener('error', (event) => faults.push(event.error));
    let sessions = 0;
    session.addEventListener('session', () => { sessions += 1; });
    const make = (mode, item, fields) => new tlcp.Subscription({ mode, items: [item], fields, snapshot: false });
    const raw = make('RAW', 'steps', ['n', 'text']);
    const distinct = make('DISTINCT', 'steps', ['n']);
    const merge = make('MERGE', 'count', ['text', 'n']);
    const command = make('COMMAND', 'table', ['key', 'command', 'n']);
    const seen = { raw: [], distinct: [], merge: [] };
    raw.addEventListener('update', (event) => seen.raw.push(`${event.value('n')} ${event.value('text')}`));
    distinct.addEventListener('update', (event) => seen.distinct.push(Number(event.value('n'))));
    merge.addEventListener('update', (event) => seen.merge.push(Number(event.value('n'))));
    for (const one of [raw, distinct, merge, command]) session.subscribe(one);
    session.open();
    await until(() => [raw, distinct, merge, command].every((one) => one.active), 'four subscriptions');

    const source = await feedTo(feed, 1);
    // Sockets are lost at moments that are drawn, until 200 are lost; those that have just begun are spared no more.
    let losses = 0;
    let done = false;
    const losing = (async () => {
      while (losses < LOSSES) {
        await soon(Math.random() * 12);
        if (session.state !== 'open' && Math.random() < 0.7) continue;
        LosableSocket.last.destroy();
        losses += 1;
      }
      done = true;
    })();
    const table = new Map();
    let published = 0;
    await source.publish('table', '!');
    while (published < EVENTS || !done) {
      published += 1;
      const key = `k${published % 7}`;
      const isDelete = published % 3 === 0;
      // A step of RAW is an own row, so each of its fields is told.
      await source.publish('steps', `n=${published}&text=t%7C%23${published % 2}`);
      await source.publish('count', published % 2 === 0 ? `n=${published}` : `n=${published}&text=odd${published}`);
      await source.publish('table', `key=${key}&command=${isDelete ? 'DELETE' : 'UPDATE'}&n=${published}`);
      if (isDelete) table.delete(key);
      else table.set(key, String(published));
      if (published % 20 === 0) await soon(1);
      // The server keeps 256 updates for RAW: the feed isn't to be further ahead.
      await until(() => published - seen.raw.length < 200, 'the client');
    }
    await losing;
    const isLast = (list) => list.length > 0 && list[list.length - 1] === published;
    await until(() => seen.raw.length >= published && isLast(seen.distinct) && isLast(seen.merge), 'the last event');
    const told = () => [...command.rows('table')].map(([key, row]) => `${key}=${row.n}`).sort().join(' ');
    const wanted = [...table].map(([key, n]) => `${key}=${n}`).sort().join(' ');
    await until(() => told() === wanted, `the table ${wanted}`);

    assert.deepEqual(faults, []);
    assert.equal(sessions, 1);
    assert.deepEqual(seen.raw, Array.from({ length: published }, (_, at) => `${at + 1} t|#${(at + 1) % 2}`));
    for (const list of [seen.distinct, seen.merge]) {
      assert.ok(list.every((n, at) => at === 0 || n > list[at - 1]), 'no way back');
    }
    assert.deepEqual(merge.row('count'), { text: `odd${published % 2 === 0 ? published - 1 : published}`,
      n: String(published) });
    console.log(`# ${losses} losses, ${published} rounds, ${session.count} counted lines, one session`);
    source.close();
    session.close();
  }));

test('subscribing and unsubscribing while sockets are lost', { timeout: 120000 }, () =>
  withServer(async ({ port, feed }) => {
    const session = new tlcp.Session(`ws://127.0.0.1:${port}/lightstreamer`,
      { WebSocket: LosableSocket, pauseMillis: 1, pauseLimitMillis: 20 });
    const faults = [];
    session.addEventListener('error', (event) => faults.push(event.error));
    session.open();
    const source = await feedTo(feed, 2);
    await source.publish('count', 'n=0&text=first');
    for (let round = 0; round < 60; round += 1) {
      const one = new tlcp.Subscription({ mode: 'MERGE', items: ['count'], fields: ['n'], snapshot: true });
      one.addEventListener('error', (event) => faults.push(event.error));
      let ended = false;
      one.addEventListener('unsubscribed', () => { ended = true; });
      session.subscribe(one);
      if (round % 3 === 0) await until(() => one.row('count') !== null, 'the snapshot');
      await soon(Math.random() * 3);
      LosableSocket.last.destroy();
      await soon(Math.random() * 3);
      if (round % 2 === 0) session.forceRebind();
      session.unsubscribe(one);
      if (round % 4 < 2) await soon(Math.random() * 3);
      if (round % 5 === 0) LosableSocket.last.destroy();
      await until(() => ended, 'the end of a subscription');
    }
    assert.deepEqual(faults, []);
    assert.equal(session.subscriptions.length, 0);
    source.close();
    session.close();
  }));
