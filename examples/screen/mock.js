#!/usr/bin/env node
/**
 * mock.js: a stand-in for `tlcpd serve` in the tests of this folder. It speaks the same formats (docs/TLCP.md), and
 * does no more than the tests and the page need: no buffers that merge, no frequencies, no limits, WebSocket alone.
 *
 *   examples/market/generate config | node examples/screen/mock.js serve 8080 8081
 */
'use strict';

const http = require('node:http');
const net = require('node:net');
const { FrameReader, OPCODE, acceptValue, frame } = require('./socket.js');

const PROTOCOL = 'TLCP-2.1.0.lightstreamer.com';
const MESSAGES = { 2: 'Unknown adapter set', 4: 'Recovery not possible', 8: 'Too many sessions',
  19: 'Unknown subscription', 20: 'Unknown session', 21: 'Bad group', 23: 'Bad schema', 24: 'Mode not allowed',
  31: 'Destroyed by request', 65: 'Malformed request', 72: 'Subscription id in use' };

// ---- Coded fields

const escaped = (text) => [...Buffer.from(text)].map((byte, at) => {
  const plain = byte >= 32 && byte < 127 && byte !== 0x25 && byte !== 0x7c &&
    !(at === 0 && (byte === 0x23 || byte === 0x24 || byte === 0x5e));
  return plain ? String.fromCharCode(byte) : `%${byte.toString(16).toUpperCase().padStart(2, '0')}`;
}).join('');

const spelled = (value) => (value === null ? '#' : value === '' ? '$' : escaped(value));

/** The coded fields of a row against the row before it, which may be null. */
function coded(before, row) {
  const tokens = [];
  for (let at = 0; at < row.length;) {
    let run = 0;
    while (before !== null && at + run < row.length && before[at + run] === row[at + run]) run += 1;
    if (run === 0) {
      tokens.push(spelled(row[at]));
      at += 1;
    } else {
      tokens.push(...(run < 3 ? Array(run).fill('') : [`^${run}`]));
      at += run;
    }
  }
  return tokens.join('|');
}

// ---- Items and feeds

class Item {
  constructor(name, kind, fields) {
    Object.assign(this, { name, kind, fields, number: 0, row: fields.map(() => null), rows: [], keys: new Map(),
      seqs: new Map(), slots: new Set() });
    this.key = fields.indexOf('key');
    this.command = fields.indexOf('command');
  }

  /** Takes an event: a map of cells by field, or null for a Clear. Gives the reply. */
  publish(adapter, seq, cells) {
    const last = this.seqs.get(adapter) ?? 0;
    if (seq <= last) return `repeated ${last}`;
    if (cells !== null && this.kind === 'COMMAND') {
      if ((cells.get('key') ?? null) === null) return 'bad 4';
      if (!['ADD', 'UPDATE', 'DELETE'].includes(cells.get('command'))) return 'bad 5';
    }
    this.seqs.set(adapter, seq);
    this.number += 1;
    if (cells === null) this.#clear();
    else this.#update(cells);
    for (const slot of this.slots) slot.session.pump();
    return `ok ${this.number}`;
  }

  #clear() {
    this.row = this.fields.map(() => null);
    this.rows = [];
    this.keys.clear();
    for (const slot of this.slots) slot.clear();
  }

  #applied(row, cells) {
    return this.fields.map((name, at) => (cells.has(name) ? cells.get(name) : row[at]));
  }

  #update(cells) {
    const own = this.#applied(this.fields.map(() => null), cells);
    this.row = this.#applied(this.row, cells);
    this.rows = [...this.rows, own].slice(-32);
    if (this.kind === 'COMMAND') this.#touch(own[this.key], own[this.command], cells);
    for (const slot of this.slots) slot.offer(own);
  }

  #touch(key, command, cells) {
    if (command === 'DELETE') {
      this.keys.delete(key);
      return;
    }
    const row = this.#applied(this.keys.get(key) ?? this.fields.map(() => null), cells);
    row[this.command] = null;
    this.keys.set(key, row);
  }
}

function configOf(text) {
  const items = new Map();
  for (const line of text.split('\n')) {
    if (line === '' || line.startsWith('#') || line.startsWith('set ')) continue;
    const [name, kind, fields] = line.split(' ');
    items.set(name, new Item(name, kind, fields.split(',')));
  }
  return items;
}

/** Reads an event text: a map of cells, null for a Clear, or the reply that refuses it. */
function eventOf(text, item) {
  if (text === '!') return null;
  const cells = new Map();
  for (const pair of text.split('&')) {
    const at = pair.indexOf('=');
    if (at < 0) return 'bad 1';
    const [name, value] = [pair.slice(0, at), pair.slice(at + 1)];
    if (!item.fields.includes(name)) return 'bad 3';
    if (cells.has(name)) return 'bad 1';
    try {
      const decoded = decodeURIComponent(value.replace(/%(?![0-9a-fA-F]{2})/g, '%25'));
      cells.set(name, value === '#' ? null : value === '$' ? '' : decoded);
    } catch {
      return 'bad 1';
    }
  }
  return cells;
}

function feedReply(items, adapter, line) {
  const words = line.split(' ');
  if (words.length !== 3 || !/^[1-9][0-9]{0,17}$/.test(words[1])) return 'bad 1';
  const item = items.get(words[0]);
  if (item === undefined) return 'bad 2';
  const event = eventOf(words[2], item);
  return typeof event === 'string' ? event : item.publish(adapter, Number(words[1]), event);
}

function feed(items, socket) {
  let rest = '';
  let adapter = null;
  socket.setNoDelay(true);
  socket.setEncoding('utf8');
  socket.on('error', () => {});
  socket.on('data', (piece) => {
    const lines = (rest + piece).split('\n');
    rest = lines.pop();
    for (const line of lines) {
      if (adapter === null) {
        const hello = /^feed ([1-9][0-9]?)$/.exec(line);
        if (hello === null || Number(hello[1]) > 64) return socket.destroy();
        adapter = Number(hello[1]);
      } else {
        socket.write(`${feedReply(items, adapter, line)}\n`);
      }
    }
  });
}

// ---- Sessions

/** An item of a subscription, and the lines that it has to tell. */
class Slot {
  constructor(session, sub, place, item, mode, schema, snapshot) {
    Object.assign(this, { session, sub, place, item, mode, before: null, queue: [], table: new Map() });
    this.places = schema.map((name) => item.fields.indexOf(name));
    const rows = this.#snapshot(snapshot);
    for (const row of rows) this.#tell(row);
    if (snapshot !== 'false' && (mode === 'DISTINCT' || mode === 'COMMAND')) this.queue.push(`EOS,${sub},${place}`);
  }

  #snapshot(asked) {
    const { item, mode } = this;
    if (asked === 'false' || asked === '0' || mode === 'RAW') return [];
    if (mode === 'MERGE') return item.number > 0 ? [item.row] : [];
    if (mode === 'DISTINCT') return item.rows.slice(asked === 'true' ? -32 : -Number(asked));
    return [...item.keys.values()].map((row) => this.#keyed(row, 'ADD'));
  }

  #keyed(row, command) {
    const whole = [...row];
    whole[this.item.command] = command;
    this.table.set(row[this.item.key], row);
    return whole;
  }

  #tell(row) {
    const projected = this.places.map((place) => row[place]);
    const isSame = this.before !== null && projected.every((value, at) => value === this.before[at]);
    if (this.mode === 'MERGE' && isSame) return;
    this.queue.push(`U,${this.sub},${this.place},${coded(this.before, projected)}`);
    this.before = projected;
  }

  offer(own) {
    const { item, mode } = this;
    if (mode === 'MERGE') this.#tell(item.row);
    if (mode === 'DISTINCT' || mode === 'RAW') this.#tell(own);
    if (mode !== 'COMMAND') return;
    const key = own[item.key];
    const row = item.keys.get(key);
    if (row !== undefined) {
      this.#tell(this.#keyed(row, this.table.has(key) ? 'UPDATE' : 'ADD'));
    } else if (this.table.delete(key)) {
      this.#tell(item.fields.map((name) => (name === 'key' ? key : name === 'command' ? 'DELETE' : null)));
    }
  }

  clear() {
    if (this.mode === 'MERGE') this.#tell(this.item.row);
    if (this.mode !== 'DISTINCT' && this.mode !== 'COMMAND') return;
    this.table.clear();
    this.queue.push(`CS,${this.sub},${this.place}`);
  }
}

class MockSession {
  constructor(id, items) {
    Object.assign(this, { id, items, lines: [], sent: 0, stream: null, subs: new Map(), ended: false });
  }

  bind(connection, keepalive, first) {
    if (this.stream !== null) this.stream.session = null;
    this.stream = connection;
    connection.session = this;
    connection.beat(keepalive);
    for (const line of [`CONOK,${this.id},50000,${keepalive},*`, 'SERVNAME,tlcpd', 'CONS,unlimited', ...first]) {
      connection.put(line);
    }
    this.pump();
  }

  number(line) {
    this.lines.push(line);
  }

  /** Numbers what the slots have to tell, and gives what the stream hasn't got. */
  pump() {
    if (this.stream === null) return;
    for (const slots of this.subs.values()) {
      for (const slot of slots) this.lines.push(...slot.queue.splice(0));
    }
    while (this.stream !== null && this.sent < this.lines.length) {
      this.sent += 1;
      this.stream.put(this.lines[this.sent - 1]);
    }
  }

  unbind() {
    this.stream = null;
  }

  control(parameters) {
    const sub = Number(parameters.get('LS_subId'));
    switch (parameters.get('LS_op')) {
      case 'add': return this.#add(sub, parameters);
      case 'delete':
        if (!this.subs.has(sub)) return 19;
        this.pump();
        for (const slot of this.subs.get(sub)) slot.item.slots.delete(slot);
        this.subs.delete(sub);
        this.number(`UNSUB,${sub}`);
        return 0;
      case 'reconf':
        if (!this.subs.has(sub)) return 19;
        this.number(`CONF,${sub},${frequencyOf(parameters)},filtered`);
        return 0;
      case 'constrain':
        this.stream?.put(`CONS,${parameters.get('LS_requested_max_bandwidth')}`);
        return 0;
      case 'force_rebind':
        this.stream?.put('LOOP,0');
        this.unbind();
        return 0;
      case 'destroy':
        this.end();
        return 0;
      default: return 65;
    }
  }

  end() {
    this.ended = true;
    this.stream?.put(`END,31,${MESSAGES[31]}`);
    for (const slots of this.subs.values()) for (const slot of slots) slot.item.slots.delete(slot);
    this.subs.clear();
  }

  #add(sub, parameters) {
    const [mode, group, schema] = ['LS_mode', 'LS_group', 'LS_schema'].map((name) => parameters.get(name));
    const [names, fields] = [group.split(' '), schema.split(' ')];
    if (this.subs.has(sub)) return 72;
    if (!names.every((name) => this.items.has(name)) || new Set(names).size < names.length) return 21;
    const items = names.map((name) => this.items.get(name));
    if (!items.every((item) => mode === 'RAW' || item.kind === mode)) return 24;
    if (!items.every((item) => fields.every((name) => item.fields.includes(name)))) return 23;
    const places = ['key', 'command'].map((name) => fields.indexOf(name) + 1);
    if (mode === 'COMMAND' && places.includes(0)) return 23;
    const sizes = `${sub},${items.length},${fields.length}`;
    this.number(mode === 'COMMAND' ? `SUBCMD,${sizes},${places.join(',')}` : `SUBOK,${sizes}`);
    this.number(`CONF,${sub},${mode === 'RAW' ? 'unlimited,unfiltered' : `${frequencyOf(parameters)},filtered`}`);
    const snapshot = parameters.get('LS_snapshot') ?? 'false';
    const slots = items.map((item, at) => new Slot(this, sub, at + 1, item, mode, fields, snapshot));
    slots.forEach((slot) => slot.item.slots.add(slot));
    this.subs.set(sub, slots);
    return 0;
  }
}

function frequencyOf(parameters) {
  const asked = parameters.get('LS_requested_max_frequency') ?? 'unlimited';
  return asked === 'unlimited' || asked === 'unfiltered' ? 'unlimited' : Number(asked).toFixed(1);
}

// ---- Connections

class Connection {
  session = null;
  #server;
  #socket;
  #frames = new FrameReader();
  #beating;
  #keepalive = 0;

  constructor(server, socket) {
    this.#server = server;
    this.#socket = socket;
    socket.setNoDelay(true);
    socket.on('data', (piece) => this.#frames.take(piece).forEach((one) => this.#message(one)));
    socket.on('error', () => {});
    socket.on('close', () => {
      clearTimeout(this.#beating);
      server.connections.delete(this);
      if (this.session?.stream === this) this.session.unbind();
    });
  }

  put(line) {
    if (!this.#socket.destroyed) this.#socket.write(frame(OPCODE.TEXT, `${line}\r\n`, false));
    this.beat(this.#keepalive);
  }

  /** A PROBE comes after each silence of this length. */
  beat(keepalive) {
    this.#keepalive = keepalive;
    clearTimeout(this.#beating);
    if (keepalive > 0) this.#beating = setTimeout(() => this.put('PROBE'), keepalive);
  }

  destroy() {
    this.#socket.destroy();
  }

  #message({ opcode, payload }) {
    if (opcode === OPCODE.CLOSE) this.#socket.end(frame(OPCODE.CLOSE, payload, false));
    if (opcode !== OPCODE.TEXT) return;
    const [name, ...lines] = payload.toString().split(/\r?\n/);
    const texts = lines.filter((line) => line !== '');
    for (const text of name === 'control' ? texts : [texts[0] ?? '']) this.#request(name, new URLSearchParams(text));
  }

  #request(name, parameters) {
    this.#server.requests.push({ name, parameters });
    if (name === 'wsok') {
      this.put('WSOK');
    } else if (name === 'create_session') {
      this.#server.create().bind(this, this.#keepaliveOf(parameters), []);
    } else if (name === 'bind_session') {
      this.#bind(parameters);
    } else if (name === 'control') {
      this.#control(parameters);
    } else {
      this.put(`ERROR,65,${MESSAGES[65]}`);
    }
  }

  #keepaliveOf(parameters) {
    return Math.min(30000, Math.max(1000, Number(parameters.get('LS_keepalive_millis') ?? 5000)));
  }

  #bind(parameters) {
    const session = this.#server.sessions.get(parameters.get('LS_session'));
    const from = parameters.get('LS_recovery_from');
    const refuse = (code) => this.put(`CONERR,${code},${MESSAGES[code]}`);
    if (session === undefined || session.ended) return refuse(20);
    if (from !== null && Number(from) > session.lines.length) return refuse(4);
    if (from !== null) session.sent = Number(from);
    session.bind(this, this.#keepaliveOf(parameters), from === null ? [] : [`PROG,${from}`]);
  }

  #control(parameters) {
    const asked = parameters.get('LS_session');
    const session = asked === null ? this.session : this.#server.sessions.get(asked);
    const id = parameters.get('LS_reqId');
    const code = session === undefined || session === null || session.ended ? 20 : null;
    // The answer comes before the lines.
    const answer = (found) => this.put(found === 0 ? `REQOK,${id}` : `REQERR,${id},${found},${MESSAGES[found]}`);
    if (code !== null) return answer(code);
    if (['destroy', 'force_rebind', 'constrain'].includes(parameters.get('LS_op'))) {
      answer(0);
      session.control(parameters);
    } else {
      answer(session.control(parameters));
      session.pump();
    }
  }
}

// ---- The server

/**
 * Starts a server on 127.0.0.1. A port of 0 is any free one.
 * @returns {Promise<object>} `port` and `feed`; `sessions`, `connections` and `requests`, which tests look at; `close`.
 */
async function start({ port = 0, feed: feedPort = 0, config }) {
  const items = configOf(config);
  const server = { items, sessions: new Map(), connections: new Set(), requests: [] };
  server.create = () => {
    const session = new MockSession(`S${server.sessions.size + 1}`, items);
    server.sessions.set(session.id, session);
    return session;
  };
  const web = http.createServer((request, response) => response.writeHead(404).end());
  web.on('upgrade', (request, socket) => {
    const protocols = (request.headers['sec-websocket-protocol'] ?? '').split(',').map((one) => one.trim());
    if (request.url !== '/lightstreamer' || !protocols.includes(PROTOCOL)) {
      socket.end('HTTP/1.1 400 Bad Request\r\nContent-Length: 0\r\nConnection: close\r\n\r\n');
      return;
    }
    socket.write(['HTTP/1.1 101 Switching Protocols', 'Upgrade: websocket', 'Connection: Upgrade',
      `Sec-WebSocket-Accept: ${acceptValue(request.headers['sec-websocket-key'])}`,
      `Sec-WebSocket-Protocol: ${PROTOCOL}`, '', ''].join('\r\n'));
    server.connections.add(new Connection(server, socket));
  });
  const feeds = net.createServer((socket) => feed(items, socket));
  const listen = (one, at) => new Promise((done, fail) => {
    one.once('error', fail);
    one.listen(at, '127.0.0.1', () => done(one.address().port));
  });
  server.port = await listen(web, port);
  server.feed = await listen(feeds, feedPort);
  server.close = () => {
    for (const connection of server.connections) connection.destroy();
    web.close();
    feeds.close();
  };
  return server;
}

module.exports = { start, coded };

if (require.main === module) {
  const [word, port, feedPort] = process.argv.slice(2);
  if (word !== 'serve' || feedPort === undefined) {
    console.error('usage: mock.js serve PORT FEED < CONFIG');
    process.exit(2);
  }
  start({ port: Number(port), feed: Number(feedPort), config: require('node:fs').readFileSync(0, 'utf8') })
    .then((server) => console.log(`listening ${server.port} ${server.feed}`));
}
