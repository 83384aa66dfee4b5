/**
 * tlcp.js: a client of TLCP 2.1 over WebSocket, for browsers and for node. It has no dependency and needs no build.
 *
 *   const session = new tlcp.Session('ws://localhost:8080/lightstreamer');
 *   const quotes = new tlcp.Subscription({
 *     mode: 'MERGE', items: ['ALDR', 'BRCH'], fields: ['last', 'time'], snapshot: true });
 *   quotes.addEventListener('update', (event) => console.log(event.item, event.value('last')));
 *   session.addEventListener('error', (event) => console.error(event.error));
 *   session.subscribe(quotes);
 *   session.open();
 *
 * How to load it:
 * - a page, also one opened as a file: `<script src="tlcp.js"></script>`, which makes the global `tlcp`;
 * - an ES module: `import { Session, Subscription } from './tlcp.mjs'`;
 * - node: `const tlcp = require('./tlcp.js')`, with a WebSocket of your own (`{ WebSocket: .. }`) where node has none;
 *   socket.js beside this file has one.
 *
 * What it does by itself:
 * - A lost socket is opened again, and the session goes on after the lines that came: none is missed or told twice.
 *   The pauses between tries grow up to a limit, and are drawn at random so that clients don't come all at once.
 * - A session that the server has no more is followed by a new one, to which all subscriptions are added.
 * - LOOP is answered by a bind at once.
 * - A stream that is silent for longer than its keep-alive is `stalled`, and soon counts as lost.
 *
 * The events of a `Session`, all of them in `addEventListener`'s way:
 *
 *   statechange  `state`, `before`, `reason`: see `Session.state`.
 *   session      `id`, `renewed`: a session begins; `renewed` where it follows one that the server has no more.
 *   line         `text`, `counted`: each line that came, before anything else is told of it.
 *   error        `error`: a `RefusedError`, a `LineError` or a `LostError`. The session may go on: `state` tells.
 *   end          `code`, `message`: the session is over and won't be taken up again, except by `open`.
 *
 * The events of a `Subscription`:
 *
 *   subscribed     `items`, `fields`: it begins, and has no rows; also at each new session.
 *   update         an `UpdateEvent`.
 *   endofsnapshot  `item`, `place`: what comes from now on is new (DISTINCT and COMMAND).
 *   clear          `item`, `place`: the item has no rows any more (DISTINCT and COMMAND).
 *   lostupdates    `item`, `place`, `count`: so many updates were lost (RAW).
 *   configured     `maxFrequency`, `filtered`: what the server keeps to.
 *   unsubscribed   it has ended.
 *   error          `error`: a `RefusedError`. A refused `subscribe` leaves the subscription out of the session.
 *
 * Items, fields and places are counted from 1, as in TLCP. A value is a string, or null. Times are in ms.
 * TLCP is the Text mode Lightstreamer Client Protocol. docs/TLCP.md says what of it the server has.
 */
(() => {
  'use strict';

  /** The subprotocol of the WebSocket. */
  const PROTOCOL = 'TLCP-2.1.0.lightstreamer.com';
  const MODES = ['MERGE', 'DISTINCT', 'COMMAND', 'RAW'];
  /** The tags of the lines that a client counts for LS_recovery_from. */
  const COUNTED = new Set(
    ['SUBOK', 'SUBCMD', 'UNSUB', 'CONF', 'EOS', 'CS', 'OV', 'U', 'MSGDONE', 'MSGFAIL']);

  /** Codes of the server's table, docs/TLCP.md (Codes). */
  const CODE = { NOT_RECOVERABLE: 4, TOO_MANY_SESSIONS: 8, UNKNOWN_SUBSCRIPTION: 19, UNKNOWN_SESSION: 20,
    TOO_MANY_LINES: 70, SUBSCRIPTION_IN_USE: 72, SPENT: 74, OUT_OF_MEMORY: 75 };

  // ---- Errors

  /**
   * The server refused a request, or ended the session.
   * `code` and `message` are the server's (docs/TLCP.md, Codes). `request` is what was refused: `create_session`,
   * `bind_session`, the LS_op of a control request, or `END`.
   */
  class RefusedError extends Error {
    constructor(code, message, request) {
      super(message);
      this.name = 'RefusedError';
      this.code = code;
      this.request = request;
    }
  }

  /**
   * A line that can't be read. `line` is its text, and `reason` one of
   * - `BadTag`, `BadCount`, `BadNumber`: its parts;
   * - `TooFew`, `TooMany`, `BadRun`, `BadText`: its coded fields;
   * - `NoKey`, `BadCommand`: its row, in COMMAND;
   * - `Unknown`: it names no live subscription or item; `BadShape`: a subscription of another size than was asked for;
   * - `Gap`: the server goes on beyond the lines that came.
   * The session is left then, since the rows can't be trusted, and a new one is begun after a pause.
   */
  class LineError extends Error {
    constructor(reason, line = '') {
      super(line === '' ? reason : `${reason} in the line ${line}`);
      this.name = 'LineError';
      this.reason = reason;
      this.line = line;
    }
  }

  /** The connection was lost and is given up, after as many tries as `retries` allows. */
  class LostError extends Error {
    constructor(reason) {
      super(reason);
      this.name = 'LostError';
    }
  }

  // ---- Lines and coded fields

  const isNumber = (text) => /^(0|[1-9][0-9]*)$/.test(text) && Number(text) <= Number.MAX_SAFE_INTEGER;

  /** The text that a percent-encoded token stands for. A `%` without two hexadecimal digits stands for itself. */
  function decodeText(token) {
    if (!token.includes('%')) return token;
    try {
      return decodeURIComponent(token.replace(/%(?![0-9a-fA-F]{2})/g, '%25'));
    } catch {
      throw new LineError('BadText');
    }
  }

  /**
   * Reads the coded fields of a U line (TLCP 2.1, U).
   * @param {(string|null)[]|null} previous the row of the U line before it, of the same subscription and item; null
   *   where there is none, which counts as a row of nulls.
   * @param {string} coded the tokens, divided by `|`.
   * @param {number} count how many fields the row has.
   * @returns {(string|null)[]} the row.
   * @throws {LineError} TooFew, TooMany, BadRun or BadText.
   */
  function decodeFields(previous, coded, count) {
    const before = (place) => (previous === null ? null : previous[place]);
    const row = [];
    for (const token of coded.split('|')) {
      if (row.length >= count) throw new LineError('TooMany');
      if (token === '') {
        row.push(before(row.length));
      } else if (token === '#') {
        row.push(null);
      } else if (token === '$') {
        row.push('');
      } else if (token.startsWith('^')) {
        const run = token.slice(1);
        if (!isNumber(run) || run === '0' || Number(run) > count - row.length) throw new LineError('BadRun');
        for (let left = Number(run); left > 0; left -= 1) row.push(before(row.length));
      } else {
        row.push(decodeText(token));
      }
    }
    if (row.length < count) throw new LineError('TooFew');
    return row;
  }

  /** The parts of each line after its tag: `#name` is a number, and `name...` is the rest of the line. */
  const LAYOUTS = {
    CONOK: ['session', '#limit', '#keepalive', 'control'],
    CONERR: ['#code', 'message...'],
    END: ['#code', 'message...'],
    ERROR: ['#code', 'message...'],
    REQOK: ['request'],
    REQERR: ['request', '#code', 'message...'],
    WSOK: [],
    SERVNAME: ['name...'],
    CONS: ['bandwidth'],
    PROG: ['#count'],
    PROBE: [],
    LOOP: ['#delay'],
    SUBOK: ['#sub', '#items', '#fields'],
    SUBCMD: ['#sub', '#items', '#fields', '#key', '#command'],
    CONF: ['#sub', 'frequency', 'filter'],
    UNSUB: ['#sub'],
    EOS: ['#sub', '#item'],
    CS: ['#sub', '#item'],
    OV: ['#sub', '#item', '#count'],
    U: ['#sub', '#item', 'coded...'],
    // Lines that this client counts, where they are counted, and otherwise lets pass.
    MSGDONE: ['rest...'],
    MSGFAIL: ['rest...'],
    SYNC: ['rest...'],
    CLIENTIP: ['rest...'],
    NOOP: ['rest...'],
  };

  /**
   * Reads a line without its CR LF.
   * @returns {object} its `tag`, and its parts by name: numbers as numbers, all else as texts.
   * @throws {LineError} BadTag, BadCount or BadNumber.
   */
  function readLine(text) {
    const parts = text.split(',');
    const tag = parts[0];
    if (!Object.hasOwn(LAYOUTS, tag)) throw new LineError('BadTag', text);
    const layout = LAYOUTS[tag];
    const open = layout.length > 0 && layout[layout.length - 1].endsWith('...');
    if (open ? parts.length <= layout.length : parts.length !== layout.length + 1) {
      throw new LineError('BadCount', text);
    }
    const line = { tag };
    layout.forEach((name, at) => {
      if (name.endsWith('...')) {
        line[name.slice(0, -3)] = parts.slice(at + 1).join(',');
      } else if (name.startsWith('#')) {
        if (!isNumber(parts[at + 1])) throw new LineError('BadNumber', text);
        line[name.slice(1)] = Number(parts[at + 1]);
      } else {
        line[name] = parts[at + 1];
      }
    });
    return line;
  }

  /**
   * The pause before a try, in ms: it doubles with each try up to the limit. The half of it is drawn at random.
   * @param {number} tries how many tries were made in a row before this one, from 0.
   * @param {() => number} random gives a number from 0 to below 1.
   */
  function pauseBefore(tries, first, limit, random) {
    const whole = Math.min(limit, first * 2 ** Math.min(tries, 30));
    return whole / 2 + (whole / 2) * random();
  }

  /** A text of parameters; what is undefined is left out. */
  function formText(parameters) {
    return Object.entries(parameters)
      .filter(([, value]) => value !== undefined)
      .map(([name, value]) => `${name}=${encodeURIComponent(String(value))}`)
      .join('&');
  }

  // ---- Events

  /** An event with members of its own. */
  function eventOf(type, members) {
    return Object.assign(new Event(type), members);
  }

  /**
   * An update of an item.
   * - `item`, `place`: the item's name, and its place in the subscription from 1.
   * - `snapshot`: whether it tells what was there before the subscription. In MERGE with a snapshot that is the first
   *   update of each item, since the protocol tells no more.
   * - `row`: each field's value by its name.
   * - `changed`: the names of the fields whose value isn't that of the row before. That is the item's last one,
   *   or in COMMAND the last one of the same key; where there is none, each field has changed.
   * - `key`, `command`: in COMMAND the row's key, and `ADD`, `UPDATE` or `DELETE`; else undefined. A DELETE has null in
   *   every field except these two.
   */
  class UpdateEvent extends Event {
    constructor(members) {
      super('update');
      Object.assign(this, members);
    }

    /** The value of a field: a text or null. Undefined where the subscription has no such field. */
    value(field) {
      return this.row[field];
    }

    /** Whether the field has another value than in the row before. */
    hasChanged(field) {
      return this.changed.includes(field);
    }
  }

  // ---- Subscriptions

  /** What a subscription is on one session: its number there, and what its lines told so far. */
  class Live {
    constructor(id, subscription) {
      this.id = id;
      this.subscription = subscription;
      // SUBOK or SUBCMD came; `unsubscribe` was called; the subscription isn't in the session any more.
      this.begun = false;
      this.leaving = false;
      this.released = false;
      this.tables = [];
      this.key = 0;
      this.command = 0;
    }

    begin(line) {
      const { items, fields, mode } = this.subscription;
      const places = mode === 'COMMAND' ? [line.key, line.command] : [1];
      const fits = line.items === items.length && line.fields === fields.length &&
        (line.tag === 'SUBCMD') === (mode === 'COMMAND') &&
        places.every((place) => place >= 1 && place <= fields.length);
      if (!fits) throw new LineError('BadShape');
      this.begun = true;
      this.tables = items.map(() => ({ last: null, keys: new Map(), snapshot: this.#hasSnapshot() }));
      if (line.tag === 'SUBCMD') [this.key, this.command] = [line.key - 1, line.command - 1];
    }

    #hasSnapshot() {
      const { mode, snapshot } = this.subscription;
      return mode !== 'RAW' && snapshot !== false && snapshot !== 0;
    }

    table(place) {
      const table = this.tables[place - 1];
      if (table === undefined) throw new LineError('Unknown');
      return table;
    }

    /** Takes a U line, and gives the event that tells of it. */
    update(line) {
      const { mode, fields, items } = this.subscription;
      const table = this.table(line.item);
      const values = decodeFields(table.last, line.coded, fields.length);
      const members = { item: items[line.item - 1], place: line.item, snapshot: table.snapshot };
      let before = table.last;
      if (mode === 'COMMAND') {
        const [key, command] = [values[this.key], values[this.command]];
        if (key === null) throw new LineError('NoKey');
        if (!['ADD', 'UPDATE', 'DELETE'].includes(command)) throw new LineError('BadCommand');
        before = table.keys.get(key) ?? null;
        if (command === 'DELETE') table.keys.delete(key);
        else table.keys.set(key, values);
        Object.assign(members, { key, command });
      } else if (mode === 'MERGE') {
        table.snapshot = false;
      }
      table.last = values;
      members.row = this.subscription._rowOf(values);
      members.changed = fields.filter((name, at) => before === null || before[at] !== values[at]);
      return new UpdateEvent(members);
    }
  }

  /** A set of items and fields, in one mode. Give it to `Session.subscribe`. */
  class Subscription extends EventTarget {
    /** @private */ _session = null;
    /** @private */ _live = null;

    /**
     * @param {object} what
     * @param {'MERGE'|'DISTINCT'|'COMMAND'|'RAW'} what.mode the kind of all its items, or RAW.
     * @param {string[]} what.items 1 to 64 names of items.
     * @param {string[]} what.fields 1 to 64 names of fields; in COMMAND `key` and `command` are among them.
     * @param {boolean|number} [what.snapshot] whether to begin with what is there; in DISTINCT with at most so many
     *   rows. The default is false.
     * @param {number|'unlimited'} [what.bufferSize] how many updates of an item the server keeps apart for a slow
     *   client (MERGE, DISTINCT). The default is the mode's.
     * @param {number|'unlimited'|'unfiltered'} [what.maxFrequency] the most updates per second of each item.
     * @throws {TypeError} where one of these has another form. The server checks the rest.
     */
    constructor({ mode, items, fields, snapshot = false, bufferSize, maxFrequency }) {
      super();
      if (!MODES.includes(mode)) throw new TypeError(`no mode: ${mode}`);
      for (const names of [items, fields]) {
        const good = Array.isArray(names) && names.length > 0 &&
          names.every((name) => typeof name === 'string' && name !== '' && !name.includes(' '));
        if (!good) throw new TypeError('items and fields are lists of names without spaces');
      }
      this.mode = mode;
      this.items = Object.freeze([...items]);
      this.fields = Object.freeze([...fields]);
      this.snapshot = snapshot;
      this.bufferSize = bufferSize;
      this.maxFrequency = maxFrequency;
    }

    /** Whether the server has it on the session of now. */
    get active() {
      return this._live !== null && this._live.begun && !this._live.leaving;
    }

    /**
     * The row that the last update of an item told, by field names; null where none came on this session.
     * @param {string} item the item's name.
     */
    row(item) {
      const values = this.#table(item)?.last ?? null;
      return values === null ? null : this._rowOf(values);
    }

    /**
     * In COMMAND: the rows of an item by their keys, in the order in which the keys were added. Else an empty map.
     * @param {string} item the item's name.
     * @returns {Map<string, object>}
     */
    rows(item) {
      const keys = this.#table(item)?.keys ?? new Map();
      return new Map([...keys].map(([key, values]) => [key, this._rowOf(values)]));
    }

    /**
     * Asks for another frequency. `configured` tells what the server keeps to then.
     * @param {number|'unlimited'} maxFrequency updates per second of each item, above 0.
     */
    setMaxFrequency(maxFrequency) {
      this.maxFrequency = maxFrequency;
      if (this._live !== null && !this._live.leaving) this._session._reconfigure(this._live);
    }

    #table(item) {
      return this._live?.tables[this.items.indexOf(item)];
    }

    /** @private */
    _rowOf(values) {
      return Object.fromEntries(this.fields.map((name, at) => [name, values[at]]));
    }

    /** @private */
    _tell(type, members = {}) {
      this.dispatchEvent(eventOf(type, members));
    }
  }

  // ---- Sessions

  const DEFAULTS = {
    adapterSet: undefined, keepaliveMillis: 5000, maxBandwidth: undefined, connectMillis: 10000, stalledMillis: 2000,
    lostMillis: 3000, pauseMillis: 500, pauseLimitMillis: 10000, retries: Infinity, renew: true,
    random: Math.random, WebSocket: globalThis.WebSocket,
  };

  /** A session with a server, over as many sockets as it takes. */
  class Session extends EventTarget {
    #url;
    #options;
    #state = 'closed';
    #id = null;
    #socket = null;
    /** `idle`; `opening`, no stream was asked for; `asking`, no CONOK yet; `streaming`; `looping`, after LOOP. */
    #phase = 'idle';
    /** How many counted lines came in the session, and how many of them the stream of now has given or skipped. */
    #count = 0;
    #position = 0;
    /** Tries in a row that brought nothing new; sessions that were left for a line that can't be read. */
    #tries = 0;
    #breaks = 0;
    #askedBandwidth;
    #begunBefore = false;
    #keepalive = 0;
    #limit = Infinity;
    #heardAt = 0;
    #pauseTimer;
    #watchTimer;
    /** All subscriptions of this session, whether the server has them or not. */
    #subscriptions = new Set();
    /** Live subscriptions by their numbers, those that leave too. */
    #lives = new Map();
    /** Control requests without an answer, by LS_reqId, in order. */
    #requests = new Map();
    #nextSub = 1;
    #nextRequest = 1;

    /**
     * @param {string} url as `ws://localhost:8080/lightstreamer`.
     * @param {object} [options]
     * @param {string} [options.adapterSet] the name of the server's adapter set. By default any is taken.
     * @param {number} [options.keepaliveMillis] after how long a silence the server shall send PROBE; 1000 to 30000, by
     *   default 5000.
     * @param {number|'unlimited'} [options.maxBandwidth] kbit per second.
     * @param {number} [options.connectMillis] how long a try may take, from the socket to CONOK; by default 10000.
     * @param {number} [options.stalledMillis] how long after a missed keep-alive the stream is `stalled`; 2000.
     * @param {number} [options.lostMillis] how long after that it counts as lost; 3000.
     * @param {number} [options.pauseMillis] the pause before the first try; it doubles with each further one; 500.
     * @param {number} [options.pauseLimitMillis] the longest pause; 10000. Half of each pause is drawn at random.
     * @param {number} [options.retries] how many tries in a row may bring nothing new, and how many sessions may be
     *   left for a line that can't be read; no limit by default.
     * @param {boolean} [options.renew] whether a session that the server has no more is followed by a new one; true.
     * @param {Function} [options.WebSocket] the constructor of sockets, by default that of the browser.
     * @param {() => number} [options.random] for the pauses; Math.random.
     */
    constructor(url, options = {}) {
      super();
      this.#url = url;
      this.#options = { ...DEFAULTS, ...options };
      if (typeof this.#options.WebSocket !== 'function') throw new TypeError('there is no WebSocket here: hand one in');
    }

    /**
     * - `closed`: not opened yet, or closed by `close`.
     * - `connecting`: there is no session yet.
     * - `open`: lines come.
     * - `stalled`: nothing came for longer than the keep-alive.
     * - `recovering`: the socket was lost, and the session is to be taken up by another one.
     * - `ended`: ended by the server, refused for good, or given up; `end` told why.
     */
    get state() {
      return this.#state;
    }

    /** The session's name at the server, or null. */
    get id() {
      return this.#id;
    }

    /** How many counted lines came in this session: what LS_recovery_from tells. */
    get count() {
      return this.#count;
    }

    /** The subscriptions of this session, those that wait for it to open too. */
    get subscriptions() {
      return [...this.#subscriptions];
    }

    /** Opens the session. Nothing happens where it is open, or about to be. After `end` or `close` a new one begins. */
    open() {
      if (this.#state !== 'closed' && this.#state !== 'ended') return;
      this.#tries = 0;
      this.#breaks = 0;
      this.#forget();
      globalThis.addEventListener?.('online', this.#online);
      this.#setState('connecting', 'open');
      // A listener may have closed the session meanwhile.
      if (this.#isWaiting()) this.#connect();
    }

    /**
     * Ends the session at the server, where that can be reached, and closes the socket. The subscriptions stay with the
     * session, for a later `open`.
     */
    close() {
      if (this.#state === 'closed' || this.#state === 'ended') return;
      this.#destroy();
      this.#stop('closed', 'close');
    }

    /**
     * Adds a subscription, now or as soon as the session is open. Its `subscribed` or `error` tells what came of it.
     * @throws {TypeError} where the subscription is in a session already.
     */
    subscribe(subscription) {
      if (subscription._session !== null) throw new TypeError('the subscription is in a session');
      subscription._session = this;
      this.#subscriptions.add(subscription);
      if (this.#id !== null) this.#add(subscription);
    }

    /**
     * Takes a subscription out of this session. No update of it is told any more. `unsubscribed` comes when the server
     * has ended it, or at once where the server doesn't have it. Then it may be subscribed again.
     * @throws {TypeError} where the subscription isn't in this session.
     */
    unsubscribe(subscription) {
      if (subscription._session !== this) throw new TypeError("the subscription isn't in this session");
      this.#subscriptions.delete(subscription);
      const live = subscription._live;
      if (live === null) {
        subscription._session = null;
        subscription._tell('unsubscribed');
      } else if (!live.leaving) {
        live.leaving = true;
        this.#request('delete', { LS_subId: live.id }, live);
      }
    }

    /**
     * Asks for another bandwidth of the session.
     * @param {number|'unlimited'} maxBandwidth kbit per second, above 0.
     */
    constrain(maxBandwidth) {
      this.#options.maxBandwidth = maxBandwidth;
      if (this.#id !== null) this.#request('constrain', { LS_requested_max_bandwidth: maxBandwidth });
    }

    /** Asks the server to leave this stream: LOOP comes, and the session is bound anew at once. */
    forceRebind() {
      if (this.#phase === 'streaming') this.#request('force_rebind', {});
    }

    // The socket and its streams

    #connect() {
      this.#phase = 'opening';
      let socket;
      try {
        socket = new this.#options.WebSocket(this.#url, PROTOCOL);
      } catch (error) {
        this.#end(0, error.message, error);
        return;
      }
      this.#socket = socket;
      socket.onopen = () => this.#isOf(socket) && this.#ask();
      socket.onmessage = (event) => this.#isOf(socket) && this.#message(socket, String(event.data));
      socket.onclose = () => this.#isOf(socket) && this.#lose('the socket was closed');
      // A close follows each error of a socket.
      socket.onerror = () => {};
      this.#heard();
      this.#watch();
    }

    #isOf(socket) {
      return this.#socket === socket;
    }

    /** Asks for a stream: for a session, or for the lines after those that came. */
    #ask() {
      const { adapterSet, keepaliveMillis, maxBandwidth } = this.#options;
      const looping = this.#phase === 'looping';
      this.#phase = 'asking';
      if (this.#id === null) {
        this.#askedBandwidth = maxBandwidth;
        this.#send('create_session', { LS_adapter_set: adapterSet, LS_keepalive_millis: keepaliveMillis,
          LS_requested_max_bandwidth: maxBandwidth });
        return;
      }
      // After LOOP each line has come, so the stream goes on by itself.
      this.#position = this.#count;
      this.#send('bind_session', { LS_session: this.#id, LS_keepalive_millis: keepaliveMillis,
        LS_recovery_from: looping ? undefined : this.#count });
    }

    #send(name, parameters) {
      this.#socket.send(`${name}\r\n${formText(parameters)}`);
    }

    #message(socket, data) {
      for (const text of data.split('\r\n')) {
        if (text === '') continue;
        this.#heard();
        // A line before this one may have ended the socket's part, or a listener.
        if (!this.#isOf(socket)) return;
        try {
          this.#line(socket, text);
        } catch (error) {
          if (!(error instanceof LineError)) throw error;
          this.#break(error.line === '' ? new LineError(error.reason, text) : error);
        }
      }
    }

    /** Lets the server end the session at once, where a socket is there to ask it. */
    #destroy() {
      if (this.#id === null || this.#socket === null || this.#phase === 'opening') return;
      this.#send('control', { LS_reqId: this.#requestId(), LS_session: this.#id, LS_op: 'destroy' });
    }

    /** Leaves the socket: nothing of it is heard any more. */
    #drop() {
      const socket = this.#socket;
      this.#socket = null;
      this.#phase = 'idle';
      clearTimeout(this.#watchTimer);
      clearTimeout(this.#pauseTimer);
      if (socket === null) return;
      socket.onopen = socket.onmessage = socket.onclose = null;
      try {
        socket.close();
      } catch {
        // It is left all the same.
      }
    }

    #lose(reason) {
      this.#drop();
      if (this.#tries >= this.#options.retries) {
        this.#end(0, reason, new LostError(reason));
        return;
      }
      const { pauseMillis, pauseLimitMillis, random } = this.#options;
      const pause = pauseBefore(this.#tries, pauseMillis, pauseLimitMillis, random);
      this.#tries += 1;
      this.#setState(this.#id === null ? 'connecting' : 'recovering', reason);
      // A listener may have closed the session meanwhile, and opened it again.
      if (!this.#isWaiting()) return;
      clearTimeout(this.#pauseTimer);
      this.#pauseTimer = setTimeout(() => this.#connect(), pause);
    }

    #isWaiting() {
      return this.#socket === null && (this.#state === 'connecting' || this.#state === 'recovering');
    }

    /** A browser that is online again needn't wait for the pause. */
    #online = () => {
      if (!this.#isWaiting()) return;
      clearTimeout(this.#pauseTimer);
      this.#connect();
    };

    /** A line can't be read: what the session's lines told so far can't be gone on with. Each time the pause grows. */
    #break(error) {
      const socket = this.#socket;
      this.#breaks += 1;
      this.#tries = this.#breaks;
      this.#destroy();
      this.#forget();
      this.#fail(error);
      if (!this.#isOf(socket)) return;
      if (this.#options.renew) this.#lose(error.message);
      else this.#end(0, error.message);
    }

    /** The session is unknown from now on. Its subscriptions wait for the next one. */
    #forget() {
      this.#id = null;
      this.#count = 0;
      this.#position = 0;
      this.#requests.clear();
      const lives = [...this.#lives.values()].filter((live) => !live.released);
      this.#lives.clear();
      for (const live of lives.filter((one) => !one.leaving)) live.subscription._live = null;
      for (const live of lives.filter((one) => one.leaving)) this.#release(live);
    }

    #stop(state, reason) {
      this.#drop();
      this.#forget();
      globalThis.removeEventListener?.('online', this.#online);
      this.#setState(state, reason);
    }

    #end(code, message, error = null) {
      this.#stop('ended', message);
      if (error !== null) this.#fail(error);
      this.dispatchEvent(eventOf('end', { code, message }));
    }

    #fail(error) {
      this.dispatchEvent(eventOf('error', { error }));
    }

    #setState(state, reason) {
      const before = this.#state;
      if (state === before) return;
      this.#state = state;
      this.dispatchEvent(eventOf('statechange', { state, before, reason }));
    }

    // Silence

    #heard() {
      this.#heardAt = performance.now();
      if (this.#state === 'stalled') this.#setState('open', 'a line came');
    }

    /** Looks at the silence again when it may have become too long. A late look does no harm. */
    #watch() {
      clearTimeout(this.#watchTimer);
      const silence = performance.now() - this.#heardAt;
      const { connectMillis, stalledMillis, lostMillis } = this.#options;
      const stalled = this.#phase === 'streaming' ? this.#keepalive + stalledMillis : Infinity;
      const lost = this.#phase === 'streaming' ? stalled + lostMillis : connectMillis;
      if (silence >= lost) {
        this.#lose(this.#phase === 'streaming' ? 'no keep-alive came' : 'no answer came');
        return;
      }
      if (silence >= stalled) this.#setState('stalled', 'no keep-alive came');
      if (this.#socket === null) return;
      const wait = (silence < stalled && stalled < lost ? stalled : lost) - silence;
      this.#watchTimer = setTimeout(() => this.#watch(), Math.ceil(wait));
    }

    // Lines

    #line(socket, text) {
      const counted = COUNTED.has(text.split(',', 1)[0]);
      this.dispatchEvent(eventOf('line', { text, counted }));
      if (!this.#isOf(socket)) return;
      const line = readLine(text);
      if (!counted) {
        this.#uncounted(line);
        return;
      }
      this.#position += 1;
      // A server may go on from an earlier line than it was asked to.
      if (this.#position <= this.#count) return;
      this.#count = this.#position;
      this.#tries = 0;
      this.#data(line);
    }

    #uncounted(line) {
      switch (line.tag) {
        case 'CONOK': this.#begin(line); break;
        case 'CONERR': this.#refused(line); break;
        case 'END': this.#end(line.code, line.message, new RefusedError(line.code, line.message, 'END')); break;
        case 'ERROR': this.#fail(new RefusedError(line.code, line.message, 'control')); break;
        case 'REQOK': this.#answered(line.request, null); break;
        case 'REQERR': this.#answered(line.request, line); break;
        case 'PROBE': this.#tries = 0; break;
        case 'LOOP': this.#loop(line.delay); break;
        case 'PROG':
          if (line.count > this.#count) throw new LineError('Gap');
          this.#position = line.count;
          break;
        default:
      }
    }

    #begin(line) {
      const isNew = this.#id === null;
      const socket = this.#socket;
      this.#phase = 'streaming';
      this.#keepalive = line.keepalive;
      this.#limit = line.limit;
      this.#id = line.session;
      this.#watch();
      if (isNew) {
        const renewed = this.#begunBefore;
        this.#begunBefore = true;
        for (const subscription of [...this.#subscriptions]) this.#add(subscription);
        if (this.#options.maxBandwidth !== this.#askedBandwidth) this.constrain(this.#options.maxBandwidth);
        this.dispatchEvent(eventOf('session', { id: line.session, renewed }));
      }
      if (!this.#isOf(socket)) return;
      this.#flush();
      this.#setState('open', 'a stream began');
    }

    #refused({ code, message }) {
      const socket = this.#socket;
      const asked = this.#id === null ? 'create_session' : 'bind_session';
      const error = new RefusedError(code, message, asked);
      const gone = [CODE.NOT_RECOVERABLE, CODE.UNKNOWN_SESSION, CODE.SPENT].includes(code);
      if (asked === 'bind_session' && gone && this.#options.renew) {
        // The socket is as good as before: the next session begins on it.
        this.#forget();
        this.#setState('connecting', message);
        this.#fail(error);
        if (this.#isOf(socket)) this.#ask();
      } else if (code === CODE.TOO_MANY_SESSIONS || code === CODE.OUT_OF_MEMORY) {
        this.#fail(error);
        if (this.#isOf(socket)) this.#lose(message);
      } else {
        this.#end(code, message, error);
      }
    }

    #loop(delay) {
      this.#phase = 'looping';
      if (delay === 0) this.#ask();
      else this.#pauseTimer = setTimeout(() => this.#ask(), delay);
      this.#watch();
    }

    #data(line) {
      if (line.tag === 'MSGDONE' || line.tag === 'MSGFAIL') return;
      const live = this.#lives.get(line.sub);
      if (live === undefined) throw new LineError('Unknown');
      const { subscription } = live;
      if (line.tag === 'UNSUB') {
        this.#leave(live);
        return;
      }
      if (live.leaving) {
        // An add that an earlier socket still held was done after the delete was refused: it is deleted again.
        if (live.released && line.items !== undefined) this.#request('delete', { LS_subId: live.id }, live);
        return;
      }
      const at = line.item === undefined ? {} : { item: subscription.items[line.item - 1], place: line.item };
      if (line.tag === 'SUBOK' || line.tag === 'SUBCMD') {
        live.begin(line);
        subscription._tell('subscribed', { items: line.items, fields: line.fields });
      } else if (line.tag === 'CONF') {
        const maxFrequency = line.frequency === 'unlimited' ? line.frequency : Number(line.frequency);
        subscription._tell('configured', { maxFrequency, filtered: line.filter === 'filtered' });
      } else if (line.tag === 'U') {
        subscription.dispatchEvent(live.update(line));
      } else if (line.tag === 'EOS') {
        live.table(line.item).snapshot = false;
        subscription._tell('endofsnapshot', at);
      } else if (line.tag === 'CS') {
        live.table(line.item).keys.clear();
        subscription._tell('clear', at);
      } else {
        live.table(line.item);
        subscription._tell('lostupdates', { ...at, count: line.count });
      }
    }

    // Requests

    #add(subscription) {
      const live = new Live(this.#nextSub, subscription);
      this.#nextSub += 1;
      this.#lives.set(live.id, live);
      subscription._live = live;
      this.#request('add', {
        LS_subId: live.id, LS_mode: subscription.mode, LS_group: subscription.items.join(' '),
        LS_schema: subscription.fields.join(' '), LS_snapshot: subscription.snapshot,
        LS_requested_buffer_size: subscription.bufferSize, LS_requested_max_frequency: subscription.maxFrequency,
      }, live);
    }

    /** @private */
    _reconfigure(live) {
      const { maxFrequency } = live.subscription;
      this.#request('reconf', { LS_subId: live.id, LS_requested_max_frequency: maxFrequency }, live);
    }

    #requestId() {
      this.#nextRequest += 1;
      return String(this.#nextRequest - 1);
    }

    /** A control request: it is sent now, or when the next stream begins. */
    #request(op, parameters, live = null) {
      const id = this.#requestId();
      this.#requests.set(id, { id, op, parameters, live, socket: null, again: false });
      if (this.#phase === 'streaming') this.#flush();
    }

    /**
     * Sends what this socket wasn't asked yet. What an earlier socket was asked is asked again, since its answer may
     * have been lost with it.
     */
    #flush() {
      for (const request of [...this.#requests.values()]) {
        if (request.socket === this.#socket) continue;
        request.again = request.socket !== null;
        request.socket = this.#socket;
        if (request.again && this.#isVoid(request)) {
          this.#requests.delete(request.id);
          continue;
        }
        const text = formText({ LS_reqId: request.id, LS_session: this.#id, LS_op: request.op, ...request.parameters });
        if (`control\r\n${text}`.length <= this.#limit) this.#socket.send(`control\r\n${text}`);
        else this.#answered(request.id, { code: 65, message: 'Malformed request' });
      }
    }

    /**
     * Whether a request of an earlier socket isn't to be asked again: an add that a delete follows, which would add a
     * second time where both were done; and a wish to leave a stream that is left.
     */
    #isVoid({ op, live }) {
      return op === 'force_rebind' || (op === 'add' && live.leaving);
    }

    /** The answer to a request; `refusal` has its code and message, or is null. */
    #answered(id, refusal) {
      const request = this.#requests.get(id);
      if (request === undefined) return;
      this.#requests.delete(id);
      if (refusal === null) return;
      const { op, live, again } = request;
      const { code, message } = refusal;
      const error = new RefusedError(code, message, op);
      if (op === 'add') {
        // Where the code is this one, an earlier socket brought the request through.
        if (!again || code !== CODE.SUBSCRIPTION_IN_USE) this.#notAdded(live, error);
      } else if (op === 'delete') {
        this.#notDeleted(request, error);
      } else if (live === null) {
        this.#fail(error);
      } else if (!live.leaving) {
        live.subscription.dispatchEvent(eventOf('error', { error }));
      }
    }

    #notAdded(live, error) {
      const { subscription } = live;
      this.#lives.delete(live.id);
      if (live.leaving) {
        this.#release(live);
        return;
      }
      live.released = true;
      this.#subscriptions.delete(subscription);
      subscription._live = null;
      subscription._session = null;
      subscription.dispatchEvent(eventOf('error', { error }));
    }

    /**
     * A delete of what the server hasn't: it was never added, or an earlier socket brought the delete through. In the
     * latter case UNSUB is among the lines to come, so the number is kept until then.
     * A delete that is refused for a lack of room is asked again after a pause.
     */
    #notDeleted({ parameters, live }, error) {
      if (error.code === CODE.UNKNOWN_SUBSCRIPTION) {
        if (!live.begun) this.#release(live);
      } else if (error.code === CODE.TOO_MANY_LINES || error.code === CODE.OUT_OF_MEMORY) {
        const session = this.#id;
        setTimeout(() => {
          if (this.#id === session) this.#request('delete', parameters, live);
        }, this.#options.pauseMillis);
      } else {
        this.#fail(error);
      }
    }

    /** The server has this subscription no more. */
    #leave(live) {
      this.#lives.delete(live.id);
      this.#release(live);
    }

    /** Hands the subscription back, once. */
    #release(live) {
      if (live.released) return;
      const { subscription } = live;
      live.released = true;
      this.#subscriptions.delete(subscription);
      subscription._live = null;
      subscription._session = null;
      subscription._tell('unsubscribed');
    }
  }

  const tlcp = { Session, Subscription, UpdateEvent, RefusedError, LineError, LostError, PROTOCOL, decodeFields,
    readLine, pauseBefore };
  if (typeof module === 'object' && module.exports) module.exports = tlcp;
  else globalThis.tlcp = tlcp;
})();
