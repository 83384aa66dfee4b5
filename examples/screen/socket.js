/**
 * socket.js: frames of WebSocket (RFC 6455) for node, and a small client socket with the members of a browser's
 * WebSocket that tlcp.js uses: `onopen`, `onmessage`, `onclose`, `onerror`, `send`, `close`, `readyState`.
 * Text messages only, `ws:` only, no extensions. `destroy` loses the connection as a broken network does.
 */
'use strict';

const crypto = require('node:crypto');
const net = require('node:net');

const OPCODE = { CONTINUATION: 0, TEXT: 1, BINARY: 2, CLOSE: 8, PING: 9, PONG: 10 };

/** The accept value of a handshake (RFC 6455, 4.2.2). */
function acceptValue(key) {
  return crypto.createHash('sha1').update(`${key}258EAFA5-E914-47DA-95CA-C5AB0DC85B11`).digest('base64');
}

/** A whole frame (RFC 6455, 5.2). A client masks its frames. */
function frame(opcode, payload, masked) {
  const body = Buffer.from(payload);
  const bit = masked ? 0x80 : 0;
  let head;
  if (body.length < 126) {
    head = Buffer.from([0x80 | opcode, bit | body.length]);
  } else if (body.length < 65536) {
    head = Buffer.from([0x80 | opcode, bit | 126, body.length >> 8, body.length & 255]);
  } else {
    head = Buffer.alloc(10);
    head[0] = 0x80 | opcode;
    head[1] = bit | 127;
    head.writeBigUInt64BE(BigInt(body.length), 2);
  }
  if (!masked) return Buffer.concat([head, body]);
  const mask = crypto.randomBytes(4);
  for (let at = 0; at < body.length; at += 1) body[at] ^= mask[at & 3];
  return Buffer.concat([head, mask, body]);
}

/** Reads frames out of pieces of bytes, and joins the fragments of a message. */
class FrameReader {
  #bytes = Buffer.alloc(0);
  #fragments = [];
  #opcode = 0;

  /** @returns {{opcode: number, payload: Buffer}[]} the messages and control frames that are whole now. */
  take(piece) {
    this.#bytes = this.#bytes.length === 0 ? piece : Buffer.concat([this.#bytes, piece]);
    const whole = [];
    for (let one = this.#frame(); one !== null; one = this.#frame()) {
      if (one.opcode >= OPCODE.CLOSE) {
        whole.push(one);
        continue;
      }
      if (one.opcode !== OPCODE.CONTINUATION) this.#opcode = one.opcode;
      this.#fragments.push(one.payload);
      if (!one.last) continue;
      whole.push({ opcode: this.#opcode, payload: Buffer.concat(this.#fragments) });
      this.#fragments = [];
    }
    return whole;
  }

  #frame() {
    const bytes = this.#bytes;
    if (bytes.length < 2) return null;
    const short = bytes[1] & 127;
    const wide = short === 126 ? 2 : short === 127 ? 8 : 0;
    const masked = (bytes[1] & 128) !== 0;
    const start = 2 + wide + (masked ? 4 : 0);
    if (bytes.length < start) return null;
    const length = wide === 0 ? short : wide === 2 ? bytes.readUInt16BE(2) : Number(bytes.readBigUInt64BE(2));
    if (bytes.length < start + length) return null;
    const payload = Buffer.from(bytes.subarray(start, start + length));
    for (let at = 0; masked && at < length; at += 1) payload[at] ^= bytes[start - 4 + (at & 3)];
    this.#bytes = bytes.subarray(start + length);
    return { opcode: bytes[0] & 15, last: (bytes[0] & 128) !== 0, payload };
  }
}

/** A client's WebSocket. */
class ClientSocket {
  onopen = null;
  onmessage = null;
  onclose = null;
  onerror = null;
  /** 0 connecting, 1 open, 2 closing, 3 closed, as in a browser. */
  readyState = 0;
  protocol = '';
  #socket;
  #frames = new FrameReader();
  #head = Buffer.alloc(0);
  #key = crypto.randomBytes(16).toString('base64');
  #asked;

  constructor(url, protocol) {
    const { hostname, port, pathname, search, host } = new URL(url);
    this.#asked = protocol;
    this.#socket = net.connect({ host: hostname, port: Number(port || 80), noDelay: true });
    this.#socket.on('connect', () => this.#socket.write([
      `GET ${pathname}${search} HTTP/1.1`, `Host: ${host}`, 'Upgrade: websocket', 'Connection: Upgrade',
      'Sec-WebSocket-Version: 13', `Sec-WebSocket-Key: ${this.#key}`,
      ...(protocol === undefined ? [] : [`Sec-WebSocket-Protocol: ${protocol}`]), '', '',
    ].join('\r\n')));
    this.#socket.on('data', (piece) => (this.readyState === 0 ? this.#handshake(piece) : this.#take(piece)));
    this.#socket.on('error', (error) => this.onerror?.({ message: error.message }));
    this.#socket.on('close', () => {
      const before = this.readyState;
      this.readyState = 3;
      if (before !== 3) this.onclose?.({ wasClean: before === 2 });
    });
  }

  send(text) {
    if (this.readyState === 0) throw new Error('the socket is not open yet');
    if (this.readyState === 1) this.#socket.write(frame(OPCODE.TEXT, text, true));
  }

  close() {
    if (this.readyState === 1) this.#socket.end(frame(OPCODE.CLOSE, Buffer.from([3, 232]), true));
    if (this.readyState === 0) this.#socket.destroy();
    if (this.readyState < 2) this.readyState = 2;
  }

  destroy() {
    this.#socket.destroy();
  }

  #handshake(piece) {
    this.#head = Buffer.concat([this.#head, piece]);
    const end = this.#head.indexOf('\r\n\r\n');
    if (end < 0) return;
    const lines = this.#head.subarray(0, end).toString('latin1').split('\r\n');
    const headers = new Map(lines.slice(1).map((line) => {
      const colon = line.indexOf(':');
      return [line.slice(0, colon).toLowerCase(), line.slice(colon + 1).trim()];
    }));
    const good = lines[0].startsWith('HTTP/1.1 101') &&
      headers.get('sec-websocket-accept') === acceptValue(this.#key) &&
      headers.get('sec-websocket-protocol') === this.#asked;
    if (!good) {
      this.onerror?.({ message: lines[0] });
      this.#socket.destroy();
      return;
    }
    this.readyState = 1;
    this.protocol = this.#asked ?? '';
    const rest = this.#head.subarray(end + 4);
    this.onopen?.({});
    if (rest.length > 0) this.#take(rest);
  }

  #take(piece) {
    for (const { opcode, payload } of this.#frames.take(piece)) {
      // What comes after a close isn't told any more, as in a browser.
      if (this.readyState !== 1) return;
      if (opcode === OPCODE.TEXT) {
        this.onmessage?.({ data: new TextDecoder('utf-8', { fatal: true, ignoreBOM: true }).decode(payload) });
      } else if (opcode === OPCODE.PING) {
        this.#socket.write(frame(OPCODE.PONG, payload, true));
      } else if (opcode === OPCODE.CLOSE) {
        this.close();
      }
    }
  }
}

module.exports = { ClientSocket, FrameReader, OPCODE, acceptValue, frame };
