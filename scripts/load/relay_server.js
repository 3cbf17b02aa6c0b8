// A small Socket.IO server with the events of the load, `join` and `say`, on node's http, `ws` and `socket.io-parser`: what
// node_server.js and node_cluster.js share. An upper bound for the `socket.io` package: it has no middleware, no upgrade and
// no recovery. As that package does, it frames a broadcast once for all WebSockets, and writes each message by itself; with
// `gathers` it writes once a turn of the event loop, which that package doesn't.
'use strict';
process.env.NODE_PATH = '/usr/share/nodejs';        // Debian's node-ws and node-socket.io-parser
require('module').Module._initPaths();
const http = require('http');
const crypto = require('crypto');
const { Sender, WebSocketServer } = require('ws');
const { Encoder, Decoder, PacketType } = require('socket.io-parser');

const SEPARATOR = '\x1e';
const TEXT = 1;
const BINARY = 2;
const clients = new Map();
const rooms = new Map();                                     // a room's clients
const corked = new Set();                                    // streams
const encoder = new Encoder();
let next = 1;
let digit = '';                                              // the first of each id and offset
let publish = () => {};
let gathers = false;

const marked = (text) => digit + text.slice(digit.length);
const id = () => marked(crypto.randomBytes(16).toString('hex'));
const offset = () => marked((next++).toString(16).padStart(16, '0'));

function frame(data, opcode) {
  return Buffer.concat(Sender.frame(Buffer.from(data), { fin: true, rsv1: false, mask: false, readOnly: true, opcode }));
}

// The parts of a packet, made ready for each transport once.
class Message {
  constructor(parts) { this.parts = parts; }
  get frames() {
    const framed = (part) => typeof part === 'string' ? frame('4' + part, TEXT) : frame(part, BINARY);
    return this.framed ??= this.parts.map(framed);
  }
  get texts() {
    return this.told ??= this.parts.map((part) => typeof part === 'string' ? '4' + part : 'b' + part.toString('base64'));
  }
}

class Client {
  constructor(ws) {
    Object.assign(this, { sid: id(), ws, box: [], get: null, rooms: new Set(), decoder: new Decoder() });
    this.decoder.on('decoded', (packet) => this.packet(packet));
    this.beat = setInterval(() => this.raw('2'), 25000);
    clients.set(this.sid, this);
  }

  open() {
    return '0' + JSON.stringify({ sid: this.sid, upgrades: [], pingInterval: 25000, pingTimeout: 20000, maxPayload: 1000000 });
  }

  raw(text) {
    if (this.ws) return this.ws.send(text);
    this.box.push(text);
    this.flush();
  }

  send(message) {
    if (this.ws) return sendFrames(this.ws, message.frames);
    this.box.push(...message.texts);
    this.flush();
  }

  tell(packet) { this.send(new Message(encoder.encode({ nsp: '/', ...packet }))); }

  flush() {
    if (!this.get || !this.box.length) return;
    answer(this.get, 200, this.box.join(SEPARATOR));
    this.get = null;
    this.box = [];
  }

  data(text) {
    if (text[0] === '4') this.decode(text.slice(1));
    else if (text[0] === 'b') this.decode(Buffer.from(text.slice(1), 'base64'));
    else if (text[0] === '1') this.close();
  }

  decode(part) {
    try {
      this.decoder.add(part);
    } catch (error) {
      this.close();
    }
  }

  packet({ type, id: number, data }) {
    if (type === PacketType.CONNECT) {
      this.join(this.sid);
      return this.tell({ type: PacketType.CONNECT, data: { sid: id(), pid: id() } });
    }
    if (type !== PacketType.EVENT && type !== PacketType.BINARY_EVENT) return;
    if (data[0] === 'join') this.join(data[1]);
    if (data[0] === 'say') cast(this, data);
    if (number !== undefined) this.tell({ type: PacketType.ACK, id: number, data: [] });
  }

  join(room) {
    if (!rooms.has(room)) rooms.set(room, new Set());
    rooms.get(room).add(this);
    this.rooms.add(room);
  }

  close() {
    clearInterval(this.beat);
    for (const room of this.rooms) {
      rooms.get(room).delete(this);
      if (!rooms.get(room).size) rooms.delete(room);
    }
    this.rooms.clear();
    clients.delete(this.sid);
    if (this.get) answer(this.get, 200, '1');
    this.get = null;
    if (this.ws) this.ws.close();
  }
}

function sendFrames(ws, frames) {
  if (ws.readyState !== ws.OPEN) return;
  if (gathers) cork(ws._socket);
  for (const bytes of frames) ws._sender.sendFrame([bytes]);
}

// What is sent over it from now on is written when this turn of the event loop ends.
function cork(socket) {
  if (!corked.size) setImmediate(uncork);
  if (!corked.has(socket)) socket.cork();
  corked.add(socket);
}

function uncork() {
  for (const socket of corked) socket.uncork();
  corked.clear();
}

// To the members of the room but the sender.
function cast(sender, data) {
  const sent = { room: data[1], parts: encoder.encode({ type: PacketType.EVENT, nsp: '/', data: [...data, offset()] }) };
  deliver(sent, sender);
  publish(sent);
}

// Gives what was cast, here or at another worker, to the clients of this process.
function deliver({ room, parts }, except = null) {
  const message = new Message(parts);
  for (const client of rooms.get(room) || []) if (client !== except) client.send(message);
}

function answer(response, status, text) {
  const body = Buffer.from(text);
  response.writeHead(status, { 'Content-Type': 'text/plain; charset=UTF-8', 'Content-Length': body.length });
  response.end(body);
}

function polled(request, response) {
  const sid = new URL(request.url, 'http://x').searchParams.get('sid');
  if (!sid) return answer(response, 200, new Client(null).open());
  const client = clients.get(sid);
  if (!client) return answer(response, 400, '{"code":1,"message":"Session ID unknown"}');
  if (request.method === 'GET') {
    client.get = response;
    return client.flush();
  }
  const pieces = [];
  request.on('data', (piece) => pieces.push(piece));
  request.on('end', () => {
    for (const text of Buffer.concat(pieces).toString().split(SEPARATOR)) client.data(text);
    answer(response, 200, 'ok');
  });
}

function opened(ws) {
  const client = new Client(ws);
  ws.send(client.open());
  ws.on('message', (message, isBinary) => isBinary ? client.decode(message) : client.data(message.toString()));
  ws.on('close', () => client.close());
  ws.on('error', () => {});                         // 'close' comes after it
}

// The server of this process, which listens nowhere yet. `options.digit` begins its ids, and `options.publish` is given
// each cast, for `deliver` at the other workers.
exports.createServer = (options = {}) => {
  ({ digit = '', publish = () => {}, gathers = false } = options);
  const server = http.createServer(polled);
  const webSockets = new WebSocketServer({ noServer: true, perMessageDeflate: false });
  server.on('upgrade', (request, socket, head) => {
    socket.setNoDelay(true);
    webSockets.handleUpgrade(request, socket, head, opened);
  });
  server.keepAliveTimeout = 60000;
  return server;
};
exports.deliver = deliver;
