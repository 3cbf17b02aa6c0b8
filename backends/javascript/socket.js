// A client's socket in a namespace.
import { EventEmitter } from "node:events";
import { delegate, guarded, lacks, run, tell } from "./parts.js";
import { One, Target } from "./target.js";

// `claims` are what the server verified of a signed token.
class Handshake {
  constructor(auth, claims) {
    this.auth = auth;
    this.claims = claims;
  }
}
lacks(Handshake, "socket.handshake", ["headers", "time", "address", "xdomain", "secure", "issued", "url", "query"]);

export class Socket extends EventEmitter {
  connected = true;
  recovered = false;
  data = {};
  #any = [];
  #middleware = [];
  #held = []; // what came before the program was told of this socket
  #changes = new Map(); // room -> commands on it that the server hasn't answered

  // `link` is to the node that has it.
  constructor(space, link, id, rooms, auth = {}, claims = {}) {
    super();
    this.nsp = space;
    this._link = link;
    this.id = id;
    this.rooms = new Set([id, ...rooms]);
    this.handshake = new Handshake(auth, claims);
  }

  get disconnected() { return !this.connected; }
  get server() { return this.nsp.server; }

  use(middleware) { this.#middleware.push(middleware); return this; }
  onAny(listener) { this.#any.push(listener); return this; }
  prependAny(listener) { this.#any.unshift(listener); return this; }
  offAny(listener) { this.#any = this.#any.filter((other) => listener && other !== listener); return this; }
  listenersAny() { return this.#any; }

  // These are called most, and a call through `delegate` costs more.
  emit(...event) { return One.of(this).emit(...event); }
  to(rooms) { return Target.others(this).to(rooms); }
  get broadcast() { return Target.others(this); }

  join(rooms) { return One.of(this).socketsJoin(rooms); }
  leave(rooms) { return One.of(this).socketsLeave(rooms); }

  // What it sends from now on is dropped. `disconnect` is told when the server has done it.
  disconnect(close = false) {
    if (this.connected) One.of(this).disconnectSockets(close);
    this.connected = false;
    return this;
  }

  // Changes `rooms` at once. Returns what is to be called with whether the server did so. After the last such call of a room
  // it is as the server has it.
  _change(room, joins) {
    const set = (joined) => (joined ? this.rooms.add(room) : this.rooms.delete(room));
    const change = this.#changes.get(room) ?? { joined: this.rooms.has(room), open: 0 };
    this.#changes.set(room, change);
    change.open += 1;
    set(joins);
    return (done) => {
      if (this.#changes.get(room) !== change) return; // the socket has ended
      if (done) change.joined = joins;
      change.open -= 1;
      if (change.open) return;
      this.#changes.delete(room);
      set(change.joined);
    };
  }

  // The program has been told of it: what it has sent meanwhile comes now.
  _begin() {
    const held = this.#held;
    this.#held = null;
    for (const [id, event] of held) this._receive(id, event);
  }

  _receive(id, event) {
    if (this.#held) return this.#held.push([id, event]);
    if (!this.connected) return;
    if (id !== null) event.push(this.#answer(id));
    if (this.#any.length) for (const listener of [...this.#any]) guarded(() => listener.apply(this, event));
    if (!this.#middleware.length) return this.#hear(event);
    run(this.#middleware, event, (error) => (error ? this.#refused(error) : this.#hear(event)));
  }

  #hear(event) {
    if (this.connected && this.#isHeard(event[0])) tell(this, event);
  }

  // A client may name its event `error`, which Node would throw where nobody listens.
  #isHeard(name) { return name !== "error" || this.listenerCount("error") > 0; }

  #refused(error) {
    if (this.#isHeard("error")) tell(this, ["error", error]);
    else console.error("daghzimo-backend: an event was refused, and nobody listens to `error` of the socket:", error);
  }

  #answer(id) {
    let answered = false;
    return (...values) => {
      if (answered) return;
      answered = true;
      this._link.command("emit", { in: this.nsp.name, to: [this.id], answer: id }, values);
    };
  }

  _end(reason, rooms) {
    this.#changes.clear();
    if (rooms) this.rooms = new Set(rooms);
    tell(this, ["disconnecting", reason]);
    this.connected = false;
    this.rooms.clear();
    tell(this, ["disconnect", reason]);
  }
}

// One that this process wasn't told of: it may be another backend's.
export class RemoteSocket {
  constructor(space, id, link) {
    this.nsp = space;
    this.id = id;
    this._link = link;
  }

  disconnect(close = false) {
    One.of(this).disconnectSockets(close);
    return this;
  }
}
RemoteSocket.prototype.join = Socket.prototype.join;
RemoteSocket.prototype.leave = Socket.prototype.leave;

delegate(RemoteSocket, One.of, ["emit", "emitWithAck", "timeout"]);
delegate(Socket, One.of, ["emitWithAck", "send", "write", "timeout", "compress", "in", "except"], ["volatile", "local"]);
lacks(RemoteSocket, "a remote socket", ["rooms", "data", "handshake"]);
lacks(Socket, "socket", ["conn", "request", "client", "adapter"]);
