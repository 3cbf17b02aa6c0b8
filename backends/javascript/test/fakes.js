// Nodes without a server: what a node tells is told by hand.
import { EventEmitter } from "node:events";

export class Fake extends EventEmitter {
  active = true;
  id = "f".repeat(32);
  commands = []; // those that were sent, to be answered when the check says so
  under = null; // what lies under the client, where that is known

  // Stands in for the official client's `io`.
  open(...args) {
    this.opened = args;
    const fake = this;
    return {
      on: (name, listener) => this.on(name, listener),
      emit: (...command) => this.commands.push(command),
      connect: () => this.emit("connects"),
      disconnect: () => {},
      get active() { return fake.active; },
      get id() { return fake.id; },
      get io() { return fake.under; },
    };
  }

  // The last such command is acknowledged.
  answer(name, ...values) {
    const command = this.commands.findLast(([called]) => called === name);
    command.at(-1)(...values);
  }

  tell(kind, ...rest) {
    this.emit(kind, "/", ...rest);
  }

  joined(ids = []) {
    this.emit("connect");
    this.answer("fetchSockets", "ok", ids);
  }

  lost() {
    this.emit("disconnect", "transport close");
  }

  // It couldn't be reached.
  missed() {
    this.emit("connect_error", new Error("websocket error"));
  }

  names() {
    return this.commands.map(([name]) => name);
  }
}

// What lies under the official client, as far as the library looks at it. What is written is noted.
export class FakeEngine extends EventEmitter {
  written = [];
  writeBuffer = [];
  transport = {};
  isSilent = false; // the server sent no ping for too long

  constructor() {
    super();
    this.on("data", () => {});
  }

  // With an encoder as the official one, but for the namespace.
  under(space = "/backend") {
    return { engine: this, encoder: { encode: ({ data }) => [`2${space},${JSON.stringify(data)}`] } };
  }

  off(name) { return this.removeAllListeners(name); }
  write(text) { this.written.push(["engine", text]); }
  _hasPingExpired() { return this.isSilent; }
  open() { this.transport.ws = { readyState: 1, send: (text) => this.written.push(["WebSocket", text]) }; }
}

// Notes what the program is told.
export function note(io, told) {
  io.on("command_error", (error) => told.push(["command_error", error.message]));
  io.on("connection", (socket) => {
    told.push(["connection", socket.id, socket.recovered, [...socket.rooms].slice(1), socket.handshake.auth]);
    socket.onAny((...event) => told.push([socket.id, ...event]));
    for (const name of ["disconnecting", "disconnect"]) socket.on(name, (reason) => told.push([name, socket.id, reason]));
  });
}

// What it is told of a socket that came, came back, or went.
export const came = (id, auth = {}) => ["connection", id, false, [], auth];
export const back = (id, rooms, auth = {}) => ["connection", id, true, rooms, auth];
export const gone = (id, reason) => ["disconnecting", "disconnect"].map((name) => [name, id, reason]);
