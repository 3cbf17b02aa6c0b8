// A namespace: its sockets, and what the server tells of them.
import { EventEmitter } from "node:events";
import { delegate, lacks, run, tell, withBuffers } from "./parts.js";
import { Saved } from "./saved.js";
import { RemoteSocket, Socket } from "./socket.js";
import { Target } from "./target.js";

const REASONS = {
  saved: "transport close",
  closed: "transport error",
  left: "client namespace disconnect",
  alone: "server namespace disconnect",
  together: "server namespace disconnect",
};

export class Namespace extends EventEmitter {
  sockets = new Map(); // by id, those that the program was told of
  #arriving = new Map(); // those that middleware looks at
  #saved = new Saved();
  #middleware = [];
  #held = new Map(); // link -> what its node has told since the connection was lost; null while its sockets are known

  constructor(server, name) {
    super();
    this.server = server;
    this.name = name;
    for (const link of server.nodes.links) this.#held.set(link, []);
  }

  use(middleware) { this.#middleware.push(middleware); return this; }
  find(id) { return this.sockets.get(id) ?? this.#arriving.get(id); }
  knows(link) { return !this.#held.get(link); }

  // Of its own sockets those that the program was told of, and of other backends' all.
  fetched(link, ids) {
    const told = ids.filter((id) => this.sockets.has(id) || !link.isOwn(id));
    return told.map((id) => this.sockets.get(id) ?? new RemoteSocket(this, id, link));
  }

  // All sockets that are known here, or the one of this id.
  known(id) {
    if (id !== undefined) return [this.find(id)].filter(Boolean);
    return [...this.sockets.values(), ...this.#arriving.values()];
  }

  at(link) { return this.known().filter((socket) => socket._link === link); }

  _lost(link) { if (this.knows(link)) this.#held.set(link, []); }

  // The node can't be reached, and others can: its sockets are told to have gone. Those to which only the way was lost come back.
  _leaveOut(link) {
    for (const socket of this.at(link)) {
      this.#saved.keep(socket, [...socket.rooms], this.sockets.has(socket.id));
      this.#gone(socket, "transport close", null);
    }
  }

  // Asks who is there. All that the node tells before its answer happened before it: that is handled first, and then those
  // that came or went while nobody listened are told.
  _catchUp(link, done) {
    link.command("fetchSockets", { in: this.name }, [], (error, ids) => {
      if (error && !link.connected) return;
      const held = this.#held.get(link);
      this.#held.set(link, null);
      for (const [kind, args] of held) this._happened(link, kind, args);
      if (error) this.server.refused(Object.assign(error, { message: `${error.message}: ${this.name}` }));
      else this.#compare(link, ids);
      done();
    });
  }

  #compare(link, ids) {
    const there = new Set(ids);
    for (const socket of this.at(link)) {
      if (!there.has(socket.id)) this.#gone(socket, "transport close", null);
      else if (!socket.connected) this.in(socket.id).disconnectSockets(); // that command was lost
    }
    for (const id of ids) if (link.isOwn(id) && !this.find(id)) this.#arrive(link, id, null);
  }

  // `args`: the namespace, the socket's id, and what else the server tells of it.
  _happened(link, kind, args) {
    const id = args[1];
    if (!this.knows(link)) this.#held.get(link).push([kind, args]);
    else if (kind === "answer") this.server.questions.answer(this, link, id, args[2], withBuffers(args.slice(3)));
    else if (kind === "disconnection") this.#left(link, id, args[2], args[3]);
    else if (!link.isOwn(id)) return;
    else if (kind === "connection") this.#came(link, id, args[2], args[3]);
    else (this.find(id) ?? this.#arrive(link, id, null))._receive(args[2], withBuffers(args.slice(3)));
  }

  #came(link, id, rooms, auth, claims) {
    const before = this.find(id);
    if (before) this.#gone(before, "transport close", null);
    this.#arrive(link, id, rooms, auth, claims);
  }

  #left(link, id, how, rooms) {
    const socket = this.find(id);
    if (!socket) return this.server.questions.gone(this, link, id);
    if (how === "saved") this.#saved.keep(socket, rooms, this.sockets.has(id));
    this.#gone(socket, REASONS[how] ?? how, rooms);
  }

  // A socket that came unheard has no `auth`, and no rooms but its own, except where it was saved in the sight of this process.
  #arrive(link, id, rooms, auth, claims) {
    const kept = this.#saved.take(id);
    const socket = new Socket(this, link, id, rooms ?? kept?.rooms ?? [], kept?.auth ?? auth, kept?.claims ?? claims);
    socket.recovered = Boolean(rooms ?? kept);
    if (kept) socket.data = kept.data;
    this.#arriving.set(id, socket);
    run(kept?.accepted ? [] : this.#middleware, socket, (error) => {
      if (this.#arriving.get(id) !== socket || !socket.connected) return;
      if (error) this.#refuse(socket, error);
      else this.#accept(socket);
    });
    return socket;
  }

  #accept(socket) {
    this.#arriving.delete(socket.id);
    this.sockets.set(socket.id, socket);
    tell(this, ["connect", socket]);
    tell(this, ["connection", socket]);
    socket._begin();
  }

  #refuse(socket, error) {
    socket.emit("refused", { message: error.message, data: error.data });
    socket.disconnect();
  }

  #gone(socket, reason, rooms) {
    this.server.questions.gone(this, socket._link, socket.id);
    this.#arriving.delete(socket.id);
    if (!this.sockets.has(socket.id)) return;
    socket._end(reason, rooms);
    this.sockets.delete(socket.id);
  }

  _close() {
    for (const socket of this.known()) this.#gone(socket, "server shutting down", null);
  }
}

export const METHODS = ["to", "in", "except", "timeout", "compress", "emit", "emitWithAck", "send", "write",
  "socketsJoin", "socketsLeave", "disconnectSockets", "fetchSockets"];
export const GETTERS = ["volatile", "local"];
delegate(Namespace, (space) => new Target(space), METHODS, GETTERS);
lacks(Namespace, "namespace", ["adapter", "serverSideEmit", "serverSideEmitWithAck"]);
