// The server side of Socket.IO, where Daghzimo does the serving. `connect` makes what is called `io` elsewhere.
import { EventEmitter } from "node:events";
import { GETTERS, METHODS, Namespace } from "./namespace.js";
import { Nodes } from "./nodes.js";
import { delegate, guarded, lacks, tell, warnOnce } from "./parts.js";
import { Questions } from "./question.js";

export { Namespace } from "./namespace.js";
export { RemoteSocket, Socket } from "./socket.js";

class Backend {
  questions = new Questions();
  #spaces = new Map();
  #caughtUp = new Set(); // links to nodes whose sockets are known
  #isReady = false;
  #settle;

  constructor(urls, options) {
    this.ready = new Promise((resolve, reject) => {
      this.#settle = { resolve, reject };
    });
    this.nodes = new Nodes(urls, options, {
      joined: (link) => this.#joined(link),
      lost: (link) => this.#lost(link),
      missed: () => this.#sort(),
      failed: (error) => this.#failed(error),
      refused: (error) => this.refused(error),
      happened: (link, kind, args) => this.#happened(link, kind, args),
    });
    this.sockets = this.of("/");
  }

  of(name, listener) {
    if (typeof name !== "string") throw new Error("io.of takes a text: a backend can't have dynamic namespaces");
    const path = name.startsWith("/") ? name : `/${name}`;
    if (path === "/backend") throw new Error('"/backend" is the namespace of the backends themselves');
    if (!this.#spaces.has(path)) {
      const space = new Namespace(this, path);
      this.#spaces.set(path, space);
      for (const link of this.nodes.links) if (link.connected) space._catchUp(link, () => {});
    }
    const space = this.#spaces.get(path);
    if (listener) space.on("connection", listener);
    return space;
  }

  async close(callback) {
    await this.nodes.close();
    for (const link of this.nodes.links) this.questions.lost(link);
    for (const space of this.#spaces.values()) space._close();
    if (callback) guarded(callback);
  }

  #joined(link) {
    this.#sort();
    let open = this.#spaces.size;
    for (const space of this.#spaces.values()) {
      space._catchUp(link, () => {
        open -= 1;
        if (open) return;
        this.#caughtUp.add(link);
        this.#look();
      });
    }
  }

  #lost(link) {
    this.#caughtUp.delete(link);
    this.questions.lost(link);
    for (const space of this.#spaces.values()) space._lost(link);
    this.#sort();
  }

  #sort() {
    for (const link of this.nodes.sort()) {
      if (!link.hasEnded) process.emitWarning(`${link.url} can't be reached: it is left out until it can`);
      for (const space of this.#spaces.values()) space._leaveOut(link);
    }
    this.#look();
  }

  #look() {
    if (!this.nodes.inUse.every((link) => this.#caughtUp.has(link))) return;
    this.#isReady = true;
    this.#settle.resolve(this);
  }

  // Nobody who listens to `error` or waits for `ready` overhears it, and where nobody does the process ends by it, if there is no
  // other node.
  #failed(error) {
    const heard = this.sockets.listenerCount("error") > 0;
    const isLast = this.nodes.links.every(({ hasEnded }) => hasEnded);
    if (isLast && heard) this.ready.catch(() => {});
    if (isLast) this.#settle.reject(error);
    if (heard || (isLast && this.#isReady)) tell(this.sockets, ["error", error]);
    else if (!isLast) console.error(`daghzimo-backend: ${error.message}`);
    this.#sort();
  }

  // The server refused a command, or it couldn't be sent, and the program doesn't wait for its outcome.
  refused(error) {
    const where = error.node && this.nodes.links.length > 1 ? ` (${error.node})` : "";
    if (this.sockets.listenerCount("command_error")) tell(this.sockets, ["command_error", error]);
    else console.error(`daghzimo-backend: ${error.command}: ${error.message}${where}`);
  }

  #happened(link, kind, args) {
    const name = args[0];
    const space = this.#spaces.get(name);
    if (space) space._happened(link, kind, args);
    else if (name !== "/backend") warnOnce(`what happens in ${name} is ignored until io.of("${name}") is called`);
  }
}

// `io` itself is the namespace `/`.
const LISTENING = Object.keys(EventEmitter.prototype).filter((name) => /^[a-z]/.test(name));
delegate(Backend, (io) => io.sockets, [...LISTENING, "use", ...METHODS], GETTERS);
lacks(Backend, "io", ["listen", "attach", "attachApp", "bind", "onconnection", "engine", "httpServer", "path", "serveClient",
  "adapter", "serverSideEmit", "serverSideEmitWithAck"]);

// Joins the server at `urls`, or several servers where that is a list, as a backend. Options: token, digits, client, transports.
export function connect(urls, options = {}) {
  return new Backend(urls, options);
}

export class Server {
  constructor() {
    throw new Error("new Server isn't there: a backend doesn't serve by itself. Use connect(url, { token })");
  }
}
