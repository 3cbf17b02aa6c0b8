// The connection to a node, which is a server: commands go up, and events come down.
import { Engine, SPACE } from "./engine.js";
import { LOST, commandError, fault } from "./parts.js";

export const DIGITS = "0123456789abcdef";
const KINDS = ["connection", "event", "answer", "disconnection"]; // of what a node tells
const MOST_WAITING = 10_000; // commands
const PAUSE = 1000; // milliseconds
const PATIENCE = 5000; // milliseconds for a connection to be made, where there are other nodes

async function installedClient() {
  try {
    return (await import("socket.io-client")).io;
  } catch (cause) {
    throw new Error("socket.io-client can't be loaded: install it, or hand in its `io` function as the option `client`", { cause });
  }
}

const NOW = Promise.resolve();

// The stream under a client, where its WebSocket is one of the package `ws`. Where it is another, or there is none, nothing.
const streamOf = (client) => client.io?.engine?.transport?.ws?._socket;

export class Link {
  connected = false;
  isAway = false; // it couldn't be reached since it was connected, or has refused this backend
  isOut = false; // it takes no commands until it is back
  #client = null;
  #engine = null; // that of the client's last connection, if it is known
  #ended = null; // why no command is taken any more
  #waiting = []; // commands that were given while it is away
  #flying = new Set(); // those that were sent and have to be answered
  #heard = new Map(); // digit -> questions that need it
  #sent = 0; // commands of this turn of the event loop
  #isBusy = false; // the last turn that had some had several
  #corked = null; // the stream that holds back what is written to it

  // `hasPeers`: there are other nodes. `told` has a function for each thing that happens: joined, lost, missed, failed, refused,
  // happened.
  constructor(url, hasPeers, options, told) {
    this.url = url;
    this.hasPeers = hasPeers;
    this.digits = options.digits ?? DIGITS;
    this.told = told;
    this.#open(options).catch((error) => this.#fail(error));
  }

  get hasEnded() { return this.#ended !== null; }

  async #open({ token, client, transports = ["websocket"] }) {
    if (typeof token !== "string" || token === "") throw new Error("the option `token` is missing");
    if (!/^[0-9a-f]+$/.test(this.digits)) throw new Error("the option `digits` has to be a text of hexadecimal digits, 0 to f");
    const io = client ?? (await installedClient());
    if (this.#ended) return;
    const auth = { token, digits: this.digits };
    this.#client = io(this.url + SPACE, { auth, transports, forceNew: true, ...(this.hasPeers && { timeout: PATIENCE }) });
    this.#client.on("connect", () => this.#joined());
    this.#client.on("disconnect", (reason) => this.#lost(reason));
    this.#client.on("connect_error", (error) => {
      // While it is active, the client tries again by itself: the server isn't up yet.
      if (this.#client.active) this.#missed();
      else this.#fail(new Error(`the server${this.hasPeers ? ` at ${this.url}` : ""} refused this backend: ${error.message}`));
    });
    for (const kind of KINDS) this.#client.on(kind, (...args) => this.#ended || this.told.happened(this, kind, args));
  }

  // What came straight from the engine.
  #tell(event) {
    const kind = event.shift();
    if (this.connected && KINDS.includes(kind)) this.told.happened(this, kind, event);
  }

  #joined() {
    this.connected = true;
    this.isAway = false;
    this.#engine = Engine.under(this.#client, (event) => this.#tell(event));
    const waiting = this.#waiting;
    this.#waiting = [];
    for (const command of waiting) {
      try {
        this.#send(command);
      } catch (error) {
        this.#refuse(command, error);
      }
    }
    this.told.joined(this);
  }

  #missed() {
    if (this.isAway || this.#ended) return;
    this.isAway = true;
    this.told.missed(this);
  }

  #lost(reason) {
    this.connected = false;
    this.#heard.clear();
    this.#drop([...this.#flying], LOST);
    if (this.#ended) return;
    this.told.lost(this);
    // The client doesn't come back by itself where it was sent away.
    if (reason === "io server disconnect") setTimeout(() => this.#ended || this.#client.connect(), PAUSE);
  }

  #fail(error) {
    this.#end(error.message);
    this.told.failed(Object.assign(error, { node: this.url }));
  }

  #end(why) {
    this.#ended = why;
    this.connected = false;
    this.isAway = true;
    this.#drop([...this.#waiting.splice(0), ...this.#flying], why);
  }

  #drop(commands, why) {
    for (const command of commands) this.#refuse(command, commandError(command.name, why));
  }

  #refuse(command, error) {
    this.#flying.delete(command);
    error.node = this.url;
    if (command.done) command.done(error);
    else this.told.refused(error);
  }

  // While it is out it takes no commands, and what waited for it isn't done. An event that went to others too is told to nobody.
  // Returns whether it is out from now on.
  leaveOut(isOut) {
    if (this.isOut === isOut) return false;
    this.isOut = isOut;
    if (isOut) this.#drop(this.#waiting.splice(0).filter(({ isShared }) => !isShared), LOST);
    return isOut;
  }

  // Commands are done in the order of these calls. `done(error, value)` is called at once when the acknowledgement comes, before
  // what came behind it is looked at; a promise would be late. Without `done` no acknowledgement is asked for. `options` may be
  // a function, for what is known only when it is sent.
  command(name, options, args, done) {
    const command = { name, options, args, done };
    const why = fault(name, options, args);
    if (why) this.#refuse(command, commandError(name, why));
    else this.take(command);
  }

  // A command that has no fault.
  take(command) {
    const why = this.#ended ?? (this.isOut ? LOST : null);
    if (why) return this.#refuse(command, commandError(command.name, why));
    if (this.connected) return this.#send(command);
    if (this.#waiting.length < MOST_WAITING) return this.#waiting.push(command);
    return this.#refuse(command, commandError(command.name, "too many commands while the server is away"));
  }

  #send(command) {
    const { name, args, done } = command;
    const options = typeof command.options === "function" ? command.options() : command.options;
    this.#gather();
    if (done) this.#ask(command, options);
    else if (!this.#engine?.write(name, options, args)) this.#client.emit(name, options, ...args);
  }

  #ask(command, options) {
    const { name, args, done } = command;
    this.#client.emit(name, options, ...args, (status, value) => {
      if (!this.#flying.has(command)) return;
      if (status !== "ok") return this.#refuse(command, commandError(name, value));
      this.#flying.delete(command);
      done(null, value);
    });
    this.#flying.add(command);
  }

  // Is called before each command. Those of one turn of the event loop are written in one piece, since a write is a fifth of
  // what an event costs. But where the turn before had only one, the first is written at once, so that the server begins.
  #gather() {
    this.#sent += 1;
    // The client gives some of them to the stream by a microtask, or a tick of Node. The second microtask from here is behind
    // these, but for a tick where a promise goes on. There, each is written by itself.
    if (this.#sent === 1) NOW.then().then(this.#endTurn);
    if (this.#corked || (this.#sent === 1 && !this.#isBusy)) return;
    this.#corked = streamOf(this.#client);
    this.#corked?.cork();
  }

  #endTurn = () => {
    this.#corked?.uncork();
    this.#corked = null;
    this.#isBusy = this.#sent > 1;
    this.#sent = 0;
  };

  isOwn(id) { return this.digits.includes(id[0]); }

  // Answers go to the backends that named the first digit of the socket's id. For the time of a question this one joins the
  // others' digits. Returns what leaves them again.
  hear(digits) {
    const foreign = [...digits].filter((digit) => !this.digits.includes(digit));
    for (const digit of foreign) this.#count(digit, 1, "socketsJoin");
    return () => foreign.forEach((digit) => this.#heard.has(digit) && this.#count(digit, -1, "socketsLeave"));
  }

  #count(digit, change, command) {
    const before = this.#heard.get(digit) ?? 0;
    if (before + change) this.#heard.set(digit, before + change);
    else this.#heard.delete(digit);
    if (before && before + change) return;
    this.command(command, () => ({ in: SPACE, to: [this.#client.id] }), [digit], (error) => error && this.told.refused(error));
  }

  // Its own id is asked for last, so all that was sent before has been done by then. A server that hangs isn't waited for.
  async close() {
    await new Promise((resolve) => {
      if (!this.connected) return resolve();
      this.command("fetchSockets", { in: SPACE, to: [this.#client.id] }, [], resolve);
      setTimeout(resolve, PAUSE).unref();
    });
    this.#end("the backend is closed");
    this.#client?.disconnect();
  }
}
