// The engine under the official client. Commands without binary data are written straight to it, and what a node tells without
// binary data is read straight from it. The client's own way makes a dozen objects and calls of each, and looks through all
// arguments: a seventh of what an event costs.
import { arePlain } from "./parts.js";

export const SPACE = "/backend";
// What an event of this namespace begins with, if it has no attachments and asks for no acknowledgement (Socket.IO protocol,
// revision 5, "Packet encoding": 2 is EVENT). A list in JSON follows.
const EVENT = `2${SPACE},`;
const PLAIN_EVENT = `${EVENT}[`;
const MESSAGE = "4"; // what a packet of Engine.IO begins with that holds one of Socket.IO (revision 4, "Protocol")
const OPEN = 1; // of a WebSocket's `readyState`

// Whether the client is the official one, and its parser writes events as they are written here.
function isKnown({ engine, encoder }) {
  if (!engine?.writeBuffer || !encoder?.encode || engine.listeners("data").length !== 1) return false;
  const texts = encoder.encode({ type: 2, nsp: SPACE, data: ["emit", {}] });
  return texts.length === 1 && texts[0] === `${EVENT}["emit",{}]`;
}

export class Engine {
  #engine;
  #isBehind = false; // the client was given something in this turn of the event loop

  // That of a client which has just connected, or null where it isn't known. `told(event)` gets what is told.
  static under(client, told) { return isKnown(client.io ?? {}) ? new Engine(client.io.engine, told) : null; }

  constructor(engine, told) {
    this.#engine = engine;
    const [toClient] = engine.listeners("data");
    engine.off("data").on("data", (data) => {
      const isPlain = typeof data === "string" && data.startsWith(PLAIN_EVENT);
      if (isPlain && !this.#isBehind) return told(JSON.parse(data.slice(EVENT.length)));
      this.#fallBehind();
      return toClient(data);
    });
  }

  // Most versions of the client tell of what they are given a little later. What comes behind it in this turn goes its way too.
  #fallBehind() {
    if (!this.#isBehind) setImmediate(() => { this.#isBehind = false; });
    this.#isBehind = true;
  }

  // Returns whether it wrote the command. The client does it where an argument isn't plain, and where the server was silent for
  // too long: since 4.8 its `emit` keeps it then for the next connection.
  write(name, options, args) {
    const engine = this.#engine;
    if (!arePlain(args) || engine._hasPingExpired?.()) return false;
    const text = EVENT + JSON.stringify([name, options, ...args]);
    const { ws } = engine.transport;
    // What waits in the engine goes first.
    if (engine.writeBuffer.length || ws?.readyState !== OPEN) engine.write(text);
    else ws.send(MESSAGE + text);
    return true;
  }
}
