// What goes over a connection: what is written past the official client is what the client would write, each once, in order. The
// server is one of its own: it says what a check has it say, and notes what it gets.
//   node test/wire.js CLIENT_BUILD [WORD]
import assert from "node:assert";
import { connect } from "../index.js";
import { next, pause, play, rejected, same, until } from "./checks.js";
import { RawSocket, loadClient } from "./clients.js";

const [build, word] = process.argv.slice(2);
const official = await loadClient(build);
const { WebSocketServer } = RawSocket();
const HEAD = "42/backend,";
const [A, B] = ["a", "b"].map((letter) => letter.repeat(32));
const JOINED = `40/backend,${JSON.stringify({ sid: "f".repeat(32), pid: "e".repeat(32) })}`;
const OPEN = JSON.stringify({ sid: "d".repeat(32), upgrades: [], pingInterval: 25000, pingTimeout: 20000, maxPayload: 1000000 });

class Scene {
  got = []; // of all connections
  status = ["ok", [A, B]]; // what each command is acknowledged with: nobody is there but A and B
  behind = () => {}; // what comes right behind that

  constructor() {
    this.server = new WebSocketServer({ port: 0 });
    this.server.on("connection", (ws) => this.#begin(ws));
  }

  #begin(ws) {
    this.ws = ws;
    ws.send(`0${OPEN}`);
    ws.on("message", (data, isBinary) => this.#hear(isBinary ? data : String(data)));
  }

  // Commands are acknowledged at once.
  #hear(got) {
    if (String(got).startsWith("40/backend,")) return this.ws.send(JOINED);
    this.got.push(got);
    const [, id] = /^4(?:2|5\d+-)\/backend,(\d+)/.exec(got) ?? [];
    if (!id) return;
    this.ws._socket.cork();
    this.ws.send(`43/backend,${id}${JSON.stringify(this.status)}`);
    this.behind();
    this.ws._socket.uncork();
  }

  async backend() {
    const client = (...args) => (this.client = official(...args));
    this.io = connect(`http://127.0.0.1:${this.server.address().port}`, { token: "t", client });
    await this.io.ready;
    this.own = 0; // packets that the client made
    const { packet } = this.client;
    this.client.packet = (...args) => ((this.own += 1), packet.apply(this.client, args));
    this.got = [];
    return this.io;
  }

  // Names of what came, in order.
  names() {
    const texts = this.got.filter((one) => typeof one === "string");
    const commands = texts.map((text) => JSON.parse(text.slice(text.indexOf("["))));
    return commands.map(([name, , event]) => (name === "emit" ? event : name));
  }

  tell(...event) { this.ws.send(HEAD + JSON.stringify(event)); }

  tellBytes(id, name, bytes) {
    this.ws.send(`451-/backend,${JSON.stringify(["event", "/", id, null, name, { _placeholder: true, num: 0 }])}`);
    this.ws.send(bytes);
  }

  async end() {
    await this.io.close();
    for (const ws of this.server.clients) ws.terminate();
    this.server.close();
  }
}

class Point {
  constructor(x) { this.x = x; }
}

class Said extends Point {
  toJSON() { return `at ${this.x}`; }
}

const bare = Object.assign(Object.create(null), { a: 1 });
const own = JSON.parse('{"__proto__":{"a":1},"toJSON":1,"constructor":null}');

// What goes past the client, since JSON has it as it is.
const PLAIN = [
  [], [""], ["text", 1, -0, 1.5, 1e21, NaN, Infinity, true, false, null], [undefined, 1, undefined], [Symbol("a"), 1],
  ['"\\/\b\f\n\r\t\0\u001e\u007f'], ["é漢😀\u2028\ud800"], [[], {}, [[[]]]], [{ a: { b: [{ c: null, d: undefined }] } }],
  [[1, , 3, undefined]], [{ "": 1, "é\"": 2, 5: 3 }], [bare, own], [{ _placeholder: true, num: 0 }],
  ["x".repeat(100), "y".repeat(200), "z".repeat(70_000)],
];

// What the client writes itself.
const OTHERS = [
  [new Date(0)], [new Date(NaN)], [new Point(1)], [new Said(2)], [{ deep: [new Said(3)] }], [{ toJSON: () => 4 }],
  [{ toJSON: () => Buffer.from("x") }], [new Map([[1, 2]]), new Set([1])], [/x/, new Error("y"), Object(1), Object("text")],
  [() => {}, 1], [{ f() {} }], [[() => {}]], [Buffer.from("bytes")], [new Uint8Array([1, 2])], [Uint8Array.from([3]).buffer],
  [{ a: [1, { b: Buffer.from("deep") }], c: Buffer.alloc(0) }],
];

const EVENTS = ["a", "", "é", '"\\', "__proto__", "answer", "emit", 5, 6.5, -0];

// The kinds of what is sent, and what the library does for each.
const KINDS = {
  plain: (io, name) => io.emit(name, 1),
  answer: (io, name) => io.to(A).volatile.emit(name, { a: [] }),
  binary: (io, name) => io.emit(name, Buffer.from("x")),
  date: (io, name) => io.emit(name, new Date(0)),
  acknowledged: (io, name) => io.sockets.sockets.get(A).emit(name, () => {}),
};

// Numbers as if drawn, the same in each run.
function* drawn(below) {
  for (let state = 7; ; ) {
    state = (state * 48271) % 2147483647;
    yield state % below;
  }
}

const CHECKS = {
  async "as the client's encoder writes it"(scene) {
    const io = await scene.backend();
    const send = (name, args, isOwn) => {
      const { encoder } = scene.client.io;
      const data = ["emit", { in: "/", to: ["r"], except: ["é"] }, name, ...args];
      const expected = encoder.encode({ type: 2, nsp: "/backend", data });
      io.to("r").except("é").emit(name, ...args);
      same(scene.own, isOwn ? 1 : 0, JSON.stringify(args));
      scene.own = 0;
      const bytes = (part) => Buffer.from(part.buffer ?? part, part.byteOffset, part.byteLength);
      return expected.map((part) => (typeof part === "string" ? `4${part}` : bytes(part)));
    };
    const expected = [];
    for (const args of PLAIN) expected.push(...send("x", args, false));
    for (const args of OTHERS) expected.push(...send("x", args, true));
    for (const name of EVENTS) expected.push(...send(name, [1], false));
    await until(() => scene.got.length === expected.length, "all of it");
    same(scene.got, expected);
  },

  async "commands that are acknowledged"(scene) {
    const io = await scene.backend();
    await io.socketsJoin("r");
    await io.fetchSockets();
    same([scene.own, scene.names()], [2, ["socketsJoin", "fetchSockets"]]);
  },

  async "an acknowledgement of a client's event"(scene) {
    const io = await scene.backend();
    io.sockets.sockets.get(A).on("ask", (answer) => answer("yes", { a: 1 }));
    scene.tell("event", "/", A, 7, "ask");
    await until(() => scene.got.length, "the answer");
    same([scene.got, scene.own], [[`${HEAD}["emit",{"in":"/","to":["${A}"],"answer":7},"yes",{"a":1}]`], 0]);
  },

  async "what can't be written throws"(scene) {
    const io = await scene.backend();
    for (const value of [5n, { a: 5n }]) assert.throws(() => io.emit("x", value), /BigInt/);
    io.emit("y");
    io.emit("z");
    await until(() => scene.got.length === 2, "what is sent then");
    same(scene.names(), ["y", "z"]);
  },

  // All kinds in one turn, in turns of one and of several, from timers and from promises.
  async "in the order of the calls"(scene) {
    const io = await scene.backend();
    const kinds = Object.values(KINDS);
    const kind = drawn(kinds.length);
    const many = drawn(5);
    let count = 0;
    const some = (most) => {
      for (let left = most; left > 0; left -= 1) kinds[kind.next().value](io, `n${(count += 1)}`);
    };
    for (let round = 0; round < 200; round += 1) {
      some(many.next().value);
      if (round % 3 === 0) await null;
      if (round % 2 === 0) await pause(0);
    }
    const sent = () => scene.names().filter((name) => name.startsWith("n"));
    await until(() => sent().length === count, "all of it");
    same(sent(), Array.from({ length: count }, (_, place) => `n${place + 1}`));
    assert(scene.own > 50 && scene.own < count - 50);
  },

  async "what is told, in order"(scene) {
    const io = await scene.backend();
    const told = [];
    io.sockets.sockets.get(A).onAny((name, value) => told.push([name, Buffer.isBuffer(value) ? String(value) : value]));
    const done = [];
    for (let round = 0; round < 50; round += 1) {
      scene.ws._socket.cork();
      scene.tell("event", "/", A, null, "plain", round);
      scene.tellBytes(A, "bytes", Buffer.from(String(round)));
      scene.tell("event", "/", A, null, "behind", { round });
      if (round % 2) scene.tell("no such kind", "/", A);
      scene.ws._socket.uncork();
      if (round % 3 === 0) await pause(1);
      done.push(["plain", round], ["bytes", String(round)], ["behind", { round }]);
    }
    await until(() => told.length === done.length, "all of it");
    same(told, done);
  },

  async "an acknowledgement is looked at before what is behind it"(scene) {
    const io = await scene.backend();
    const socket = io.sockets.sockets.get(A);
    const told = [];
    socket.on("x", (number) => told.push(number, socket.rooms.has("r")));
    scene.status = ["error", "no"];
    scene.behind = () => scene.tell("event", "/", A, null, "x", 1);
    await rejected(socket.join("r"), "no");
    await until(() => told.length, "the event");
    same(told, [1, false]);
    scene.status = ["ok"];
  },

  async "away and back"(scene) {
    const io = await scene.backend();
    const told = [];
    io.sockets.sockets.get(A).onAny((name) => told.push(name));
    for (let round = 0; round < 3; round += 1) {
      io.emit(`before ${round}`);
      await until(() => scene.names().includes(`before ${round}`), "what was sent before");
      scene.got = [];
      const back = next(scene.client, "connect");
      scene.client.io.engine.close();
      for (const value of [1, Buffer.from("x"), { a: 2 }]) io.emit("away", value);
      const lost = rejected(io.emitWithAck("q"), "the connection to the server was lost");
      scene.client.io.engine.emit("data", `2/backend,["event","/","${A}",null,"late"]`);
      const join = io.socketsJoin("r");
      await back;
      io.emit("after");
      await join;
      await until(() => scene.names().includes("after"), "what is sent after");
      scene.ws.terminate();
      await Promise.all([lost, next(scene.client, "disconnect")]);
      same(scene.names(), ["away", "away", "away", "fetchSockets", "q", "socketsJoin", "fetchSockets", "after"]);
      await next(scene.client, "connect");
    }
    same(told, []);
  },

  async "lost by the other side"(scene) {
    const io = await scene.backend();
    let count = 0;
    const say = setInterval(() => io.emit(`n${(count += 1)}`), 1);
    for (let round = 0; round < 5; round += 1) {
      const back = next(scene.client, "connect");
      await pause(20);
      scene.ws.terminate();
      await back;
    }
    clearInterval(say);
    io.emit("last");
    await until(() => scene.names().includes("last"), "the last one");
    const numbers = scene.names().filter((name) => name.startsWith("n")).map((name) => Number(name.slice(1)));
    same(numbers, [...new Set(numbers)].sort((a, b) => a - b)); // each once, in order
  },
};

// As later versions do, the client tells of each thing in a tick of its own.
function tellLater() {
  official.Manager.prototype.ondecoded = function (packet) { process.nextTick(() => this.emitReserved("packet", packet)); };
}

let failed = await play("wire", CHECKS, () => new Scene(), word);
tellLater();
failed += await play("wire, told later", CHECKS, () => new Scene(), word);
console.log(failed ? `${failed} failed` : "all is well");
process.exit(failed ? 1 : 0);
