// Plays each call of the library against a running server, with real clients, over both transports.
//   node test/calls.js URL TOKEN CLIENT_BUILD [WORD]
// CLIENT_BUILD is a file of the official client, or the name of its package. WORD: only the checks whose names hold it.
// The server has to have the namespace /admin.
import assert from "node:assert";
import { connect, RemoteSocket, Server } from "../index.js";
import { called, LOAD, next, pause, play, rejected, same, until, within } from "./checks.js";
import { loadClient, RawSocket } from "./clients.js";

const [url, token, build, word] = process.argv.slice(2);
const official = await loadClient(build);
const MANY = 3000;
const watcher = connect(url, { token, client: official });
watcher.of("/admin");

// Backends and clients of one check, which end with it.
class Scene {
  ends = [];

  constructor(transport) {
    this.transports = [transport];
  }

  unready(options = {}) {
    let joined;
    const client = (...args) => (joined = official(...args));
    const io = connect(url, { token, client, transports: this.transports, ...options });
    this.ends.push(() => io.close());
    io.on("command_error", () => {});
    io.lose = () => joined.io.engine.close();
    return io;
  }

  async backend(options) {
    const io = this.unready(options);
    io.of("/admin");
    await within(io.ready, "ready");
    return io;
  }

  open(space, options) {
    const client = official(url + space, { forceNew: true, reconnection: false, transports: this.transports, ...options });
    this.ends.push(() => client.disconnect());
    // What is logged has its offset behind it.
    const { onevent } = client;
    client.onevent = (packet) => {
      if (/^[0-9a-f]{16}$/.test(packet.data.at(-1))) packet.data.pop();
      onevent.call(client, packet);
    };
    return client;
  }

  // A client, and its socket in this backend.
  async client(io, { space = "/", auth = {}, rooms = [] } = {}) {
    const told = next(io.of(space), "connection");
    const client = this.open(space, { auth });
    const [[socket]] = await Promise.all([told, next(client, "connect")]);
    await socket.join(rooms);
    return { client, socket };
  }

  async pair(options) {
    const io = await this.backend();
    return { io, ...(await this.client(io, options)) };
  }

  async clients(io, ...options) {
    const made = [];
    for (const one of options) made.push(await this.client(io, one));
    return made;
  }

  // The next check begins without clients of this one.
  async end() {
    for (const end of this.ends.reverse()) await end();
    await until(async () => (await watcher.fetchSockets()).length + (await watcher.of("/admin").fetchSockets()).length === 0, "no client");
  }
}

// All that was sent to the client before has come.
const settled = (client, socket) => called((done) => (client.once("settled", done), socket.emit("settled")));

const BINARY = [
  ["a Buffer", Buffer.from([1, 2, 3])],
  ["a typed array", new Uint16Array([258, 3])],
  ["an ArrayBuffer", Uint8Array.from([9, 8]).buffer],
  ["nothing", Buffer.alloc(0)],
  ["deep", { a: [1, { b: Buffer.from("deep") }, new Uint8Array([7])], c: null }],
  ["large", Buffer.alloc(100_000, 5)],
];

// Binary values as lists of bytes, whatever their types.
function plain(value) {
  if (value instanceof ArrayBuffer) return { bytes: [...new Uint8Array(value)] };
  if (ArrayBuffer.isView(value)) return { bytes: [...new Uint8Array(value.buffer, value.byteOffset, value.byteLength)] };
  if (Array.isArray(value)) return value.map(plain);
  if (value === null || typeof value !== "object") return value;
  return Object.fromEntries(Object.entries(value).map(([key, part]) => [key, plain(part)]));
}

function onlyBuffers(value) {
  if (value === null || typeof value !== "object" || Buffer.isBuffer(value)) return true;
  return !ArrayBuffer.isView(value) && !(value instanceof ArrayBuffer) && Object.values(value).every(onlyBuffers);
}

// Whom each aim reaches of a (rooms x), b (x, y) and c (none).
const AIMS = [
  ["abc", (io) => io],
  ["abc", (io) => io.sockets],
  ["abc", (io) => io.volatile],
  ["abc", (io) => io.local.compress(true)],
  ["ab", (io) => io.to("x")],
  ["ab", (io) => io.in("x")],
  ["b", (io) => io.to("y").volatile],
  ["ab", (io) => io.to("x").to("y")],
  ["ab", (io) => io.to(["x", "y"])],
  ["a", (io) => io.in("x").except("y")],
  ["ac", (io) => io.except("y")],
  ["c", (io) => io.except(["x", "y"])],
  ["bc", (io, a) => io.except(a.id)],
  ["a", (io, a) => io.to(a.id)],
  ["", (io) => io.to("nobody")],
  ["a", (io, a) => a],
  ["a", (io, a) => a.volatile],
  ["b", (io, a) => a.to("x")],
  ["b", (io, a) => a.in("x")],
  ["", (io, a) => a.to("x").except("y")],
  ["bc", (io, a) => a.broadcast],
  ["bc", (io, a) => a.volatile.broadcast],
  ["c", (io, a) => a.except("y")],
  ["c", (io, a) => a.broadcast.except("x")],
  ["b", (io, a) => a.volatile.to("y")],
];

const LONG = "r".repeat(65);
// Commands that are refused, and why.
const REFUSED = [
  ["join", "bad room", ({ socket }) => socket.join(LONG)],
  ["join of a number", "bad room", ({ socket }) => socket.join(["fine", 5])],
  ["leave", "own room", ({ socket }) => socket.leave(socket.id)],
  ["leave", "bad room", ({ socket }) => socket.leave(LONG)],
  ["socketsJoin", "bad room", ({ io }) => io.socketsJoin(LONG)],
  ["socketsJoin to a bad room", "bad room", ({ io }) => io.in(LONG).socketsJoin("a")],
  ["socketsLeave", "own room", ({ io, socket }) => io.in("x").socketsLeave(socket.id)],
  ["disconnectSockets", "bad room", ({ io }) => io.in(LONG).disconnectSockets()],
  ["fetchSockets", "bad room", ({ io }) => io.in(LONG).fetchSockets()],
  ["emitWithAck", "bad room", ({ io }) => io.in(LONG).timeout(1000).emitWithAck("q")],
  ["many attachments", "more than 32 attachments", ({ socket }) => socket.emitWithAck("q", Array(33).fill(Buffer.from("a")))],
  ["unknown namespace", "unknown namespace", ({ io }) => io.of("/nowhere").fetchSockets()],
];

// Commands whose outcome nobody waits for.
const TOLD = [
  ["emit", "bad room", ({ io }) => io.to(LONG).emit("a")],
  ["emit", "bad room", ({ io }) => io.except([5]).emit("a")],
  ["emit", "more than 32 attachments", ({ socket }) => socket.emit("a", Array(33).fill(Buffer.from("a")))],
  ["emit", "more than 32 attachments", ({ socket }) => socket.emit("a", Array(33).fill(Buffer.from("a")), () => {})],
  ["socketsJoin", "bad room", ({ socket }) => socket.join(LONG)],
  ["socketsLeave", "own room", ({ socket }) => socket.leave(socket.id)],
  ["disconnectSockets", "bad room", ({ io }) => io.in(LONG).disconnectSockets()],
];

// What a backend may send that this library never does, and its acknowledgement.
const COMMANDS = [
  ["ok", "fetchSockets", {}],
  ["ok", "emit", { volatile: true }, "a"],
  ["ok", "emit", {}, 5],
  ["unknown command", "fetch", {}],
  ["unknown namespace", "emit", { in: "/nowhere" }, "a"],
  ["malformed command", "emit"],
  ["malformed command", "emit", "a"],
  ["malformed command", "emit", {}],
  ["malformed command", "emit", { to: "x" }, "a"],
  ["malformed command", "emit", { except: {} }, "a"],
  ["malformed command", "emit", { in: 5 }, "a"],
  ["malformed command", "emit", { volatile: 1 }, "a"],
  ["malformed command", "emit", { ask: 1, answer: 1 }, "a"],
  ["bad id", "emit", { ask: 1e15 }, "a"],
  ["bad id", "emit", { ask: -1 }, "a"],
  ["reserved name", "emit", {}, "disconnect"],
  ["reserved name", "emit", {}, "newListener"],
  ["malformed command", "socketsJoin", {}],
  ["bad room", "socketsJoin", {}, LONG],
  ["bad room", "socketsLeave", {}, LONG],
  ["bad room", "emit", { to: ["x", LONG] }, "a"],
  ["bad room", "fetchSockets", { except: [LONG] }],
  ["bad room", "disconnectSockets", { to: [LONG] }],
];

const THROWS = [
  [/reserved/, ({ io }) => io.emit("connect")],
  [/reserved/, ({ socket }) => socket.emit("disconnecting")],
  [/text/, ({ socket }) => socket.emit(NaN)],
  [/text/, ({ io }) => io.emit(null)],
  [/dynamic/, ({ io }) => io.of(/x/)],
  [/\/backend/, ({ io }) => io.of("backend")],
  [/new Server/, () => new Server(3000)],
  ...["listen", "attach", "engine", "adapter", "serverSideEmit"].map((name) => [new RegExp(`io\\.${name} `), ({ io }) => io[name]]),
  ...["conn", "request"].map((name) => [new RegExp(`socket\\.${name} `), ({ socket }) => socket[name]]),
  ...["headers", "address", "query"].map((name) => [new RegExp(`handshake\\.${name} `), ({ socket }) => socket.handshake[name]]),
];

// How a client ends, and how its socket says so.
const ENDS = [
  ["the client leaves", "client namespace disconnect", ({ client }) => client.disconnect()],
  ["the client is lost", "transport close", ({ client }) => client.io.engine.close()],
  ["the client sends a reserved name", "transport error", ({ client }) => client.io.engine.write('2["connect"]')],
  ["socket.disconnect", "server namespace disconnect", ({ socket }) => socket.disconnect()],
  ["disconnectSockets", "server namespace disconnect", ({ io, socket }) => io.in(socket.id).disconnectSockets()],
];

const CHECKS = {
  async connection(scene) {
    const { io, client, socket } = await scene.pair({ auth: { name: "Ada", deep: [1] } });
    same([socket.id, socket.connected, socket.disconnected, socket.recovered], [client.id, true, false, false]);
    same([socket.nsp, socket.nsp.name, socket.server], [io.sockets, "/", io]);
    same([...socket.rooms], [socket.id]);
    same({ ...socket.handshake.auth }, { name: "Ada", deep: [1] });
    same([socket.data, io.sockets.sockets.get(socket.id), io.of("/")], [{}, socket, io.sockets]);
  },

  async "connection of those that were there"(scene) {
    const { client } = await scene.pair({ auth: { name: "Ada" } });
    const io = scene.unready();
    const [late] = await next(io, "connection");
    same([late.id, late.handshake.auth, [...late.rooms]], [client.id, {}, [client.id]]);
    const early = next(late, "early");
    client.emit("early", 1);
    same(await early, [1]);
  },

  async namespaces(scene) {
    const io = await scene.backend();
    const [a, b] = await scene.clients(io, { space: "/admin" }, { space: "/" });
    const got = [];
    for (const { client } of [a, b]) client.onAny((...event) => got.push([client.nsp, ...event]));
    io.of("admin").emit("inside", 1);
    io.emit("outside", 2);
    await Promise.all([settled(a.client, a.socket), settled(b.client, b.socket)]);
    same(got.filter(([, name]) => name !== "settled").sort(), [["/", "outside", 2], ["/admin", "inside", 1]]);
    same([a.socket.nsp.name, [...io.of("/admin").sockets.keys()]], ["/admin", [a.client.id]]);
  },

  async listeners(scene) {
    const { client, socket } = await scene.pair();
    const got = [];
    const note = (word) => (...args) => got.push([word, ...args]);
    const [on, once, any, first] = ["on", "once", "any", "first"].map(note);
    socket.on("a", on).once("a", once).onAny(any).prependAny(first);
    socket.on("end", (answer) => answer());
    const round = async () => (client.emit("a", 1), called((done) => client.emit("end", done)));
    await round();
    socket.off("a", on).offAny(first);
    socket.on("a", on);
    await round();
    socket.removeAllListeners("a").offAny();
    await round();
    const names = got.map(([word, event]) => (event === "end" ? `${word}, end` : word));
    same(names, ["first", "any", "on", "once", "first, end", "any, end", "any", "on", "any, end"]);
  },

  async "names of the library"(scene) {
    const { client, socket } = await scene.pair();
    for (const name of ["connection", "event", "answer", "disconnection", "error", "message", "constructor", "__proto__"]) {
      const there = next(socket, name);
      client.emit(name, name);
      same(await there, [name]);
      const back = next(client, name);
      socket.emit(name, name);
      same(await back, [name]);
    }
    client.emit("error", "heard by nobody");
    client.emit("end");
    await next(socket, "end");
  },

  async send(scene) {
    const { io, client, socket } = await scene.pair();
    for (const sender of [io, io.sockets, io.to(socket.id), socket, socket.volatile]) {
      const got = next(client, "message");
      sender.send("hello", 2);
      same(await got, ["hello", 2]);
    }
    const got = next(socket, "message");
    client.send("up");
    same(await got, ["up"]);
  },

  async "a client's question"(scene) {
    const { client, socket } = await scene.pair();
    socket.on("ask", (value, answer) => (answer(value, [2]), answer("again")));
    same(await called((done) => client.emit("ask", "one", done)), ["one", [2]]);
    same(await called((done) => client.emit("ask", "two", done)), ["two", [2]]);
    socket.on("none", (...args) => socket.emit("arguments", args.length));
    client.emit("none", 1);
    same(await next(client, "arguments"), [1]);
  },

  async "questions to a client"(scene) {
    const { client, socket } = await scene.pair();
    client.on("ask", (...args) => args.pop()(...args, "answer"));
    same(await called((done) => socket.emit("ask", 1, done)), [1, "answer"]);
    same(await called((done) => socket.timeout(2000).emit("ask", 2, done)), [null, 2, "answer"]);
    same(await socket.emitWithAck("ask", 3), 3);
    same(await socket.timeout(2000).emitWithAck("ask"), "answer");
    const [error, ...rest] = await called((done) => socket.timeout(50).emit("silent", done));
    same([error.message, rest], ["operation has timed out", []]);
    await rejected(socket.timeout(50).emitWithAck("silent"), "operation has timed out");
    const open = socket.emitWithAck("silent");
    client.disconnect();
    await rejected(open, "socket has been disconnected");
    await rejected(socket.emitWithAck("gone"), "socket has been disconnected");
  },

  async aims(scene) {
    const io = await scene.backend();
    const three = await scene.clients(io, { rooms: ["x"] }, { rooms: ["x", "y"] }, {});
    const got = AIMS.map(() => []);
    three.forEach(({ client }, place) => client.on("aim", (row) => got[row].push("abc"[place])));
    AIMS.forEach(([, aim], row) => aim(io, three[0].socket).emit("aim", row));
    await Promise.all(three.map(({ client, socket }) => settled(client, socket)));
    AIMS.forEach(([expected, aim], row) => same(got[row].sort().join(""), expected, String(aim)));
  },

  async rooms(scene) {
    const { io, client, socket } = await scene.pair();
    const got = [];
    client.onAny((name) => got.push(name));
    socket.join("a");
    io.to("a").emit("in a");
    socket.leave("a");
    io.to("a").emit("not in a");
    socket.join(["b", "c"]);
    same([...socket.rooms], [socket.id, "b", "c"]);
    io.to("c").emit("in c");
    await settled(client, socket);
    same(got, ["in a", "in c", "settled"]);
    await socket.leave("b");
    same([...socket.rooms], [socket.id, "c"]);
    // The last word of a room counts, whatever was refused before.
    const refused = [socket.join(LONG), socket.join(LONG)];
    for (const one of refused) await rejected(one, "bad room");
    const flips = [socket.join("d"), socket.leave("d"), socket.join("d")];
    assert(socket.rooms.has("d"));
    await Promise.all(flips);
    same([...socket.rooms], [socket.id, "c", "d"]);
  },

  async "many rooms"(scene) {
    const { socket } = await scene.pair();
    const names = Array.from({ length: 255 }, (_, place) => `r${place}`);
    await socket.join(names);
    same(socket.rooms.size, 256);
    const refused = socket.join("one too many");
    assert(socket.rooms.has("one too many"));
    await rejected(refused, "too many rooms");
    same([socket.rooms.size, socket.rooms.has("one too many")], [256, false]);
  },

  async "many sockets"(scene) {
    const io = await scene.backend();
    const [a, b, c] = await scene.clients(io, { rooms: ["x"] }, { rooms: ["x"] }, {});
    await io.in("x").socketsJoin(["y", "z"]);
    same([a, b, c].map(({ socket }) => socket.rooms.has("z")), [true, true, false]);
    await io.in("y").except(b.socket.id).socketsLeave("z");
    same([a, b, c].map(({ socket }) => socket.rooms.has("z")), [false, true, false]);
    same(await io.in("z").fetchSockets(), [b.socket]);
    const all = await io.fetchSockets();
    same(all.map(({ id }) => id).sort(), [a, b, c].map(({ socket }) => socket.id).sort());
    const gone = Promise.all([a, b].map(({ client }) => next(client, "disconnect")));
    await io.in("y").disconnectSockets();
    same(await gone, [["io server disconnect"], ["io server disconnect"]]);
    same(await io.fetchSockets(), [c.socket]);
  },

  async ends(scene) {
    const io = await scene.backend();
    for (const [what, reason, end] of ENDS) {
      const { client, socket } = await scene.client(io, { rooms: ["x"] });
      const told = [];
      const note = (name) => (why) => told.push([name, why, [...socket.rooms].sort()]);
      socket.on("disconnecting", note("disconnecting")).on("disconnect", note("disconnect"));
      end({ io, client, socket });
      await until(() => told.length === 2, `two events where ${what}`);
      same(told, [["disconnecting", reason, [socket.id, "x"].sort()], ["disconnect", reason, []]], what);
      same([socket.connected, io.sockets.sockets.has(socket.id)], [false, false]);
    }
  },

  async "nothing after disconnect"(scene) {
    const { client, socket } = await scene.pair();
    let count = 0;
    socket.on("stop", () => socket.disconnect().disconnect());
    socket.on("more", () => (count += 1));
    for (const name of ["more", "stop", "more", "more"]) client.emit(name);
    await next(socket, "disconnect");
    same([count, socket.connected], [1, false]);
  },

  async "socket.use"(scene) {
    const { client, socket } = await scene.pair();
    const got = [];
    socket.use((event, go) => (event[0] === "bad" ? go(new Error("refused")) : go()));
    socket.use((event, go) => (event[1] === "late" ? setTimeout(go, 20) : go()));
    socket.use((event, go) => (event.push("added"), go(), go()));
    socket.on("error", (error) => got.push(error.message));
    socket.on("good", (...args) => got.push(args));
    for (const event of [["bad"], ["good", "late"], ["good", 2]]) client.emit(...event);
    await until(() => got.length === 3, "three");
    same(got, ["refused", [2, "added"], ["late", "added"]]);
  },

  async "io.use"(scene) {
    const io = await scene.backend();
    io.use((socket, go) => setTimeout(go, 20));
    io.use((socket, go) => {
      if (socket.handshake.auth.word === "secret") return go();
      go(Object.assign(new Error("not you"), { data: { code: 7 } }));
    });
    const got = [];
    io.on("connection", (socket) => socket.on("early", (word) => got.push(word)));
    const refused = scene.open("/", { auth: { word: "wrong" } });
    const [told, ended] = await Promise.all([next(refused, "refused"), next(refused, "disconnect")]);
    same([told, ended], [[{ message: "not you", data: { code: 7 } }], ["io server disconnect"]]);
    const client = scene.open("/", { auth: { word: "secret" } });
    client.emit("early", 1);
    client.emit("early", 2);
    await until(() => got.length === 2, "what came early");
    same([got, [...io.sockets.sockets.keys()]], [[1, 2], [client.id]]);
  },

  async "questions to many"(scene) {
    const io = await scene.backend();
    const [a, b, c] = await scene.clients(io, { rooms: ["x"] }, { rooms: ["x"] }, { rooms: ["x"] });
    for (const { client } of [a, b, c]) client.on("ask", (value, answer) => answer(client.id, value));
    const ids = (...of) => of.map(({ client }) => client.id).sort();
    const [none, answers] = await called((done) => io.to("x").timeout(2000).emit("ask", 1, done));
    same([none, answers.sort()], [null, ids(a, b, c)]);
    same((await io.except(a.socket.id).timeout(2000).emitWithAck("ask", 2)).sort(), ids(b, c));
    same((await a.socket.to("x").timeout(2000).emitWithAck("ask", 3)).sort(), ids(b, c));
    same((await io.timeout(2000).emitWithAck("ask", 4)).sort(), ids(a, b, c));
    same((await io.emitWithAck("ask", 5)).sort(), ids(a, b, c));
    same(await io.to("nobody").timeout(2000).emitWithAck("ask", 6), []);
    b.client.off("ask");
    const [late, some] = await called((done) => io.to("x").timeout(1000).emit("ask", 7, done));
    same([late.message, some.sort()], ["operation has timed out", ids(a, c)]);
    const error = await rejected(io.to("x").timeout(1000).emitWithAck("ask", 8), "operation has timed out");
    same(error.responses.sort(), ids(a, c));
    const due = io.to("x").timeout(4000).emitWithAck("ask", 9);
    b.client.on("ask", () => b.client.disconnect());
    same((await due).sort(), ids(a, c));
  },

  async binary(scene) {
    const { client, socket } = await scene.pair();
    socket.on("up", (...args) => args.pop()(onlyBuffers(args), ...args));
    client.on("down", (...args) => args.pop()(...args));
    for (const [what, value] of BINARY) {
      const [pure, ...echo] = await called((done) => client.emit("up", value, "and", value, done));
      same([pure, plain(echo)], [true, plain([value, "and", value])], what);
      const answer = await called((done) => socket.emit("down", value, 1, value, done));
      assert(onlyBuffers(answer), what);
      same(plain(answer), plain([value, 1, value]), what);
    }
  },

  async "names that are numbers"(scene) {
    const { client, socket } = await scene.pair();
    socket.on(5, (value, answer) => answer(value, typeof value));
    client.on(6.5, (value, answer) => answer(value + 1));
    same(await called((done) => client.emit(5, "five", done)), ["five", "string"]);
    same(await socket.emitWithAck(6.5, 1), 2);
  },

  async "thousands in order"(scene) {
    const { io, client, socket } = await scene.pair();
    const [up, down] = [[], []];
    socket.on("count", (number) => up.push(number));
    client.on("count", (number) => down.push(number));
    for (let number = 0; number < MANY; number += 1) {
      client.emit("count", number);
      (number % 3 ? socket : io).emit("count", number);
    }
    await until(() => up.length === MANY && down.length === MANY, "all of them", LOAD);
    const rising = Array.from({ length: MANY }, (_, number) => number);
    same([up, down], [rising, rising]);
  },

  async "answers under load"(scene) {
    const { client, socket } = await scene.pair();
    for (const side of [client, socket]) side.on("ask", (number, answer) => answer(number));
    const ask = (side, number) => new Promise((resolve) => side.emit("ask", number, (answer) => resolve(answer === number)));
    const answers = [];
    for (let number = 0; number < MANY / 3; number += 1) answers.push(ask(client, number), ask(socket, number));
    assert((await within(Promise.all(answers), "all answers", LOAD)).every(Boolean));
  },

  async "two backends share the digits"(scene) {
    const low = await scene.backend({ digits: "01234567" });
    const high = await scene.backend({ digits: "89abcdef" });
    const told = [];
    for (const io of [low, high]) {
      io.on("connection", (socket) => {
        told.push([io, socket.id]);
        socket.on("who", (answer) => answer(io === low));
      });
    }
    const clients = Array.from({ length: 24 }, () => scene.open("/"));
    for (const client of clients) client.on("ask", (answer) => answer(client.id));
    await until(() => told.length === 24, "24 connections");
    const isLow = (id) => id[0] < "8";
    for (const [io, id] of told) same(io === low, isLow(id));
    for (const client of clients) same(await called((done) => client.emit("who", done)), [isLow(client.id)]);
    const ids = clients.map(({ id }) => id).sort();
    for (const io of [low, high]) {
      same((await io.timeout(3000).emitWithAck("ask")).sort(), ids);
      const all = await io.fetchSockets();
      for (const one of all) same(one instanceof RemoteSocket, isLow(one.id) !== (io === low));
      const remote = all.find((one) => one instanceof RemoteSocket);
      same(await remote.timeout(3000).emitWithAck("ask"), remote.id);
      await remote.join("far");
      same((await io.in("far").fetchSockets()).map(({ id }) => id), [remote.id]);
      assert.throws(() => remote.data, /remote/);
      await remote.leave("far");
      const client = clients.find(({ id }) => id === remote.id);
      const gone = next(client, "disconnect");
      remote.disconnect();
      same(await gone, ["io server disconnect"]);
      await rejected(remote.timeout(3000).emitWithAck("ask"), "socket has been disconnected");
      ids.splice(ids.indexOf(remote.id), 1);
    }
    same(told.length, 24);
  },

  async "two backends hear the same"(scene) {
    const [one, two] = [await scene.backend(), await scene.backend()];
    const told = [next(one, "connection"), next(two, "connection")];
    const client = scene.open("/");
    await next(client, "connect");
    const [[first], [second]] = await Promise.all(told);
    same([first.id, second.id], [client.id, client.id]);
    client.on("ask", (value, answer) => answer(value));
    same(await Promise.all([first.emitWithAck("ask", 1), second.emitWithAck("ask", 2)]), [1, 2]);
  },

  async strangers(scene) {
    const { io, client } = await scene.pair({ rooms: ["x"] });
    for (const auth of [{}, { token: "wrong" }, { token: [token] }, { token: `${token}x` }, { digits: "0" }]) {
      const [error] = await next(scene.open("/backend", { auth }), "connect_error");
      same(error.message, "Not allowed", JSON.stringify(auth));
    }
    // Commands of others are events of theirs.
    const { client: stranger, socket } = await scene.client(io);
    let spied = 0;
    client.onAny(() => (spied += 1));
    for (const command of ["emit", "socketsJoin", "socketsLeave", "disconnectSockets", "fetchSockets"]) {
      const there = next(socket, command);
      stranger.emit(command, { in: "/", to: ["x"] }, "x");
      same(await there, [{ in: "/", to: ["x"] }, "x"]);
    }
    same((await io.in("x").fetchSockets()).map(({ id }) => id), [client.id]);
    same([spied, client.connected], [0, true]);
  },

  async "commands that are refused"(scene) {
    const made = await scene.pair({ rooms: ["x"] });
    for (const [what, why, call] of REFUSED) {
      const error = await within(call(made).then(() => new Error("not refused"), (reason) => reason), what);
      same([what, error.message], [what, why]);
    }
    same([...made.socket.rooms].sort(), [made.socket.id, "x", "fine"].sort());
  },

  async "commands that nobody waits for"(scene) {
    const made = await scene.pair({ rooms: ["x"] });
    for (const [command, why, call] of TOLD) {
      const told = next(made.io, "command_error");
      call(made);
      const [error] = await told;
      same([error.command, error.message], [command, why]);
    }
  },

  async "commands of the protocol"(scene) {
    const { io, client, socket } = await scene.pair();
    const backend = scene.open("/backend", { auth: { token, digits: "0" } });
    await next(backend, "connect");
    for (const [expected, ...command] of COMMANDS) {
      const [status, value] = await called((done) => backend.emit(...command, done));
      same(status === "ok" ? status : value, expected, JSON.stringify(command));
    }
    same([client.connected, await io.fetchSockets()], [true, [socket]]);
  },

  async "an unknown namespace is told"(scene) {
    const io = await scene.backend();
    const told = next(io, "command_error");
    io.of("/nowhere");
    same((await told)[0].message, "unknown namespace: /nowhere");
  },

  async "calls that throw"(scene) {
    const made = await scene.pair();
    for (const [pattern, call] of THROWS) assert.throws(() => call(made), pattern);
  },

  async "a refused backend"(scene) {
    const refusals = [
      [{ token: "wrong" }, /the server refused this backend: Not allowed/],
      [{ token: undefined }, /`token` is missing/],
      [{ digits: "xyz" }, /`digits`/],
    ];
    for (const [options, pattern] of refusals) {
      await assert.rejects(within(scene.unready(options).ready, "the refusal"), pattern);
      const heard = scene.unready(options);
      assert.match((await next(heard, "error"))[0].message, pattern);
      await assert.rejects(heard.fetchSockets(), pattern);
    }
  },

  async "lost and back"(scene) {
    const io = await scene.backend();
    const [stays, goes] = await scene.clients(io, { rooms: ["x"] }, {});
    stays.socket.data.kept = 1;
    const told = [];
    io.on("connection", (socket) => {
      told.push(["connection", socket.id, socket.handshake.auth, [...socket.rooms]]);
      socket.on("early", () => told.push(["early", socket.id]));
    });
    for (const { socket } of [stays, goes]) socket.on("disconnect", (reason) => told.push(["disconnect", socket.id, reason]));
    stays.client.on("ask", () => {});
    const open = rejected(stays.socket.timeout(4000).emitWithAck("ask"), "the connection to the server was lost");
    await settled(stays.client, stays.socket);
    io.lose();
    goes.client.disconnect();
    const comes = scene.open("/", { auth: { word: 1 } });
    await Promise.all([open, next(comes, "connect")]);
    stays.socket.emit("while away", 1);
    io.volatile.emit("volatile");
    const away = next(stays.client, "while away");
    const teller = setInterval(() => comes.emit("early"), 1);
    same(await away, [1]);
    await until(() => told.some(([what]) => what === "early"), "an event of the new one");
    clearInterval(teller);
    const once = told.filter(([what]) => what !== "early");
    const sorted = (rows) => rows.map((row) => JSON.stringify(row)).sort();
    same(sorted(once), sorted([["connection", comes.id, {}, [comes.id]], ["disconnect", goes.socket.id, "transport close"]]));
    assert(told.findIndex(([what]) => what === "connection") < told.findIndex(([what]) => what === "early"));
    same([stays.socket.connected, stays.socket.data, [...stays.socket.rooms]], [true, { kept: 1 }, [stays.socket.id, "x"]]);
    same(io.sockets.sockets.get(stays.socket.id), stays.socket);
  },

  async "lost again and again"(scene) {
    const io = await scene.backend();
    const open = new Map();
    io.on("connection", (socket) => {
      open.set(socket.id, (open.get(socket.id) ?? 0) + 1);
      socket.on("disconnect", () => open.set(socket.id, open.get(socket.id) - 1));
    });
    for (let round = 0; round < 4; round += 1) {
      const clients = Array.from({ length: 10 }, () => scene.open("/"));
      await Promise.all(clients.map((client) => next(client, "connect")));
      for (const client of clients.slice(5)) client.disconnect();
      io.lose();
      for (const client of clients.slice(2, 5)) client.disconnect();
    }
    await until(() => io.sockets.sockets.size === 8, "the eight that stayed");
    const there = new Set(io.sockets.sockets.keys());
    for (const [id, count] of open) same([id, count], [id, there.has(id) ? 1 : 0]);
  },

  async "exceptions of listeners"(scene) {
    const { io, client, socket } = await scene.pair();
    const thrown = [];
    const others = process.listeners("uncaughtException");
    process.removeAllListeners("uncaughtException").on("uncaughtException", (error) => thrown.push(error.message));
    try {
      const bad = (word) => () => {
        throw new Error(word);
      };
      socket.on("bad", bad("listener")).onAny((name) => name === "bad" && bad("any")());
      socket.use((event, go) => (event[0] === "worse" ? bad("use")() : go()));
      io.on("connection", bad("connection"));
      socket.on("ask", (answer) => answer("still there"));
      for (const name of ["bad", "worse", "bad"]) client.emit(name);
      same(await called((done) => client.emit("ask", done)), ["still there"]);
      const other = scene.open("/");
      await until(() => io.sockets.sockets.has(other.id), "another");
      client.on("answer me", (answer) => answer());
      socket.emit("answer me", bad("callback"));
      await until(() => thrown.length === 7, "seven exceptions");
      same(thrown.sort(), ["any", "any", "callback", "connection", "listener", "listener", "use"]);
    } finally {
      process.removeAllListeners("uncaughtException");
      for (const listener of others) process.on("uncaughtException", listener);
    }
  },

  async close(scene) {
    const { io, client, socket } = await scene.pair();
    const ended = next(socket, "disconnect");
    const last = next(client, "last");
    socket.emit("last", 1);
    const join = socket.join("x");
    await called((done) => io.close(done));
    await join;
    same([await last, await ended], [[1], ["server shutting down"]]);
    same([client.connected, socket.connected, io.sockets.sockets.size], [true, false, 0]);
    await rejected(io.fetchSockets(), "the backend is closed");
  },

  // The client of 4.4 doesn't ask for its session, so this one is written by hand.
  async "a session that comes back"(scene) {
    const io = await scene.backend();
    let middleware = 0;
    io.use((socket, go) => go((middleware += 1) && undefined));
    const [first, pid] = await raw(scene, io, { word: 1 });
    if (!pid) return "skipped: this server keeps no sessions";
    first.socket.data.kept = 1;
    first.socket.join("x");
    await called((done) => (first.message = done, first.socket.emit("hello")));
    const offset = first.offset ?? "";
    const ended = next(first.socket, "disconnect");
    first.raw.terminate();
    same(await ended, ["transport close"]);
    const [second] = await raw(scene, io, { pid, offset });
    same([second.socket.id, second.socket.recovered, second.socket.data], [first.socket.id, true, { kept: 1 }]);
    same([...second.socket.rooms].sort(), [first.socket.id, "x"].sort());
    same([second.socket.handshake.auth.word, middleware, second.socket === first.socket], [1, 1, false]);
  },
};

async function raw(scene, io, auth) {
  const told = next(io, "connection");
  const WebSocket = RawSocket();
  const made = { raw: new WebSocket(`${url.replace("http", "ws")}/socket.io/?EIO=4&transport=websocket`) };
  scene.ends.push(() => made.raw.terminate());
  const pid = await within(new Promise((resolve) => {
    made.raw.on("message", (data) => {
      const text = String(data);
      if (text.startsWith("0")) made.raw.send(`40${JSON.stringify(auth)}`);
      if (text.startsWith("40")) resolve(JSON.parse(text.slice(2)).pid);
      if (text.startsWith("42")) {
        made.offset = JSON.parse(text.slice(2)).at(-1);
        made.message?.();
      }
    });
  }), "the session");
  [made.socket] = await told;
  return [made, pid];
}

let failed = 0;
for (const transport of ["polling", "websocket"]) failed += await play(transport, CHECKS, () => new Scene(transport), word);
await watcher.close();
console.log(failed ? `${failed} failed` : "all is well");
process.exit(failed ? 1 : 0);
