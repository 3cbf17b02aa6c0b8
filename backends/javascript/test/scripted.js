// Plays what a server tells, in orders that a real one rarely has, and looks at what the program is told. No server is needed.
//   node test/scripted.js [WORD]
import assert from "node:assert";
import { connect, RemoteSocket } from "../index.js";
import { next, pause, play, rejected, same } from "./checks.js";
import { Fake, FakeEngine, back, came, gone, note } from "./fakes.js";

const [word] = process.argv.slice(2);
const [A, B, C] = ["a", "b", "c"].map((letter) => letter.repeat(32));

class Scene extends Fake {
  told = [];

  constructor(options) {
    super();
    this.io = connect("http://nowhere", { token: "t", client: (...args) => this.open(...args), ...options });
    note(this.io, this.told);
    this.on("connects", () => this.told.push(["connect"]));
  }

  // What was told since the last call.
  take() {
    return this.told.splice(0);
  }

  async end() {
    process.removeAllListeners("warning");
  }
}

const LOST = "transport close";

// What is told while it asks who is there, who is there then, and what the program is to be told. A was known before, with data.
const WHILE_ASKING = [
  ["all as before", [], [A], []],
  ["it went", [], [], gone(A, LOST)],
  ["one came", [], [A, B], [came(B)]],
  ["one came and spoke", [["event", B, null, "x", 1]], [A, B], [came(B), [B, "x", 1]]],
  ["one came, spoke and went", [["event", B, null, "x"], ["disconnection", B, "left", [B]]], [A],
    [came(B), [B, "x"], ...gone(B, "client namespace disconnect")]],
  ["one went that nobody knew", [["disconnection", B, "left", [B]]], [A], []],
  ["one comes meanwhile", [["connection", B, null, { n: 1 }], ["event", B, null, "x"]], [A, B], [came(B, { n: 1 }), [B, "x"]]],
  ["it goes meanwhile", [["event", A, null, "x"], ["disconnection", A, "alone", [A]]], [],
    [[A, "x"], ...gone(A, "server namespace disconnect")]],
  ["it is lost and back meanwhile", [["disconnection", A, "saved", [A, "r"]], ["connection", A, [A, "r"]]], [A],
    [...gone(A, LOST), back(A, ["r"], { first: 1 })]],
  ["it was lost, and is back meanwhile", [["connection", A, [A, "r"]], ["event", A, null, "x"]], [A],
    [...gone(A, LOST), back(A, ["r"]), [A, "x"]]],
  ["it went and one came", [["event", B, null, "x"]], [B], [came(B), [B, "x"], ...gone(A, LOST)]],
];

const CHECKS = {
  async "while it asks who is there"() {
    for (const [what, meanwhile, there, expected] of WHILE_ASKING) {
      const scene = new Scene();
      scene.joined();
      scene.tell("connection", A, null, { first: 1 });
      scene.take();
      scene.lost();
      scene.emit("connect");
      for (const happening of meanwhile) scene.tell(...happening);
      same([what, scene.take()], [what, []]);
      scene.answer("fetchSockets", "ok", there);
      // What comes at once behind the answer is behind it.
      scene.tell("connection", C, null);
      same([what, scene.take()], [what, [...expected, came(C)]]);
      same([what, [...scene.io.sockets.sockets.keys()].sort()], [what, [...there, C].sort()]);
    }
  },

  async "lost while it asks"(scene) {
    scene.joined([A]);
    scene.take();
    scene.lost();
    scene.emit("connect");
    scene.tell("connection", B, null, { n: 1 });
    scene.lost();
    scene.emit("connect");
    scene.tell("event", B, null, "x");
    same(scene.take(), []);
    scene.answer("fetchSockets", "ok", [B]);
    same(scene.take(), [came(B, { n: 1 }), [B, "x"], ...gone(A, LOST)]);
  },

  async "saved and back"(scene) {
    scene.joined();
    let asked = 0;
    scene.io.use((socket, go) => go((asked += 1) && undefined));
    scene.tell("connection", A, null, { first: 1 });
    scene.io.sockets.sockets.get(A).data.kept = 1;
    scene.tell("disconnection", A, "saved", [A, "r"]);
    scene.tell("connection", A, [A, "r", "s"]);
    same(scene.take(), [came(A, { first: 1 }), ...gone(A, LOST), back(A, ["r", "s"], { first: 1 })]);
    same([scene.io.sockets.sockets.get(A).data, asked], [{ kept: 1 }, 1]);
    scene.tell("connection", B, [B, "r"]); // another process's: it is looked at
    same([scene.take(), asked], [[back(B, ["r"])], 2]);
    // It comes back unheard.
    scene.tell("disconnection", A, "saved", [A, "t"]);
    scene.lost();
    scene.joined([A, B]);
    same(scene.take(), [...gone(A, LOST), back(A, ["t"], { first: 1 })]);
  },

  async "saved before it was accepted"(scene) {
    scene.joined();
    let go;
    scene.io.use((socket, next) => (go = next));
    scene.tell("connection", A, null, { first: 1 });
    scene.tell("disconnection", A, "saved", [A, "r"]);
    scene.tell("connection", A, [A, "r"]);
    same(scene.take(), []);
    go();
    same(scene.take(), [back(A, ["r"], { first: 1 })]);
  },

  async "rooms that another backend changed"(scene) {
    scene.joined([A]);
    const socket = scene.io.sockets.sockets.get(A);
    socket.join("mine");
    const rooms = [];
    for (const name of ["disconnecting", "disconnect"]) socket.on(name, () => rooms.push([...socket.rooms]));
    scene.tell("disconnection", A, "left", [A, "theirs"]);
    same(rooms, [[A, "theirs"], []]);
  },

  async "an event whose socket went meanwhile"(scene) {
    scene.joined([A]);
    const socket = scene.io.sockets.sockets.get(A);
    let go;
    socket.use((event, next) => (go = next));
    socket.on("x", () => scene.told.push("heard"));
    scene.tell("event", A, null, "x");
    go();
    scene.tell("event", A, null, "x");
    scene.tell("disconnection", A, "left", [A]);
    go();
    same(scene.take().filter((one) => one === "heard"), ["heard"]);
  },

  // Behind the first, if the turn before had no others.
  async "what a turn sends is written at once"(scene) {
    scene.joined([A]);
    await pause(0);
    const done = (scene.commands = []);
    const stream = { cork: () => done.push(["cork"]), uncork: () => done.push(["uncork"]) };
    scene.under = { engine: { transport: { ws: { _socket: stream } } } };
    for (const turn of [["a"], ["b", "c", "d"], ["e", "f"], ["g"], ["h"]]) {
      for (const name of turn) scene.io.emit(name);
      await pause(0);
    }
    const expected = ["a", "b", "cork", "c", "d", "uncork", "cork", "e", "f", "uncork", "cork", "g", "uncork", "h"];
    same(done.map((one) => one[2] ?? one[0]), expected);
  },

  async "a command that throws doesn't hold back others"(scene) {
    const done = [];
    const engine = new FakeEngine();
    scene.under = engine.under();
    scene.joined([A]);
    await pause(0);
    engine.transport.ws = { _socket: { cork: () => done.push("cork"), uncork: () => done.push("uncork") } };
    for (const value of [1, 2]) scene.io.emit("x", value);
    assert.throws(() => scene.io.emit("x", 5n), /BigInt/);
    await pause(0);
    assert.throws(() => scene.io.emit("x", 5n), /BigInt/);
    await pause(0);
    same(done, ["cork", "uncork", "cork", "uncork"]);
  },

  async "past the official client"(scene) {
    const engine = new FakeEngine();
    scene.under = engine.under();
    scene.joined([A]);
    scene.commands = [];
    const text = (...event) => `2/backend,${JSON.stringify(["emit", { in: "/" }, ...event])}`;
    scene.io.emit("a"); // over polling
    engine.open();
    scene.io.emit("b");
    engine.writeBuffer.push("what waits");
    scene.io.emit("c");
    engine.writeBuffer.pop();
    engine.transport.ws.readyState = 2;
    scene.io.emit("d");
    engine.transport.ws.readyState = 1;
    engine.isSilent = true;
    scene.io.emit("e");
    engine.isSilent = false;
    scene.io.emit("f", new Blob([]));
    scene.io.emit("g");
    const way = (one) => (one === "b" || one === "g" ? ["WebSocket", `4${text(one)}`] : ["engine", text(one)]);
    same(engine.written, ["a", "b", "c", "d", "g"].map(way));
    same(scene.commands.map((command) => command[2]), ["e", "f"]);
    // Another engine after each connect, and none before.
    scene.lost();
    scene.io.emit("h");
    const next = new FakeEngine();
    scene.under = next.under();
    scene.joined([A]);
    same([engine.written.length, next.written], [5, [["engine", text("h")]]]);
  },

  async "past the official client, what is told"(scene) {
    const engine = new FakeEngine();
    scene.under = engine.under();
    scene.joined([A]);
    await pause(0);
    scene.take();
    const say = (...event) => engine.emit("data", `2/backend,${JSON.stringify(event)}`);
    say("event", "/", A, null, "x", 1);
    say("connection", "/", B, null, { n: 1 });
    say("disconnection", "/", A, "left", [A]);
    say("no such kind", "/", B);
    same(scene.take(), [[A, "x", 1], came(B, { n: 1 }), ...gone(A, "client namespace disconnect")]);
    // The client tells it, and what is behind it in this turn.
    engine.emit("data", '3/backend,0["ok"]');
    say("event", "/", B, null, "x", 2);
    same(scene.take(), []);
    await pause(0);
    say("event", "/", B, null, "x", 3);
    scene.lost();
    say("event", "/", B, null, "x", 4);
    same(scene.take(), [[B, "x", 3]]);
  },

  async "past no other client"() {
    const engines = [new FakeEngine(), new FakeEngine(), new FakeEngine()];
    engines[2].on("data", () => {}); // somebody else listens
    const unders = [null, {}, { engine: engines[0] }, { engine: {}, encoder: {} }, engines[1].under("/other"), engines[2].under()];
    for (const under of unders) {
      const scene = new Scene();
      scene.under = under;
      scene.joined([A]);
      scene.io.emit("a", 1);
      same(scene.commands.at(-1), ["emit", { in: "/" }, "a", 1]);
    }
    same(engines.map(({ written }) => written), [[], [], []]);
  },

  async "the first answer counts"(scene) {
    scene.joined([A]);
    scene.io.sockets.sockets.get(A).on("ask", (answer) => (answer(1), answer(2)));
    scene.tell("event", A, 7, "ask");
    same(scene.commands.filter(([name]) => name === "emit"), [["emit", { in: "/", to: [A], answer: 7 }, 1]]);
  },

  async "what is saved is forgotten"(scene) {
    scene.joined();
    const [clock, now] = [Date.now, Date.now()];
    try {
      for (const [id, later, kept] of [[A, 125_000, { kept: 1 }], [B, 200_000, {}]]) {
        Date.now = () => now;
        scene.tell("connection", id, null);
        scene.io.sockets.sockets.get(id).data.kept = 1;
        scene.tell("disconnection", id, "saved", [id]);
        Date.now = () => now + later;
        scene.tell("connection", id, [id]);
        same(scene.io.sockets.sockets.get(id).data, kept);
      }
    } finally {
      Date.now = clock;
    }
  },

  async "middleware that takes its time"(scene) {
    scene.joined();
    const goes = [];
    scene.io.use((socket, go) => goes.push(go));
    for (const id of [A, B, C]) scene.tell("connection", id, null);
    scene.tell("event", A, null, "x");
    scene.tell("event", B, null, "x");
    scene.tell("disconnection", C, "left", [C]);
    same([scene.take(), scene.io.sockets.sockets.size], [[], 0]);
    goes[0]();
    goes[0]();
    goes[1](new Error("no"));
    goes[2]();
    same(scene.take(), [came(A), [A, "x"]]);
    same(scene.names().slice(-2), ["emit", "disconnectSockets"]);
    scene.tell("event", B, null, "x");
    scene.tell("disconnection", B, "alone", [B]);
    same([scene.take(), [...scene.io.sockets.sockets.keys()]], [[], [A]]);
  },

  async "a disconnect that was lost is sent again"(scene) {
    scene.joined([A]);
    scene.io.sockets.sockets.get(A).disconnect();
    scene.lost();
    scene.joined([A]);
    scene.tell("event", A, null, "x");
    await pause(10);
    same(scene.names().filter((name) => name === "disconnectSockets").length, 2);
    scene.tell("disconnection", A, "alone", [A]);
    same(scene.take().slice(1), [["command_error", "the connection to the server was lost"], ...gone(A, "server namespace disconnect")]);
  },

  async "commands while it is away"(scene) {
    scene.io.emit("early", 1);
    scene.io.volatile.emit("never");
    same(scene.commands, []);
    scene.joined([A]);
    same([scene.commands[0], scene.commands.length], [["emit", { in: "/" }, "early", 1], 2]);
    scene.lost();
    const socket = scene.io.sockets.sockets.get(A);
    const join = socket.join("r");
    socket.emit("later");
    scene.commands = [];
    scene.joined([A]);
    same(scene.names(), ["socketsJoin", "emit", "fetchSockets"]);
    scene.answer("socketsJoin", "ok");
    await join;
    same([...socket.rooms], [A, "r"]);
  },

  async "too many commands while it is away"(scene) {
    for (let count = 0; count < 10_000; count += 1) scene.io.emit("a");
    same(scene.take(), []);
    scene.io.emit("a");
    same(scene.take(), [["command_error", "too many commands while the server is away"]]);
    await rejected(scene.io.fetchSockets(), "too many commands while the server is away");
  },

  async "lost commands are refused"(scene) {
    scene.joined([A]);
    const socket = scene.io.sockets.sockets.get(A);
    const [join, ask] = [socket.join("r"), socket.emitWithAck("q")];
    scene.take();
    scene.lost();
    for (const one of [join, ask]) await rejected(one, "the connection to the server was lost");
    same([...socket.rooms], [A]);
    await pause(10);
    same(scene.take(), []); // whoever waits for it is told, and nobody else
  },

  async "fetchSockets is asked again"(scene) {
    const [early, low] = [scene.io.fetchSockets(), new Scene({ digits: "0a" })];
    const of = async (fetched) => (await fetched).map((one) => [one.id, one instanceof RemoteSocket]);
    scene.emit("connect");
    for (const ids of [[A], [A], [A]]) scene.commands.shift().at(-1)("ok", ids);
    same(await of(early), [[A, false]]);
    const late = scene.io.in("r").fetchSockets();
    scene.lost();
    scene.commands = [];
    scene.emit("connect");
    for (const ids of [[B], [A, B], [A, B]]) scene.commands.shift().at(-1)("ok", ids);
    same(await of(late), [[A, false], [B, false]]);
    // Those of its digits that the program wasn't told of are left out.
    low.io.use((socket, go) => socket.id === A && go());
    low.joined([A, "0".repeat(32)]);
    const mixed = low.io.fetchSockets();
    low.answer("fetchSockets", "ok", ["0".repeat(32), A, B]);
    same(await of(mixed), [[A, false], [B, true]]);
  },

  async "rooms as the server has them"(scene) {
    scene.joined([A]);
    const socket = scene.io.sockets.sockets.get(A);
    const joins = [socket.join("r"), socket.leave("r"), socket.join("r")];
    const acks = scene.commands.slice(-3).map((command) => command.at(-1));
    acks[0]("ok");
    acks[1]("ok");
    assert(socket.rooms.has("r"));
    acks[2]("error", "no");
    assert(!socket.rooms.has("r"));
    await joins[0];
    await rejected(joins[2], "no");
  },

  async "answers"(scene) {
    scene.joined([A, B]);
    const got = [];
    scene.io.timeout(50).emit("q", (error, answers) => got.push([error?.message, answers]));
    const { ask } = scene.commands.at(-1)[1];
    same(scene.names().slice(-2), ["fetchSockets", "emit"]);
    scene.answer("fetchSockets", "ok", [A, B]);
    scene.io.of("/other");
    scene.answer("fetchSockets", "ok", [B]);
    const answers = [[C, ask, 0], [A, ask + 1, 1], [A, ask, 2], [A, ask, 3]];
    for (const answer of answers) scene.tell("answer", ...answer);
    scene.emit("answer", "/other", B, ask, 4);
    same(got, []);
    scene.tell("disconnection", B, "left", [B]);
    same(got, [[undefined, [2]]]);
    await pause(60);
    same(got.length, 1);
    scene.io.timeout(10).emit("q", (error, answers) => got.push([error.message, answers]));
    scene.answer("fetchSockets", "error", "no");
    same(got[1], ["no", []]);
    await pause(20);
    same(got.length, 2);
  },

  async "questions to others' digits"() {
    const scene = new Scene({ digits: "0a" });
    scene.joined([A, B]);
    same(scene.take(), [came(A)]);
    const answers = scene.io.emitWithAck("q");
    const heard = scene.commands.filter(([name]) => name === "socketsJoin");
    same(heard.map(([, options, digit]) => [options, digit]), [..."123456789bcdef"].map((digit) => [{ in: "/backend", to: [scene.id] }, digit]));
    same(scene.names().slice(-2), ["fetchSockets", "emit"]);
    const { ask } = scene.commands.at(-1)[1];
    scene.answer("fetchSockets", "ok", [A, B, C]);
    scene.tell("connection", C, null);
    scene.tell("event", C, null, "x");
    scene.tell("disconnection", C, "left", [C]);
    for (const id of [A, B]) scene.tell("answer", id, ask, id);
    same([await answers, scene.take()], [[A, B], []]);
    same(scene.names().filter((name) => name === "socketsLeave").length, 14);
    scene.io.sockets.sockets.get(A).emitWithAck("q");
    same(scene.names().at(-2), "socketsLeave");
  },

  async "two questions to others' digits"() {
    const scene = new Scene({ digits: "0a" });
    scene.joined([A, B]);
    const count = (name) => scene.names().filter((other) => other === name).length;
    const open = [1, 2].map(() => scene.io.emitWithAck("q"));
    const asked = scene.commands.filter(([name]) => name === "emit").map(([, { ask }]) => ask);
    for (const fetch of scene.commands.filter(([name]) => name === "fetchSockets").slice(1)) fetch.at(-1)("ok", [B]);
    scene.tell("answer", B, asked[0], 1);
    same([await open[0], count("socketsJoin"), count("socketsLeave")], [[1], 14, 0]);
    scene.tell("answer", B, asked[1], 2);
    same([await open[1], count("socketsJoin"), count("socketsLeave")], [[2], 14, 14]);
  },

  async "a namespace that nobody made"(scene) {
    const warned = [];
    process.on("warning", ({ message }) => warned.push(message));
    scene.joined();
    for (const name of ["/x", "/x", "/y", "/backend"]) scene.emit("connection", name, A, null);
    await pause(10);
    same([warned.length, scene.take()], [2, []]);
    scene.io.of("/x", (socket) => scene.told.push([socket.nsp.name, socket.id]));
    scene.answer("fetchSockets", "ok", [A]);
    same(scene.take(), [["/x", A]]);
  },

  async "sent away"(scene) {
    scene.joined();
    scene.emit("disconnect", "io server disconnect");
    await pause(1100);
    same(scene.take(), [["connect"]]);
  },

  async "close, where the server hangs"(scene) {
    scene.joined([A]);
    scene.take();
    const late = rejected(scene.io.fetchSockets(), "the backend is closed");
    await scene.io.close();
    await late;
    same(scene.take(), gone(A, "server shutting down"));
  },

  async "how it joins"() {
    const scene = new Scene({ digits: "0f", transports: ["polling"] });
    const auth = { token: "t", digits: "0f" };
    same(scene.opened, ["http://nowhere/backend", { auth, transports: ["polling"], forceNew: true }]);
  },

  async "refused later, and nobody listens"(scene) {
    scene.joined();
    await scene.io.ready;
    scene.active = false;
    const thrown = next(process, "uncaughtException");
    scene.emit("connect_error", new Error("Not allowed"));
    same((await thrown)[0].message, "the server refused this backend: Not allowed");
  },

  async "refused later"(scene) {
    scene.joined();
    await scene.io.ready;
    scene.lost();
    scene.emit("connect_error", new Error("xhr poll error"));
    await pause(10);
    scene.active = false;
    const heard = next(scene.io, "error");
    scene.emit("connect_error", new Error("Not allowed"));
    same((await heard)[0].message, "the server refused this backend: Not allowed");
  },
};

const failed = await play("scripted", CHECKS, () => new Scene(), word);
console.log(failed ? `${failed} failed` : "all is well");
process.exit(failed ? 1 : 0);
