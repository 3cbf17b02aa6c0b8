// Plays what several nodes tell, and looks at which of them is told what, and what the program is told. No server is needed.
//   node test/nodes.js [WORD]
import assert from "node:assert";
import { connect } from "../index.js";
import { called, next, pause, play, rejected, same } from "./checks.js";
import { Fake, back, came, gone, note } from "./fakes.js";

const [word] = process.argv.slice(2);
const [A, B, C] = ["a", "b", "c"].map((letter) => letter.repeat(32)); // A is a socket of node a, and so on
const LOST = "the connection to the server was lost";
const LONG = "r".repeat(65);
const isReady = (io) => Promise.race([io.ready.then(() => true, () => "refused"), pause(5).then(() => false)]);

class Scene {
  told = [];
  nodes = { a: new Fake(), b: new Fake() };

  constructor(options, urls = ["http://a", "http://b/"]) {
    const client = (url, given) => this.nodes[url[7]].open(url, given);
    this.io = connect(urls, { token: "t", client, ...options });
    note(this.io, this.told);
  }

  joined() {
    this.nodes.a.joined([A]);
    this.nodes.b.joined([B]);
    this.clear();
  }

  // It is lost, and can't be reached again.
  away(name) {
    this.nodes[name].lost();
    this.nodes[name].missed();
  }

  clear() {
    this.take();
    for (const node of Object.values(this.nodes)) node.commands = [];
  }

  take() {
    return this.told.splice(0);
  }

  // What each was sent since then, without options.
  sent() {
    return Object.values(this.nodes).map((node) => node.commands.splice(0).map(([name, , ...args]) =>
      [name, ...args].filter((part) => typeof part !== "function").join(" ")));
  }

  async end() {}
}

const CHECKS = {
  async "it begins with those that are there"(scene) {
    const { a, b } = scene.nodes;
    same([a.opened[0], b.opened[0]], ["http://a/backend", "http://b/backend"]);
    scene.io.emit("early", 1);
    a.joined([A]);
    same([await isReady(scene.io), scene.take(), b.commands], [false, [came(A)], []]);
    b.missed();
    same([await isReady(scene.io), scene.take()], [true, []]);
    scene.io.emit("later");
    same(scene.sent(), [["emit early 1", "fetchSockets", "emit later"], []]);
    b.joined([B]);
    scene.io.emit("last");
    same([scene.take(), scene.sent()], [[came(B)], [["emit last"], ["fetchSockets", "emit last"]]]);
  },

  async "while none is there none is left out"(scene) {
    const { a } = scene.nodes;
    scene.io.emit("first");
    a.missed();
    scene.io.emit("second");
    a.emit("connect");
    same(scene.sent(), [["emit first", "emit second", "fetchSockets"], []]);
  },

  async "while none is there all wait"(scene) {
    const { a, b } = scene.nodes;
    scene.io.emit("first");
    a.missed();
    b.missed();
    const join = scene.io.socketsJoin("r");
    same([await isReady(scene.io), scene.take()], [false, []]);
    b.emit("connect");
    b.answer("socketsJoin", "ok");
    await join;
    a.joined([]);
    same([scene.take(), scene.sent()], [[], [["fetchSockets"], ["emit first", "socketsJoin r", "fetchSockets"]]]);
  },

  async "what is for one goes to its node"(scene) {
    scene.joined();
    const [one, other] = [A, B].map((id) => scene.io.sockets.sockets.get(id));
    one.emit("x");
    scene.io.to(A).emit("to");
    scene.io.in([A, A]).except("r").emit("in");
    one.join("r");
    scene.io.in(A).fetchSockets();
    scene.io.in(A).disconnectSockets();
    same(scene.sent(), [["emit x", "emit to", "emit in", "socketsJoin r", "fetchSockets", "disconnectSockets"], []]);
    other.emitWithAck("q");
    scene.nodes.b.tell("event", B, 7, "ask");
    other.volatile.emit("v");
    same(scene.sent(), [[], ["emit q", "emit v"]]);
    const { io } = scene;
    for (const target of [io, io.to("r"), io.to(C), io.to([A, "r"]), io.to([A, B]), one.broadcast, one.to("r")]) {
      target.emit("x");
      same(scene.sent(), [["emit x"], ["emit x"]]);
    }
  },

  async "an answer goes to the node that asked"(scene) {
    scene.joined();
    scene.io.sockets.sockets.get(B).on("ask", (answer) => answer(1));
    scene.nodes.b.tell("event", B, 7, "ask");
    same([scene.nodes.a.commands, scene.nodes.b.commands], [[], [["emit", { in: "/", to: [B], answer: 7 }, 1]]]);
  },

  async "one is lost and comes back"(scene) {
    scene.joined();
    scene.nodes.b.lost();
    scene.io.emit("x");
    scene.io.volatile.emit("v");
    scene.nodes.b.joined([B]);
    same([scene.take(), scene.sent()], [[], [["emit x", "emit v"], ["emit x", "fetchSockets"]]]);
  },

  async "one can't be reached"(scene) {
    let asked = 0;
    scene.io.use((socket, go) => go((asked += 1) && undefined));
    scene.joined();
    const socket = scene.io.sockets.sockets.get(B);
    socket.data.kept = 1;
    const join = socket.join("r");
    scene.nodes.b.answer("socketsJoin", "ok");
    await join;
    scene.away("b");
    same(scene.take(), gone(B, "transport close"));
    scene.clear();
    const leave = scene.io.socketsLeave("r");
    scene.nodes.a.answer("socketsLeave", "ok");
    await leave;
    socket.emit("x");
    same([scene.take(), scene.sent()], [[["command_error", LOST]], [["socketsLeave r"], []]]);
    await rejected(socket.join("r"), LOST);
    await rejected(socket.emitWithAck("q"), "socket has been disconnected");
    // Only the way to it was lost.
    scene.nodes.b.joined([B]);
    same([scene.take(), asked], [[back(B, ["r"])], 2]);
    same(scene.io.sockets.sockets.get(B).data, { kept: 1 });
  },

  async "none can be reached"(scene) {
    scene.joined();
    scene.away("a");
    same(scene.take(), gone(A, "transport close"));
    scene.nodes.b.lost();
    scene.io.emit("x");
    scene.nodes.b.missed();
    same(scene.take(), []); // as where there is one only
    scene.nodes.a.joined([]);
    same(scene.take(), gone(B, "transport close"));
    same(scene.sent(), [["emit x", "fetchSockets"], []]);
  },

  async "the sockets of all"(scene) {
    scene.joined();
    const { a, b } = scene.nodes;
    const ids = async (fetched) => (await fetched).map(({ id }) => id);
    const all = scene.io.fetchSockets();
    a.answer("fetchSockets", "ok", [A]);
    b.answer("fetchSockets", "ok", [B]);
    same(await ids(all), [A, B]);
    const rest = scene.io.fetchSockets();
    a.answer("fetchSockets", "ok", [A]);
    scene.away("b");
    same(await ids(rest), [A]);
  },

  async "sockets of another backend"() {
    const scene = new Scene({ digits: "0" });
    scene.joined();
    const fetched = scene.io.fetchSockets();
    scene.nodes.a.answer("fetchSockets", "ok", [A]);
    scene.nodes.b.answer("fetchSockets", "ok", [B]);
    const [, remote] = await fetched;
    scene.clear();
    remote.emit("x");
    same(scene.sent(), [[], ["emit x"]]);
    scene.io.emitWithAck("q");
    same(scene.sent().map((sent) => sent.filter((one) => one.startsWith("socketsJoin")).length), [15, 15]);
  },

  async "a question to all"(scene) {
    scene.joined();
    const { a, b } = scene.nodes;
    const answers = scene.io.emitWithAck("q");
    const asked = [a, b].map((node) => node.commands.at(-1)[1].ask);
    a.answer("fetchSockets", "ok", [A]);
    a.tell("answer", A, asked[0], 1);
    b.answer("fetchSockets", "ok", [B, C]);
    a.tell("answer", B, asked[0], "of another node");
    b.tell("answer", B, asked[1], 2);
    b.tell("answer", C, asked[1], 3);
    same([await answers, asked[0]], [[1, 2, 3], asked[1]]);
  },

  async "a question of which a node is lost"(scene) {
    scene.joined();
    const { a, b } = scene.nodes;
    const ask = () => called((done) => scene.io.timeout(1000).emit("q", done));
    for (const acknowledged of [{}, { fetchSockets: [B] }, { fetchSockets: [B], emit: undefined }]) {
      const asked = ask();
      a.answer("fetchSockets", "ok", [A]);
      for (const [name, value] of Object.entries(acknowledged)) b.answer(name, "ok", value);
      b.lost();
      a.tell("answer", A, a.commands.at(-1)[1].ask, 1);
      const [error, answers] = await asked;
      same([error.message, error.node, answers], [LOST, "http://b", [1]]);
      b.joined([B]);
    }
    // All of it have answered before.
    const asked = ask();
    for (const [node, id] of [[b, B], [a, A]]) {
      node.answer("fetchSockets", "ok", [id]);
      node.answer("emit", "ok");
      node.tell("answer", id, node.commands.at(-1)[1].ask, id);
      if (node === b) b.lost();
    }
    same(await asked, [null, [B, A]]);
  },

  async "a question while a node is away"(scene) {
    scene.joined();
    const { a, b } = scene.nodes;
    b.lost();
    const answers = scene.io.emitWithAck("q");
    a.answer("fetchSockets", "ok", [A]);
    a.tell("answer", A, a.commands.at(-1)[1].ask, 1);
    b.missed();
    same([await answers, b.commands], [[1], []]);
  },

  async "rooms as each server has them"(scene) {
    scene.joined();
    const join = scene.io.socketsJoin("r");
    scene.nodes.a.answer("socketsJoin", "ok");
    scene.nodes.b.answer("socketsJoin", "error", "too many rooms");
    const error = await rejected(join, "too many rooms");
    same(error.node, "http://b");
    same([A, B].map((id) => [...scene.io.sockets.sockets.get(id).rooms]), [[A, "r"], [B]]);
  },

  async "a fault is told once"(scene) {
    scene.joined();
    scene.io.to(LONG).emit("x");
    scene.io.in(LONG).socketsJoin("x");
    await pause(10);
    same(scene.take(), [["command_error", "bad room"], ["command_error", "bad room"]]);
    await rejected(scene.io.in(LONG).timeout(10).emitWithAck("x"), "bad room");
    same(scene.sent(), [[], []]);
  },

  async "one refuses"(scene) {
    const { a, b } = scene.nodes;
    const heard = next(scene.io, "error");
    a.joined([A]);
    b.active = false;
    b.emit("connect_error", new Error("Not allowed"));
    const [error] = await heard;
    same([error.message, error.node], ["the server at http://b refused this backend: Not allowed", "http://b"]);
    same([await isReady(scene.io), scene.take()], [true, [came(A)]]);
    scene.io.emit("x");
    same([scene.take(), scene.sent()], [[], [["fetchSockets", "emit x"], []]]);
  },

  async "one refuses, and nobody listens"(scene) {
    const { a, b } = scene.nodes;
    const [printed, log] = [[], console.error];
    console.error = (text) => printed.push(text);
    b.active = a.active = false;
    b.emit("connect_error", new Error("Not allowed"));
    console.error = log;
    same(printed, ["daghzimo-backend: the server at http://b refused this backend: Not allowed"]);
    same(await isReady(scene.io), false);
    a.emit("connect_error", new Error("Not allowed"));
    await rejected(scene.io.ready, "the server at http://a refused this backend: Not allowed");
    await rejected(scene.io.fetchSockets(), "the server at http://a refused this backend: Not allowed");
  },

  async "one has another namespace too"(scene) {
    scene.joined();
    scene.io.of("/x");
    scene.nodes.a.answer("fetchSockets", "ok", []);
    scene.nodes.b.answer("fetchSockets", "error", "unknown namespace");
    same(scene.take(), [["command_error", "unknown namespace: /x"]]);
  },

  async "the list of nodes"() {
    const one = new Scene({}, ["http://a", "http://a/"]);
    one.nodes.a.joined([A]);
    same([one.take(), await isReady(one.io), one.nodes.a.opened[1].timeout], [[came(A)], true, undefined]);
    assert.throws(() => connect([], { token: "t" }), /list of URLs/);
    assert.throws(() => connect(undefined, { token: "t" }), /URL of a server/);
  },

  async close(scene) {
    scene.joined();
    const open = rejected(scene.io.emitWithAck("q"), LOST);
    for (const [node, id] of [[scene.nodes.a, A], [scene.nodes.b, B]]) {
      node.answer("fetchSockets", "ok", [id]);
      node.answer("emit", "ok");
    }
    const closed = scene.io.close();
    for (const node of Object.values(scene.nodes)) node.answer("fetchSockets", "ok", []);
    await Promise.all([closed, open]);
    same(scene.take(), [...gone(A, "server shutting down"), ...gone(B, "server shutting down")]);
  },
};

const failed = await play("nodes", CHECKS, () => new Scene(), word);
console.log(failed ? `${failed} failed` : "all is well");
process.exit(failed ? 1 : 0);
