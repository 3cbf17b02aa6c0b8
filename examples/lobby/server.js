// A group chat. Usage: node examples/lobby/server.js http://127.0.0.1:3000 TOKEN_FILE
import { connect } from "../../backends/javascript/index.js";
import { client, token, url } from "../shared/arguments.js";

const io = connect(url, { token, client });
const people = new Map(); // the names of those who are here, by the ids of their sockets

io.on("connection", (socket) => {
  socket.emit("hello");

  socket.on("join", async (name, joined) => {
    if (typeof name !== "string" || typeof joined !== "function") return;
    socket.data.name = name.trim().slice(0, 32) || "Somebody";
    await socket.join("lobby");
    if (!people.has(socket.id)) socket.to("lobby").emit("joined", socket.data.name);
    people.set(socket.id, socket.data.name);
    io.to("lobby").emit("here", [...people]);
    joined();
  });

  socket.on("message", (text, sent) => {
    if (!people.has(socket.id) || typeof text !== "string" || typeof sent !== "function") return;
    socket.to("lobby").emit("message", socket.id, socket.data.name, text.slice(0, 2000));
    sent();
  });

  // Nobody misses a notice that is late, so it is dropped where it can't be sent at once.
  socket.on("typing", (isTyping) => {
    if (people.has(socket.id)) socket.volatile.to("lobby").emit("typing", socket.id, socket.data.name, isTyping === true);
  });

  socket.on("disconnect", () => {
    if (!people.delete(socket.id)) return;
    socket.to("lobby").emit("left", socket.data.name);
    io.to("lobby").emit("here", [...people]);
  });
});
