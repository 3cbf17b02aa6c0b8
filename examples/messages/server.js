// Private messages. Usage: node examples/messages/server.js http://127.0.0.1:3000 TOKEN_FILE
import { connect } from "../../backends/javascript/index.js";
import { client, token, url } from "../shared/arguments.js";

const io = connect(url, { token, client });
const known = new Set(); // the names of all who were ever here

// A name is all that is asked for. An app that has to know who somebody is asks for more.
io.use((socket, next) => {
  const { name } = socket.handshake.auth;
  socket.data.name = typeof name === "string" ? [...name.trim()].slice(0, 16).join("") : "";
  next(socket.data.name ? undefined : new Error("a name is needed"));
});

// All windows of a person are in the room of this name.
const isOnline = async (name) => (await io.in(name).fetchSockets()).length > 0;

async function tellUsers() {
  io.emit("users", await Promise.all([...known].sort().map(async (name) => [name, await isOnline(name)])));
}

io.on("connection", async (socket) => {
  const { name } = socket.data;
  known.add(name);

  socket.on("private message", async (to, text, done) => {
    if (typeof text !== "string" || typeof done !== "function") return;
    try {
      const answers = known.has(to) ? await io.to(to).timeout(4000).emitWithAck("message", name, text.slice(0, 2000)) : [];
      done(answers.length > 0);
    } catch {
      done(false);
    }
  });

  socket.on("disconnect", tellUsers);

  await socket.join(name);
  socket.emit("hello");
  await tellUsers();
});
