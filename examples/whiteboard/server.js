// Lines that are drawn together. Usage: node examples/whiteboard/server.js http://127.0.0.1:3000 TOKEN_FILE
import { connect } from "../../backends/javascript/index.js";
import { client, token, url } from "../shared/arguments.js";

const io = connect(url, { token, client });
const MOST_LINES = 5000;
const boards = new Map(); // the lines of each board, by its name, for those who come later

// A line is [colour, width, x, y, x, y ..]. All of a board fit in one packet.
const isLine = (line) => Array.isArray(line) && line.length <= 32 && line.every((it) => Number.isInteger(it) && it >= 0 && it < 10000);

io.on("connection", (socket) => {
  let board = null;
  const tellHowMany = async () => io.to(board).emit("here", (await io.in(board).fetchSockets()).length);

  socket.emit("hello");

  socket.on("join", async (name, joined) => {
    if (board !== null || typeof name !== "string" || typeof joined !== "function") return;
    board = [...name].slice(0, 16).join("");
    if (!boards.has(board)) boards.set(board, []);
    await socket.join(board);
    joined(boards.get(board));
    await tellHowMany();
  });

  // Lines come fast. Who is too slow for them, or away, has all of them again when it joins.
  socket.on("line", (line) => {
    if (board === null || !isLine(line)) return;
    boards.get(board).push(line);
    if (boards.get(board).length > MOST_LINES) boards.get(board).shift();
    socket.volatile.to(board).emit("line", line);
  });

  socket.on("clear", () => {
    if (board === null) return;
    boards.set(board, []);
    io.to(board).emit("clear");
  });

  socket.on("disconnect", () => board !== null && tellHowMany());
});
