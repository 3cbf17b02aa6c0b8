// The demonstration app's `join` and `say` as an app of the JavaScript library, to be measured beside it.
//   relay_backend.js URL,URL.. TOKEN_FILE CLIENT_BUILD      ends by SIGTERM, and tells then how busy it was
import { randomFillSync } from "node:crypto";
import { readFileSync } from "node:fs";
import { createRequire } from "node:module";
import { connect } from "../../backends/javascript/index.js";

const require = createRequire(import.meta.url);
const WebSocket = require("ws");
// Debian's `ws` asks the system for each mask. Its later versions draw many at once, as here.
const masks = Buffer.alloc(8192);
let drawn = masks.length;
function generateMask(mask) {
  if (drawn === masks.length) drawn = randomFillSync(masks) && 0;
  for (let at = 0; at < 4; at += 1) mask[at] = masks[drawn++];
}
globalThis.WebSocket = class extends WebSocket {
  constructor(url, protocols) { super(url, protocols, { generateMask }); }
};
const [urls, tokenFile, build] = process.argv.slice(2);
const client = require(build);
const io = connect(urls.split(","), { token: readFileSync(tokenFile, "utf8").trim(), client });
let heard = 0;

io.on("connection", (socket) => {
  socket.on("join", (room, done) => {
    socket.join(room);
    done?.();
  });
  socket.on("say", (room, ...message) => {
    heard += 1;
    const done = typeof message.at(-1) === "function" ? message.pop() : null;
    socket.to(room).emit("say", room, ...message);
    done?.();
  });
});

process.on("SIGTERM", () => {
  const { user, system } = process.cpuUsage();
  console.error(JSON.stringify({ heard, backend_cpu_s: (user + system) / 1e6 }));
  process.exit(0);
});
