// A chat: a room is what the demonstration app calls one, and a message is an event `say` to it.

import { Socket } from "./socket.js";

const part = (id) => document.getElementById(id);
const LARGEST_PICTURE = 700_000;

let socket = null;
let joined = null;
let wasLost = false;
let returning = false;

// Adds a line. Names and texts stay text, whatever they hold.
function show(name, text, kind, picture) {
  const line = document.createElement("article");
  if (kind) line.className = kind;
  if (name) {
    const by = document.createElement("b");
    by.textContent = name + ": ";
    line.append(by);
  }
  const said = document.createElement("span");
  said.textContent = text;
  line.append(said);
  if (picture instanceof ArrayBuffer) {
    const image = document.createElement("img");
    image.src = URL.createObjectURL(new Blob([picture]));
    image.alt = "a picture by " + name;
    line.append(image);
  }
  const messages = part("messages");
  messages.append(line);
  messages.scrollTop = messages.scrollHeight;
  return line;
}

function tell(state) {
  part("state").textContent = state;
}

const told = {
  connected(again) {
    tell(again ? "back again, with what was missed" : "connected");
    if (!again && wasLost) show("", "a new session: what was said meanwhile isn't known", "note");
    if (!wasLost) return;
    // A session that comes back is in its room still, and what was missed comes before this answer.
    returning = again;
    socket.emit("join", joined).then(() => { returning = false; });
  },
  lost() {
    wasLost = true;
    tell("connection lost, trying again");
  },
  event([name, subject, message]) {
    // A server with `--tell-left` says who has left.
    if (name === "left") show("", subject + " has left", "note");
    if (name !== "say" || subject !== joined || typeof message !== "object" || message === null) return;
    const by = String(message.name);
    show(by, String(message.text ?? ""), returning ? "missed" : "", message.picture);
  },
};

function url() {
  const server = new URLSearchParams(location.search).get("server") ?? location.origin;
  return server + "/socket.io/";
}

part("enter").onsubmit = async (event) => {
  event.preventDefault();
  const room = part("room").value;
  if (room === joined) return;
  socket ??= new Socket(url(), told);
  if (joined) socket.emit("leave", joined);
  joined = room;
  await socket.emit("join", room);
  show("", "you are in " + room, "note");
  for (const id of ["text", "send", "picture", "cut"]) part(id).disabled = false;
  part("text").focus();
};

async function say(message, text) {
  const line = show(message.name, text, "own", message.picture);
  await socket.emit("say", joined, message);
  const mark = document.createElement("small");
  mark.textContent = " \u2713";
  line.querySelector("span").append(mark);
}

part("write").onsubmit = (event) => {
  event.preventDefault();
  const text = part("text").value;
  if (!text) return;
  part("text").value = "";
  say({ name: part("name").value, text }, text);
};

part("picture").onchange = async (event) => {
  const [file] = event.target.files;
  event.target.value = "";
  if (!file) return;
  if (file.size > LARGEST_PICTURE) return show("", "a picture may have at most 700 KB", "note");
  say({ name: part("name").value, text: "", picture: await file.arrayBuffer() }, "");
};

part("cut").onclick = () => socket.cut();
