// A group chat: names, who is here, and who is typing.

import { connect, inTime, make, mark, part, timeNow } from "./page.js";

const TYPING_ENDS = 3000;

let socket = null;
let isIn = null; // a promise that is kept once the app has let one in
let letIn = null;
let missing = false;
let isTyping = false;
let typingEnds = null;
const typing = new Map();

function show(element) {
  const messages = part("messages");
  const isAtEnd = messages.scrollHeight - messages.scrollTop - messages.clientHeight < 80;
  messages.append(element);
  if (isAtEnd || element.classList.contains("own")) messages.scrollTop = messages.scrollHeight;
  return element;
}

function note(text) {
  show(make("p", "note", text));
}

function showMessage(kind, name, text) {
  const line = make("article", kind);
  if (name) line.append(make("b", "", name));
  line.append(make("span", "", text), make("small", "", timeNow()));
  return show(line);
}

function showTyping() {
  const names = [...typing.values()];
  const who = names.length > 2 ? "Several people" : names.join(" and ");
  part("typing").textContent = names.length === 0 ? "" : `${who} ${names.length === 1 ? "is" : "are"} typing …`;
}

const heard = {
  // The app greets whom it doesn't know: at each connection, and after it was started anew.
  hello: () => join(),
  here(people) {
    part("count").textContent = people.length === 1 ? "Only you are here" : `${people.length} are here`;
    part("people").replaceChildren(...people.map(([id, name]) => {
      const item = make("li");
      item.append(mark(name), make("span", "name", name));
      if (id === socket.id) item.append(make("span", "you", "(you)"));
      return item;
    }));
    const ids = new Set(people.map(([id]) => id));
    for (const id of typing.keys()) if (!ids.has(id)) typing.delete(id);
    showTyping();
  },
  joined: (name) => note(`${name} has come`),
  left: (name) => note(`${name} has left`),
  message(id, name, text) {
    typing.delete(id);
    showTyping();
    showMessage(missing ? "said missed" : "said", name, text);
  },
  typing(id, name, isTyping) {
    if (isTyping) typing.set(id, name);
    else typing.delete(id);
    showTyping();
  },
};

const told = {
  // What a session missed comes before the answer to `join`.
  connected(again) {
    missing = again;
    typing.clear();
  },
  lost: waitToBeIn,
};

function waitToBeIn() {
  isIn = new Promise((kept) => { letIn = kept; });
}

async function join() {
  await socket.emit("join", part("name").value);
  letIn();
  missing = false;
  if (!part("lobby").hidden) return;
  part("enter").hidden = true;
  part("lobby").hidden = false;
  part("text").focus();
}

part("enter").onsubmit = (event) => {
  event.preventDefault();
  if (socket !== null) return;
  waitToBeIn();
  socket = connect(heard, told);
};

// Tells the others once that one types, and once that one has stopped.
function type(is) {
  clearTimeout(typingEnds);
  if (is) typingEnds = setTimeout(() => type(false), TYPING_ENDS);
  if (is === isTyping) return;
  isTyping = is;
  socket.emitVolatile("typing", is);
}

part("text").oninput = () => type(part("text").value !== "");

part("write").onsubmit = async (event) => {
  event.preventDefault();
  const text = part("text").value.trim();
  if (!text) return;
  part("text").value = "";
  type(false);
  const line = showMessage("said own", "", text);
  await isIn;
  const isSent = await inTime(socket.emit("message", text));
  line.querySelector("small").textContent += isSent ? " ✓" : " not sent";
};
