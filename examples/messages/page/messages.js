// Private messages: who is there, a conversation with each, and whether what one wrote was delivered.

import { connect, inTime, make, mark, part, timeNow } from "./page.js";

const talks = new Map(); // by the other's name: the lines, and how many of them are unread
let people = [];
let chosen = null;
let socket = null;
let isGreeted = false;
let fault = null; // why the app refuses a name

const talkWith = (name) => talks.get(name) ?? talks.set(name, { lines: [], unread: 0 }).get(name);

function person([name, isOnline]) {
  const { unread } = talkWith(name);
  const button = make("button", isOnline ? "online" : "");
  button.type = "button";
  button.dataset.name = name;
  button.setAttribute("aria-current", name === chosen);
  button.append(mark(name), make("span", "name", name), make("span", "is", isOnline ? "online" : "away"));
  if (unread > 0) {
    const count = make("span", "unread", unread);
    count.setAttribute("aria-label", `${unread} unread`);
    button.append(count);
  }
  button.onclick = () => choose(name);
  const item = make("li");
  item.append(button);
  return item;
}

function showPeople() {
  const focused = document.activeElement?.dataset.name;
  part("people").replaceChildren(...people.map(person));
  if (focused) [...document.querySelectorAll("#people button")].find((it) => it.dataset.name === focused)?.focus();
}

function choose(name) {
  chosen = name;
  document.querySelector("section").hidden = name === null;
  part("unchosen").hidden = name !== null;
  if (name !== null) {
    const talk = talkWith(name);
    talk.unread = 0;
    part("other").textContent = name;
    const empty = make("p", "empty", `You and ${name} have not written to each other yet.`);
    part("messages").replaceChildren(empty, ...talk.lines);
    part("messages").scrollTop = part("messages").scrollHeight;
    part("text").focus();
  }
  showPeople();
}

function add(name, kind, text, state) {
  const line = make("article", kind);
  line.append(make("span", "", text), make("small", "", state));
  talkWith(name).lines.push(line);
  if (name === chosen) {
    part("messages").append(line);
    part("messages").scrollTop = part("messages").scrollHeight;
  }
  return line;
}

const heard = {
  hello() { isGreeted = true; },
  refused({ message }) { fault = message; },
  users(list) {
    const own = part("name").value.trim();
    people = list.filter(([name]) => name !== own);
    part("own").textContent = `You are ${own}`;
    showPeople();
    if (!part("desk").hidden) return;
    part("enter").hidden = true;
    part("desk").hidden = false;
    choose(null);
  },
  message(name, text, delivered) {
    add(name, "said", text, timeNow());
    if (name !== chosen) talkWith(name).unread += 1;
    showPeople();
    delivered();
  },
};

const told = {
  refused(reason) {
    // An app that was started anew doesn't know who this is, so it is told again.
    if (isGreeted) return signIn();
    socket = null;
    part("desk").hidden = true;
    part("enter").hidden = false;
    part("fault").textContent = fault ?? reason;
  },
};

function signIn() {
  isGreeted = false;
  fault = null;
  socket = connect(heard, told, { name: part("name").value });
}

part("enter").onsubmit = (event) => {
  event.preventDefault();
  part("fault").textContent = "";
  if (socket === null) signIn();
};

part("back").onclick = () => choose(null);

part("write").onsubmit = async (event) => {
  event.preventDefault();
  const text = part("text").value.trim();
  if (!text) return;
  part("text").value = "";
  const line = add(chosen, "said own", text, "sending …");
  const isDelivered = await inTime(socket.emit("private message", chosen, text));
  line.querySelector("small").textContent = isDelivered?.[0] ? `${timeNow()} ✓ delivered` : "not delivered";
  line.classList.toggle("fault", !isDelivered?.[0]);
};
