// What the example pages share: their parts, the state of the connection, and people's marks.

import { Socket } from "./socket.js";

const PATIENCE = 5000;

export const part = (id) => document.getElementById(id);

// An element with a class and a text. Names and messages stay text, whatever they hold.
export function make(kind, name = "", text = "") {
  const element = document.createElement(kind);
  if (name) element.className = name;
  element.textContent = text;
  return element;
}

// A round mark with a name's first letter. The same name has the same colour on all pages.
export function mark(name) {
  const element = make("span", "mark", [...name.trim()][0]?.toUpperCase() ?? "?");
  const sum = [...name].reduce((sum, letter) => (sum * 31 + letter.codePointAt(0)) % 360, 7);
  element.style.setProperty("--hue", sum);
  element.setAttribute("aria-hidden", "true");
  return element;
}

export function timeNow() {
  return new Date().toLocaleTimeString([], { hour: "2-digit", minute: "2-digit" });
}

// Shows the state of the connection: "open", "waiting" or "lost".
export function tell(state, text) {
  part("state").dataset.state = state;
  part("state").textContent = text;
}

// The promise's value, or undefined where it takes too long: nobody acknowledges an event where no app is.
export function inTime(promise) {
  return Promise.race([promise, new Promise((kept) => setTimeout(kept, PATIENCE))]);
}

// A socket that shows its state. `heard` has a function for each event, which gets its values and then what answers it.
// `told` has `connected(again)`, `lost()` and `refused(reason)`, where the page wants to know.
//
// A connection is open once the app has greeted it by an event `hello`: the server may be there without an app.
export function connect(heard, told, auth) {
  const server = new URLSearchParams(location.search).get("server") ?? location.origin;
  let state = "connected";
  let isGreeted = false;
  tell("waiting", "connecting …");
  return new Socket(server + "/socket.io/", {
    connected(again) {
      if (state !== "connected") state = again ? "back again" : "back, in a new session";
      // python-socketio's own server sends what an app says in `connect` before it lets the client in.
      if (isGreeted) tell("open", state);
      else tell("waiting", "waiting for the app …");
      told.connected?.(again);
    },
    lost() {
      state = "lost";
      isGreeted = false;
      tell("lost", "connection lost, trying again …");
      told.lost?.();
    },
    refused(reason) {
      tell("lost", reason);
      told.refused?.(reason);
    },
    event([name, ...values], answer) {
      if (name === "hello") {
        isGreeted = true;
        tell("open", state);
      }
      if (Object.hasOwn(heard, name)) heard[name](...values, answer);
    },
  }, auth);
}
