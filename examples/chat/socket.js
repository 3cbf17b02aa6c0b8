// A client of Socket.IO, revision 5, over Engine.IO, revision 4: by WebSocket, and by long polling where
// no WebSocket opens. It speaks to the namespace "/", and comes back after a break with what it missed.

const SEPARATOR = "\x1e";
const LONGEST_WAIT = 5000;

// Binary data for a payload over HTTP.
function base64(bytes) {
  let text = "";
  for (const byte of new Uint8Array(bytes)) text += String.fromCharCode(byte);
  return btoa(text);
}

function fromBase64(text) {
  return Uint8Array.from(atob(text), (letter) => letter.charCodeAt(0)).buffer;
}

// An Engine.IO connection over a WebSocket. `heard` gets texts and array buffers.
class Frames {
  constructor(url, heard, ended) {
    this.opened = false;
    this.socket = new WebSocket(url.replace(/^http/, "ws") + "?EIO=4&transport=websocket");
    this.socket.binaryType = "arraybuffer";
    this.socket.onmessage = (event) => {
      this.opened = true;
      heard(event.data);
    };
    this.socket.onclose = () => ended(this.opened);
  }

  send(packets) {
    for (const packet of packets) this.socket.send(packet);
  }

  close() {
    this.socket.close();
  }
}

// An Engine.IO connection over HTTP: one GET waits, and one POST is on its way at a time.
class Polling {
  constructor(url, heard, ended) {
    this.url = url + "?EIO=4&transport=polling";
    this.heard = heard;
    this.ended = ended;
    this.stop = new AbortController();
    this.waiting = [];
    this.posting = false;
    this.poll();
  }

  async poll() {
    try {
      while (!this.stop.signal.aborted) {
        const answer = await fetch(this.url, { signal: this.stop.signal, cache: "no-store" });
        if (!answer.ok) break;
        for (const packet of (await answer.text()).split(SEPARATOR)) this.take(packet);
      }
    } catch {
      // The connection broke, or was closed.
    }
    this.close();
  }

  take(packet) {
    if (packet[0] === "0") this.url += "&sid=" + JSON.parse(packet.slice(1)).sid;
    this.heard(packet[0] === "b" ? fromBase64(packet.slice(1)) : packet);
  }

  async send(packets) {
    this.waiting.push(...packets);
    if (this.posting) return;
    this.posting = true;
    try {
      while (this.waiting.length > 0 && !this.stop.signal.aborted) {
        const body = this.waiting
          .splice(0, 16)
          .map((packet) => (typeof packet === "string" ? packet : "b" + base64(packet)))
          .join(SEPARATOR);
        const answer = await fetch(this.url, { method: "POST", body, signal: this.stop.signal });
        if (!answer.ok) this.close();
      }
    } catch {
      this.close();
    }
    this.posting = false;
  }

  close() {
    if (this.stop.signal.aborted) return;
    this.stop.abort();
    this.ended(true);
  }
}

// Takes array buffers out of a value, and leaves placeholders.
function takeOut(value, buffers) {
  if (value instanceof ArrayBuffer) return { _placeholder: true, num: buffers.push(value) - 1 };
  if (Array.isArray(value)) return value.map((part) => takeOut(part, buffers));
  if (value === null || typeof value !== "object") return value;
  return Object.fromEntries(Object.entries(value).map(([name, part]) => [name, takeOut(part, buffers)]));
}

// Puts them back.
function putBack(value, buffers) {
  if (value === null || typeof value !== "object") return value;
  if (value._placeholder === true) return buffers[value.num];
  if (Array.isArray(value)) return value.map((part) => putBack(part, buffers));
  return Object.fromEntries(Object.entries(value).map(([name, part]) => [name, putBack(part, buffers)]));
}

// An event (kind 2) or an acknowledgement (3) as packets; with binary data it is of kind 5 or 6.
function packetsOf(kind, id, values) {
  const buffers = [];
  const payload = JSON.stringify(takeOut(values, buffers));
  const head = buffers.length > 0 ? `4${Number(kind) + 3}${buffers.length}-` : "4" + kind;
  return [head + id + payload, ...buffers];
}

export class Socket {
  // `told` has `connected(again)`, `lost()` and `event(values, answer)`, where `answer` sends the acknowledgement, if
  // one is asked for; and `refused(reason)`, where the page wants to know. `auth` is what the server gets of the client.
  constructor(url, told, auth = {}) {
    this.url = url;
    this.told = told;
    this.auth = auth;
    this.id = null;
    this.pid = null;
    this.offset = null;
    this.questions = new Map();
    this.nextId = 0;
    this.unsent = [];
    this.isOpen = false;
    this.byPolling = false;
    this.hasOpened = false;
    this.pause = 250;
    this.connect();
  }

  connect() {
    this.awaited = null;
    const heard = (data) => line === this.line && this.heard(data);
    const ended = (opened) => line === this.line && this.lost(opened);
    const line = new (this.byPolling ? Polling : Frames)(this.url, heard, ended);
    this.line = line;
  }

  // The connection is gone, and another one is tried; by polling, where no WebSocket ever opened.
  lost(opened) {
    clearTimeout(this.alarm);
    this.line = null;
    this.hasOpened ||= opened;
    if (!this.hasOpened) this.byPolling = true;
    if (this.isOpen) this.told.lost();
    this.isOpen = false;
    setTimeout(() => this.connect(), this.pause);
    this.pause = Math.min(2 * this.pause, LONGEST_WAIT);
  }

  // Where no ping comes in time, the connection is gone though nobody says so.
  watch() {
    clearTimeout(this.alarm);
    this.alarm = setTimeout(() => this.cut(), this.patience);
  }

  // Ends the connection as a break of the network would.
  cut() {
    const line = this.line;
    if (!line) return;
    this.lost(true);
    line.close();
  }

  heard(data) {
    if (typeof data !== "string") return this.attached(data);
    const text = data.slice(1);
    switch (data[0]) {
      case "0": {
        const { pingInterval, pingTimeout } = JSON.parse(text);
        this.patience = pingInterval + pingTimeout;
        this.watch();
        const session = this.pid && this.offset ? { pid: this.pid, offset: this.offset } : {};
        return this.line.send(["40" + JSON.stringify({ ...this.auth, ...session })]);
      }
      case "1":
        return this.cut();
      case "2":
        this.watch();
        return this.line.send(["3"]);
      case "4":
        return this.packet(text);
    }
  }

  packet(text) {
    const [, kind, count, id, payload] = /^([0-6])(?:(\d+)-)?(\d*)(.*)$/s.exec(text);
    if (kind === "0") return this.connected(JSON.parse(payload));
    if (kind === "1") return this.refused("the server has ended the session");
    if (kind === "4") return this.refused(JSON.parse(payload).message);
    const packet = { kind, id, values: payload ? JSON.parse(payload) : null, buffers: [], count: Number(count ?? 0) };
    if (packet.count > 0) this.awaited = packet;
    else this.whole(packet);
  }

  attached(buffer) {
    const packet = this.awaited;
    if (!packet || packet.buffers.push(buffer) < packet.count) return;
    this.awaited = null;
    packet.values = putBack(packet.values, packet.buffers);
    this.whole(packet);
  }

  whole({ kind, id, values }) {
    if (kind === "3" || kind === "6") {
      this.questions.get(id)?.(values);
      this.questions.delete(id);
    } else if (kind === "2" || kind === "5") {
      // A logged event ends in its offset, by which the server knows what came.
      const last = values[values.length - 1];
      if (typeof last === "string" && /^[0-9a-f]{16}$/.test(last)) this.offset = values.pop();
      this.told.event(values, id ? this.answerTo(id) : undefined);
    }
  }

  // The acknowledgement of an event. After another session has begun nobody waits for it.
  answerTo(id) {
    const session = this.id;
    return (...values) => {
      if (this.isOpen && this.id === session) this.line.send(packetsOf("3", id, values));
    };
  }

  connected({ sid, pid }) {
    const again = pid !== undefined && this.pid === pid;
    this.id = sid;
    this.pid = pid;
    if (!again) this.offset = null;
    this.isOpen = true;
    this.pause = 250;
    this.told.connected(again);
    for (const packets of this.unsent.splice(0)) this.line.send(packets);
  }

  // The server doesn't let this client in, or sends it away. It isn't asked again: a page makes another socket.
  refused(reason) {
    clearTimeout(this.alarm);
    const line = this.line;
    this.line = null;
    this.isOpen = false;
    line.close();
    this.told.refused?.(reason);
  }

  // Sends an event. The promise is kept when the server acknowledges it.
  emit(...values) {
    const id = String(this.nextId++);
    const packets = packetsOf("2", id, values);
    if (this.isOpen) this.line.send(packets);
    else this.unsent.push(packets);
    return new Promise((kept) => this.questions.set(id, kept));
  }

  // Sends an event that nobody acknowledges. Where there is no connection it is dropped.
  emitVolatile(...values) {
    if (this.isOpen) this.line.send(packetsOf("2", "", values));
  }
}
