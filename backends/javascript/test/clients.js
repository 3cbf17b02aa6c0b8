// Loads a build of the official client. A browser's build runs in Node by what a browser has and Node hasn't.
import http from "node:http";
import Module, { createRequire } from "node:module";
import { resolve } from "node:path";

// Debian's packages (node-ws) are found by NODE_PATH.
process.env.NODE_PATH ??= "/usr/share/nodejs";
Module._initPaths();
const require = createRequire(import.meta.url);

class Request {
  withCredentials = false;
  responseType = "";
  readyState = 0;
  #headers = {};

  open(method, url) {
    Object.assign(this, { method, url });
  }

  setRequestHeader(name, value) {
    this.#headers[name] = value;
  }

  send(body) {
    const headers = { ...this.#headers };
    if (typeof body === "string") headers["Content-Length"] = Buffer.byteLength(body);
    this.sent = http.request(this.url, { method: this.method, headers, agent: false }, (answer) => {
      const parts = [];
      answer.on("data", (part) => parts.push(part));
      answer.on("end", () => this.#end(answer.statusCode, Buffer.concat(parts).toString()));
      answer.on("error", () => this.#end(0, ""));
    });
    this.sent.on("error", () => this.#end(0, ""));
    this.sent.end(body ?? "");
  }

  abort() {
    this.onreadystatechange = () => {};
    this.sent?.destroy();
  }

  #end(status, text) {
    Object.assign(this, { readyState: 4, status, responseText: text });
    this.onreadystatechange();
  }
}

class Reader {
  async readAsDataURL(blob) {
    this.result = `data:;base64,${Buffer.from(await blob.arrayBuffer()).toString("base64")}`;
    this.onload();
  }
}

// `build` is a file, or the name of an installed package.
export async function loadClient(build) {
  if (!/[\\/]/.test(build)) return (await import(build)).io;
  globalThis.WebSocket = require("ws");
  globalThis.XMLHttpRequest = Request;
  globalThis.FileReader = Reader;
  const client = require(resolve(build));
  return client.io ?? client;
}

export const RawSocket = () => require("ws");
