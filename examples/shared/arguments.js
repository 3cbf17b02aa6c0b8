// What the examples in JavaScript are started with: node server.js URL TOKEN_FILE [CLIENT]
// CLIENT is a file with a build of socket.io-client, where the package isn't installed.
import { readFileSync } from "node:fs";
import { createRequire } from "node:module";
import { resolve } from "node:path";

const [address, tokenFile, build] = process.argv.slice(2);
const require = createRequire(import.meta.url);

// A build for browsers needs a WebSocket, which node has from version 22 on.
if (build) globalThis.WebSocket ??= require("ws");

export const url = address;
export const token = readFileSync(tokenFile, "utf8").trim();
export const client = build && require(resolve(build)).io;
