// A backend for scripts/try_backends: it prints what it is told, a line of JSON each, tells what clients say to all, and calls
// what a line of its input says.
//   backend.mjs URLS TOKEN DIGITS CLIENT      URLS: with commas between; CLIENT: a file of the official client
import { createRequire } from 'node:module';
import { resolve } from 'node:path';
import { createInterface } from 'node:readline';
import { connect } from '../../backends/javascript/index.js';

const [urls, token, digits, build] = process.argv.slice(2);
const require = createRequire(import.meta.url);
globalThis.WebSocket ??= require('/usr/share/nodejs/ws');
const io = connect(urls.includes(',') ? urls.split(',') : urls, { token, digits, client: require(resolve(build)).io });
const print = (...values) => console.log(JSON.stringify(values));

io.on('connection', (socket) => {
  print('connection', socket.id);
  socket.onAny((name, ...values) => {
    if (typeof values.at(-1) === 'function') values.pop()(...values);
    print('event', socket.id, name, ...values);
    if (name === 'say') io.emit('said', socket.id, ...values);
  });
  socket.on('disconnect', () => print('disconnection', socket.id));
});
io.on('command_error', (error) => print('error', error.message));
io.on('error', (error) => print('log', '', error.message));
process.removeAllListeners('warning').on('warning', (warning) => print('log', '', warning.message));

// Each step is a name with arguments, of what the step before gave; `socket` finds one by its id.
async function call(number, ...steps) {
  try {
    let value = io;
    for (const [name, ...args] of steps) {
      if (name === 'socket') value = io.sockets.sockets.get(...args);
      else value = typeof value[name] === 'function' ? value[name](...args) : value[name];
    }
    value = await value;
    if (Array.isArray(value)) value = value.map((one) => one.id ?? one);
    print('done', number, null, typeof value === 'object' && !Array.isArray(value) ? null : value);
  } catch (error) {
    print('done', number, error.message, error.responses);
  }
}

createInterface({ input: process.stdin }).on('line', (line) => call(...JSON.parse(line)));
await io.ready;
print('ready', '');
