#!/usr/bin/env node
// The small server of relay_server.js in node's cluster, as Socket.IO documents it.   node_cluster.js PORT [WORKERS]
// The primary reads the first request of each connection, as @socket.io/sticky does. It hands both to the worker that has
// the session, by the first digit of its sid, and new sessions to all workers in turn. A broadcast goes to the other
// workers by the primary, as with @socket.io/cluster-adapter, with all others of that turn of the event loop.
'use strict';
const cluster = require('cluster');
const net = require('net');
const { serialize, deserialize } = require('v8');
const { createServer, deliver } = require('./relay_server');

const LONGEST_REQUEST = 1100000;

function lead(port, count) {
  cluster.setupPrimary({ serialization: 'advanced' });
  const workers = Array.from({ length: count }, () => cluster.fork());
  let waiting = count;
  for (const worker of workers) {
    worker.on('message', (message) => {
      if (message.casts) for (const other of workers) if (other !== worker) other.send(message);
      if (message.ready && !--waiting) listen(port, workers);
    });
  }
  cluster.on('exit', (worker, code, signal) => {
    console.error(`worker ${worker.id} has ended: ${signal || code}`);
    process.exit(1);
  });
}

function listen(port, workers) {
  let next = 0;
  const server = net.createServer((socket) => {
    firstRequest(socket, (request) => {
      const sid = /^\S+ [^\s?]*\?(?:\S*&)?sid=([0-9a-f])/.exec(request.toString('latin1', 0, 1000));
      const worker = sid && workers[parseInt(sid[1], 16)];
      (worker || workers[next++ % workers.length]).send({ request }, socket);
    });
  });
  server.listen(port, '127.0.0.1', 1024, () => console.log('listening 127.0.0.1:' + port));
}

// The whole of the first request, since a client sends nothing more before its answer: so nothing is left here.
function firstRequest(socket, done) {
  let request = Buffer.alloc(0);
  socket.on('error', () => {});                     // 'close' comes after it
  socket.on('data', function more(piece) {
    request = request.length ? Buffer.concat([request, piece]) : piece;
    if (request.length > LONGEST_REQUEST) return socket.destroy();
    const end = request.indexOf('\r\n\r\n');
    if (end < 0) return;
    const length = /\r\ncontent-length: *(\d+)/i.exec(request.toString('latin1', 0, end));
    if (request.length < end + 4 + Number(length ? length[1] : 0)) return;
    socket.off('data', more).pause();
    socket._handle.readStop();                      // or what comes after the worker's answer might be read here
    done(request);
  });
}

function work() {
  const casts = [];
  const server = createServer({
    digit: (cluster.worker.id - 1).toString(16),
    publish(cast) {
      if (casts.push(cast) > 1) return;
      setImmediate(() => process.send({ casts: serialize(casts.splice(0)) }));
    },
  });
  server.maxRequestsPerSocket = 1;                  // the next one may be of another worker's session
  process.on('message', ({ request, casts }, socket) => {
    if (casts) for (const cast of deserialize(casts)) deliver(cast);
    if (!socket) return;                            // it ended on its way
    socket.unshift(request);
    server.emit('connection', socket);
  });
  process.send({ ready: true });
}

const [port, count] = [process.argv[2], process.argv[3] ?? 4].map(Number);
if (!(count >= 1 && count <= 16)) {
  console.error('usage: node_cluster.js PORT [WORKERS]      1 to 16 workers, 4 where it lacks');
  process.exit(2);
}
if (cluster.isPrimary) lead(port, count);
else work();
