// Small things that several modules need.
import { EventEmitter } from "node:events";
import { types } from "node:util";

const RESERVED = new Set(["connect", "connect_error", "disconnect", "disconnecting", "newListener", "removeListener"]);
const LONGEST_ROOM = 64; // bytes of UTF-8
const MOST_ATTACHMENTS = 32;

export const LOST = "the connection to the server was lost";

export function commandError(name, why) {
  return Object.assign(new Error(why), { command: name });
}

export const list = (value) => (Array.isArray(value) ? value : [value]);

// An exception of the program's own code comes out as an uncaught one. It does so later, since here it would stop what follows:
// the client would drop the rest of what it has received.
export function guarded(call) {
  try {
    call();
  } catch (error) {
    throwLater(error);
  }
}

function throwLater(error) {
  process.nextTick(() => { throw error; });
}

// Tells the listeners of an event: the array of its name and arguments. `emit` of a socket or a namespace sends to clients, so it
// isn't called here.
export function tell(emitter, event) {
  try {
    EventEmitter.prototype.emit.apply(emitter, event);
  } catch (error) {
    throwLater(error);
  }
}

const warned = new Set();

export function warnOnce(text) {
  if (!warned.has(text)) process.emitWarning(text);
  warned.add(text);
}

// Calls each middleware once the one before has called `next()`. `next(error)` ends it. Of the calls of a `next` the first counts.
export function run(middleware, subject, done) {
  const left = [...middleware];
  const step = () => {
    if (!left.length) return done();
    let called = false;
    const next = (error) => {
      if (called) return;
      called = true;
      if (error) done(error);
      else step();
    };
    guarded(() => left.shift()(subject, next));
  };
  step();
}

export function checkName(name) {
  if (typeof name !== "string" && !Number.isFinite(name)) throw new TypeError("an event's name is a text or a number");
  if (RESERVED.has(name)) throw new Error(`"${name}" is a reserved event name`);
}

const isObject = (value) => value !== null && typeof value === "object";
const isRoom = (room) => typeof room === "string" && (room.length * 3 <= LONGEST_ROOM || Buffer.byteLength(room) <= LONGEST_ROOM);
const areRooms = (rooms) => !rooms || rooms.every(isRoom);

function attachments(values) {
  let count = 0;
  for (const value of values) {
    if (!isObject(value)) continue;
    if (ArrayBuffer.isView(value) || types.isAnyArrayBuffer(value)) count += 1;
    else count += attachments(Array.isArray(value) ? value : Object.values(value));
  }
  return count;
}

// Whether JSON has all of the values as they are: texts, numbers and the like, and lists and plain objects of them. Another
// object may be binary, or have a form of its own in JSON.
export function arePlain(values) {
  for (const value of values) {
    if (typeof value === "function") return false;
    if (!isObject(value)) continue;
    const isList = Array.isArray(value);
    const made = isList ? null : Object.getPrototypeOf(value);
    if (made !== null && made !== Object.prototype) return false;
    if (!arePlain(isList ? value : Object.values(value))) return false;
  }
  return true;
}

// Why the server would refuse a command, or null. A plain `emit` asks for no acknowledgement, so its faults are found here.
export function fault(name, { to, except }, args) {
  const isAboutRooms = name !== "emit";
  if (!areRooms(to) || !areRooms(except) || (isAboutRooms && !areRooms(args))) return "bad room";
  return attachments(args) > MOST_ATTACHMENTS ? `more than ${MOST_ATTACHMENTS} attachments` : null;
}

// Makes all ArrayBuffers in the values Buffers, as listeners on a server expect. It doesn't call itself, since a client
// chooses how deep its data is.
export function withBuffers(values) {
  if (!values.some(isObject)) return values;
  const open = [values];
  while (open.length) {
    const holder = open.pop();
    for (const key of Object.keys(holder)) {
      const value = holder[key];
      if (types.isArrayBuffer(value)) holder[key] = Buffer.from(value);
      else if (isObject(value) && !ArrayBuffer.isView(value)) open.push(value);
    }
  }
  return values;
}

// How a command ended: a promise for those who wait for it. Where nobody does, an error goes to `report`; a plain promise's
// rejection would end the process, as for a room whose name some client chose.
export class Outcome extends Promise {
  awaited = false;

  static get [Symbol.species]() { return Promise; }

  static of(promise, report) {
    const outcome = new Outcome((resolve) => resolve(promise));
    Promise.prototype.then.call(outcome, null, (error) => setImmediate(() => outcome.awaited || report(error)));
    return outcome;
  }

  then(...handlers) {
    this.awaited = true;
    return super.then(...handlers);
  }
}

// Gives a class methods and getters that are those of another object.
export function delegate({ prototype }, to, methods, getters = []) {
  for (const name of methods) prototype[name] = function (...args) { return to(this)[name](...args); };
  for (const name of getters) Object.defineProperty(prototype, name, { get() { return to(this)[name]; } });
}

// What Socket.IO's server has and a backend can't have fails by its name, as soon as it is read.
export function lacks({ prototype }, holder, names) {
  for (const name of names) {
    const get = () => { throw new Error(`${holder}.${name} isn't there: a backend can't have it`); };
    Object.defineProperty(prototype, name, { get });
  }
}
