// Runs checks, one after the other, and prints a line for each.
import assert from "node:assert";

const PATIENCE = 5000; // milliseconds
export const LOAD = 30_000; // for thousands of events
const LONGEST_CHECK = 60_000;

export const same = assert.deepStrictEqual;
export const pause = (milliseconds) => new Promise((resolve) => setTimeout(resolve, milliseconds));

export function within(promise, what, milliseconds = PATIENCE) {
  let timer;
  const late = new Promise((_, reject) => {
    timer = setTimeout(() => reject(new Error(`${what} doesn't come`)), milliseconds);
  });
  return Promise.race([promise, late]).finally(() => clearTimeout(timer));
}

// The arguments of the next such event.
export function next(emitter, name) {
  return within(new Promise((resolve) => emitter.once(name, (...args) => resolve(args))), name);
}

// What a call with a callback as last argument gives it.
export function called(call) {
  return within(new Promise((resolve) => call((...args) => resolve(args))), "the callback");
}

// Waits until it is so.
export async function until(isSo, what, milliseconds = PATIENCE) {
  for (const end = Date.now() + milliseconds; !(await isSo()); await pause(5)) if (Date.now() > end) throw new Error(`${what} isn't so`);
}

export async function rejected(promise, message) {
  const error = await within(Promise.resolve(promise).then(() => null, (reason) => reason), "the rejection");
  assert(error, `not rejected: ${message}`);
  same(error.message, message);
  return error;
}

// `checks`: a function for each name, that is given what `prepare` makes. Returns how many failed.
export async function play(title, checks, prepare, word = "") {
  let failed = 0;
  for (const [name, check] of Object.entries(checks)) {
    if (!name.includes(word)) continue;
    const scene = prepare();
    const started = Date.now();
    let outcome = "ok";
    for (const part of [() => check(scene), () => scene.end()]) {
      try {
        outcome = (await within(part(), "the end", LONGEST_CHECK)) ?? outcome;
      } catch (error) {
        outcome = `FAILED ${error.stack}`;
      }
    }
    if (outcome.startsWith("FAILED")) failed += 1;
    console.log(`${title} ${name}: ${outcome} (${Date.now() - started} ms)`);
  }
  return failed;
}
