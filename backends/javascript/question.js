// Questions: events that ask for acknowledgements. The server keeps none of this.
import { DIGITS } from "./link.js";
import { LOST, guarded } from "./parts.js";

const IDS = 1e15; // the server's ids lie below

export class Questions {
  #open = new Map();
  // Backends choose ids by themselves, and may hear the answers to each other's questions.
  #last = Math.floor(Math.random() * IDS);

  // Asks those whom the target names. `done(error, answers)` is called once: when all have answered or gone, when the time is
  // over, or when the connection to their node is lost and no other's are due. Each answer is the list of its values.
  ask(target, elements, done) {
    this.#last = (this.#last + 1) % IDS;
    const { one, timeout } = target.aim;
    const due = new Map(target.links().map((link) => [link, null])); // the sockets of each node; null while they aren't known
    const question = { id: this.#last, space: target.space, one, answers: [], due, error: null, unhears: [], done };
    this.#open.set(question.id, question);
    if (timeout !== undefined) {
      question.timer = setTimeout(() => this.#end(question, new Error("operation has timed out")), timeout);
    }
    for (const link of [...due.keys()]) {
      if (this.#open.has(question.id)) this.#askAt(link, question, target, elements);
    }
  }

  #askAt(link, question, target, elements) {
    question.unhears.push(link.hear(question.one ? question.one[0] : DIGITS));
    this.#count(link, question, target);
    link.command("emit", target.options({ ask: question.id }), elements, (error) => error && this.#miss(link, question, error));
  }

  // Who has to answer. A socket that is known here tells itself when it goes. The others are fetched first: who goes after that
  // is told, and who comes after that isn't due. Fetched last, one that came in between would be waited for in vain. The
  // question is sent along, and doesn't wait for the list: the server does what it is told in order, and the list is back first.
  #count(link, question, target) {
    const socket = question.one && target.space.find(question.one);
    if (socket) return this.#expect(link, question, socket.connected ? [socket.id] : []);
    link.command("fetchSockets", target.options(), [], (error, ids) => {
      if (error) this.#miss(link, question, error);
      else this.#expect(link, question, ids);
    });
  }

  #expect(link, question, ids) {
    question.due.set(link, new Set(ids));
    // Not before `ask` has returned.
    if (!ids.length) process.nextTick(() => this.#look(question));
  }

  // Who is behind a lost connection doesn't answer any more, and the others do. A node that was left out before wasn't asked.
  #miss(link, question, error) {
    if (error.message !== LOST) return this.#end(question, error);
    question.due.delete(link);
    if (!link.isOut) question.error = error;
    this.#look(question);
  }

  #look(question) {
    for (const due of question.due.values()) if (!due || due.size) return;
    const gone = question.one && !question.answers.length;
    this.#end(question, question.error ?? (gone ? new Error("socket has been disconnected") : null));
  }

  #end(question, error) {
    if (!this.#open.delete(question.id)) return;
    clearTimeout(question.timer);
    for (const unhear of question.unhears) unhear();
    guarded(() => question.done(error, question.answers));
  }

  // An answer of one who wasn't asked, or who has answered, is none.
  answer(space, link, id, questionId, values) {
    const question = this.#open.get(questionId);
    if (question?.space !== space || !question.due.get(link)?.delete(id)) return;
    question.answers.push(values);
    this.#look(question);
  }

  gone(space, link, id) {
    for (const question of [...this.#open.values()]) {
      if (question.space === space && question.due.get(link)?.delete(id)) this.#look(question);
    }
  }

  lost(link) {
    for (const question of [...this.#open.values()]) {
      if (question.due.get(link)?.size) this.#miss(link, question, Object.assign(new Error(LOST), { node: link.url }));
    }
  }
}
