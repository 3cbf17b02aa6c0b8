// Whom something is for: what `to`, `except`, `volatile` and the like make, each a new one.
import { LOST, Outcome, checkName, commandError, fault, list, warnOnce } from "./parts.js";

const first = (values) => values[0];
const added = (before, rooms) => (before ? [...before, ...list(rooms)] : [...list(rooms)]);

// Everybody in a namespace. Each aim has these members, in this order: objects of one shape are the fastest.
const ALL = { to: undefined, except: undefined, volatile: undefined, timeout: undefined, one: undefined, link: undefined };

export class Target {
  // `aim`: to, except (lists of rooms), volatile, timeout, and where it is a single socket `one`, its id, and `link`.
  constructor(space, aim = ALL) {
    this.space = space;
    this.aim = aim;
  }

  // All but a socket.
  static others({ nsp, id }) { return new Target(nsp, { ...ALL, except: [id] }); }

  aimed(aim) { return new this.constructor(this.space, aim); }
  to(rooms) { return this.aimed({ ...this.aim, to: added(this.aim.to, rooms) }); }
  in(rooms) { return this.to(rooms); }
  except(rooms) { return this.aimed({ ...this.aim, except: added(this.aim.except, rooms) }); }
  timeout(milliseconds) { return this.aimed({ ...this.aim, timeout: milliseconds }); }
  get volatile() { return this.aimed({ ...this.aim, volatile: true }); }

  // A backend is at no node more than at others, and they compress nothing.
  get local() { return this; }
  compress() { return this; }

  // The links to the nodes that it is about.
  links() {
    const { to = [] } = this.aim;
    const { nodes } = this.space.server;
    return nodes.links.length === 1 ? nodes.links : nodes.of(to.map((room) => this.space.find(room)));
  }

  options(more) {
    const { to, except } = this.aim;
    const options = { in: this.space.name };
    if (to) options.to = to;
    if (except) options.except = except;
    return more ? Object.assign(options, more) : options;
  }

  // `event`: its name and arguments.
  emit(...event) {
    checkName(event[0]);
    const callback = typeof event.at(-1) === "function" ? event.pop() : null;
    if (callback) this.ask(event, this.forCallback(callback));
    else this.tell(event);
    return true;
  }

  // A fault is told once, and not for each node.
  tell(elements) {
    const { volatile } = this.aim;
    const options = this.options(volatile ? { volatile } : undefined);
    const why = fault("emit", options, elements);
    if (why) return this.space.server.refused(commandError("emit", why));
    const links = this.links();
    const command = { name: "emit", options, args: elements, isShared: links.length > 1 };
    for (const link of links) if (link.connected || !volatile) link.take(command);
  }

  emitWithAck(name, ...args) {
    checkName(name);
    return new Promise((resolve, reject) => {
      this.ask([name, ...args], (error, answers) => (error ? reject(this.blamed(error, answers)) : resolve(this.value(answers))));
    });
  }

  send(...args) {
    this.emit("message", ...args);
    return this;
  }

  write(...args) { return this.send(...args); }
  ask(elements, done) { this.space.server.questions.ask(this, elements, done); }
  forCallback(callback) { return (error, answers) => callback(error, answers.map(first)); }
  value(answers) { return answers.map(first); }
  blamed(error, answers) { return Object.assign(error, { responses: answers.map(first) }); }

  socketsJoin(rooms) { return this.change("socketsJoin", rooms); }
  socketsLeave(rooms) { return this.change("socketsLeave", rooms); }

  // The rooms of the sockets that are known here change at once, and back where the server refuses.
  change(name, rooms) {
    const changes = (room) => (link) => this.members(link).map((socket) => socket._change(room, name === "socketsJoin"));
    return this.outcome(list(rooms).flatMap((room) => this.commands(name, [room], changes(room))));
  }

  // A promise for each node that is to do it. One that is left out meanwhile needn't, if there are others.
  commands(name, args, changes = () => []) {
    const links = this.links();
    return links.map((link) => new Promise((resolve, reject) => {
      const settles = changes(link);
      link.command(name, this.options(), args, (error) => {
        for (const settle of settles) settle(!error);
        if (error && !(link.isOut && links.length > 1)) reject(error);
        else resolve();
      });
    }));
  }

  members(link) {
    const { to = [], except = [] } = this.aim;
    const isIn = (socket) => (room) => socket.rooms.has(room);
    return this.space.at(link).filter((socket) => (!to.length || to.some(isIn(socket))) && !except.some(isIn(socket)));
  }

  disconnectSockets(close = false) {
    if (close) warnOnce("disconnect(true) leaves the namespace only: a backend can't close a client's connection");
    return this.outcome(this.commands("disconnectSockets", []));
  }

  outcome(promises) { return Outcome.of(Promise.all(promises).then(() => {}), (error) => this.space.server.refused(error)); }

  async fetchSockets() {
    return (await Promise.all(this.links().map((link) => this.fetchAt(link)))).flat();
  }

  // Asked again where the connection is lost meanwhile, or where it wasn't known yet who is there: nothing is half done by it.
  fetchAt(link) {
    return new Promise((resolve, reject) => {
      const ask = () => link.command("fetchSockets", this.options(), [], (error, ids) => {
        if (link.isOut) resolve([]);
        else if (error ? error.message === LOST : !this.space.knows(link)) ask();
        else if (error) reject(error);
        else resolve(this.space.fetched(link, ids));
      });
      ask();
    });
  }
}

// A single socket. Its `to` and the like mean others than it, and its answer is one, not a list.
export class One extends Target {
  static of({ nsp, id, _link }) { return new One(nsp, { ...ALL, to: [id], one: id, link: _link }); }

  get broadcast() {
    const { volatile, timeout, one } = this.aim;
    return new Target(this.space, { ...ALL, volatile, timeout, except: [one] });
  }

  to(rooms) { return this.broadcast.to(rooms); }
  except(rooms) { return this.broadcast.except(rooms); }
  links() { return [this.aim.link]; }
  members() { return this.space.known(this.aim.one); }
  value(answers) { return answers[0][0]; }
  blamed(error) { return error; }

  // Without a timeout a callback has no place for an error.
  forCallback(callback) {
    if (this.aim.timeout !== undefined) return (error, answers) => (error ? callback(error) : callback(null, ...answers[0]));
    return (error, answers) => {
      if (!error) callback(...answers[0]);
      else if (error.command) this.space.server.refused(error);
    };
  }
}
