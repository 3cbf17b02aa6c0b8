// What sockets had whose clients were lost: they may come back within two minutes.
const LIFE = 130_000; // milliseconds, a little more than the server keeps the session
const MOST = 10_000;

export class Saved {
  #kept = new Map(); // in the order in which they were lost

  keep(socket, rooms, accepted) {
    const { id, data, handshake } = socket;
    this.#kept.delete(id);
    this.#kept.set(id, { data, ...handshake, rooms, accepted, until: Date.now() + LIFE });
    this.#shrink();
  }

  take(id) {
    this.#shrink();
    const kept = this.#kept.get(id);
    this.#kept.delete(id);
    return kept;
  }

  #shrink() {
    for (const [id, { until }] of this.#kept) {
      if (until > Date.now() && this.#kept.size <= MOST) return;
      this.#kept.delete(id);
    }
  }
}
