// The nodes that an app is over, and which of them commands for many go to.
import { Link } from "./link.js";
import { list } from "./parts.js";

export class Nodes {
  // `told`: what the links tell of themselves.
  constructor(urls, options, told) {
    const given = list(urls);
    if (!given.length || !given.every((url) => typeof url === "string")) {
      throw new TypeError("connect needs the URL of a server, or a list of URLs");
    }
    const names = new Set(given.map((url) => url.replace(/\/+$/, "")));
    this.links = [...names].map((url) => new Link(url, names.size > 1, options, told));
    this.inUse = this.links;
  }

  // While a node is up, those that can't be reached are left out. Those that refused this backend are so in any case. Returns
  // who is left out from now on.
  sort() {
    const open = this.links.filter((link) => !link.hasEnded);
    const reached = open.some(({ connected }) => connected) ? open.filter((link) => !link.isAway) : open;
    this.inUse = reached.length ? reached : this.links;
    return this.links.filter((link) => link.leaveOut(!this.inUse.includes(link)));
  }

  // Those that have these sockets, or all that are in use where one of them isn't known.
  of(sockets) {
    if (!sockets.length || !sockets.every(Boolean)) return this.inUse;
    return [...new Set(sockets.map((socket) => socket._link))];
  }

  async close() {
    await Promise.all(this.links.map((link) => link.close()));
  }
}
