import { EventEmitter } from "node:events";

type Rooms = string | string[];
type Next = (error?: Error & { data?: unknown }) => void;

export interface Options {
  token: string;
  digits?: string;
  client?: (...args: any[]) => any;
  transports?: string[];
}

interface Sending {
  emit(name: string | number, ...args: any[]): boolean;
  emitWithAck(name: string | number, ...args: any[]): Promise<any>;
  timeout(milliseconds: number): Sending;
}

export interface Target extends Sending {
  to(rooms: Rooms): Target;
  in(rooms: Rooms): Target;
  except(rooms: Rooms): Target;
  timeout(milliseconds: number): Target;
  compress(compress: boolean): Target;
  readonly volatile: Target;
  readonly local: Target;
  send(...args: any[]): Target;
  write(...args: any[]): Target;
  socketsJoin(rooms: Rooms): Promise<void>;
  socketsLeave(rooms: Rooms): Promise<void>;
  disconnectSockets(close?: boolean): Promise<void>;
  fetchSockets(): Promise<(Socket | RemoteSocket)[]>;
}

type Emitter = Omit<EventEmitter, "emit">;

export interface RemoteSocket extends Sending {
  readonly id: string;
  readonly nsp: Namespace;
  join(rooms: Rooms): Promise<void>;
  leave(rooms: Rooms): Promise<void>;
  disconnect(close?: boolean): this;
}

export interface Socket extends Emitter, RemoteSocket {
  readonly server: Backend;
  readonly rooms: Set<string>;
  readonly handshake: { auth: { [key: string]: any }; claims: { [key: string]: any } };
  readonly connected: boolean;
  readonly disconnected: boolean;
  readonly recovered: boolean;
  data: any;
  readonly broadcast: Target;
  readonly volatile: Target;
  readonly local: Target;
  to(rooms: Rooms): Target;
  in(rooms: Rooms): Target;
  except(rooms: Rooms): Target;
  timeout(milliseconds: number): Target;
  compress(compress: boolean): Target;
  send(...args: any[]): Target;
  write(...args: any[]): Target;
  use(middleware: (event: any[], next: Next) => void): this;
  onAny(listener: (...event: any[]) => void): this;
  prependAny(listener: (...event: any[]) => void): this;
  offAny(listener?: (...event: any[]) => void): this;
  listenersAny(): ((...event: any[]) => void)[];
}

export interface Namespace extends Emitter, Target {
  readonly name: string;
  readonly sockets: Map<string, Socket>;
  use(middleware: (socket: Socket, next: Next) => void): this;
}

export interface Backend extends Emitter, Target {
  readonly ready: Promise<Backend>;
  readonly sockets: Namespace;
  of(name: string, listener?: (socket: Socket) => void): Namespace;
  use(middleware: (socket: Socket, next: Next) => void): Namespace;
  close(callback?: () => void): Promise<void>;
}

export function connect(urls: string | string[], options: Options): Backend;
