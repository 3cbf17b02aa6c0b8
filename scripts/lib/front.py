"""A way to a server, which can be cut."""
import contextlib
import socket
import threading
import time


class Front:
    """Stands before the server at a port of its own: lends files, and passes on all else, over connections that can be cut.
    What the server answers at the paths in `heard` is kept there, each with its moment."""

    def __init__(self, server, files={}):
        self.server, self.files, self.heard = server, files, {}
        self.cut, self.ends = False, set()
        self.listener = socket.create_server(("127.0.0.1", 0))
        self.port = self.listener.getsockname()[1]
        threading.Thread(target=self.accept, daemon=True).start()

    def accept(self):
        while True:
            end = self.listener.accept()[0]
            threading.Thread(target=self.serve, args=(end,), daemon=True).start()

    def serve(self, browser):
        with browser, contextlib.suppress(OSError):
            words = browser.recv(4096, socket.MSG_PEEK).split(b" ")
            name = words[1].split(b"?")[0].decode() if len(words) > 1 else ""
            if name in self.files:
                head = "HTTP/1.1 200 OK\r\nContent-Type: {}\r\nContent-Length: {}\r\nConnection: close\r\n\r\n"
                kind, body = self.files[name]
                browser.sendall(head.format(kind, len(body)).encode() + body)
            elif not self.cut:
                came = []
                self.join(browser, came)
                if came and name in self.heard:
                    self.heard[name].append((came[-1][0], b"".join(data for _, data in came)))

    def join(self, browser, came):
        with socket.create_connection(self.server) as server:
            self.ends |= {browser, server}
            if self.cut:
                hang_up(browser, server)
            other = threading.Thread(target=self.carry, args=(server, browser, came), daemon=True)
            other.start()
            self.carry(browser, server, [])
            other.join()
            self.ends -= {browser, server}

    def carry(self, source, sink, came):
        with contextlib.suppress(OSError):
            while data := source.recv(65536):
                sink.sendall(data)
                if self.heard:
                    came.append((time.monotonic(), data))
        hang_up(source, sink)

    def turn(self, word):
        """Cuts all connections, and those that come, until they are mended."""
        self.cut = word == "cut"
        if self.cut:
            hang_up(*self.ends)


def hang_up(*ends):
    for end in ends:
        with contextlib.suppress(OSError):
            end.shutdown(socket.SHUT_RDWR)
