"""A target that counts who connects to it."""
import contextlib
import threading

from lib.sockets import listener


class CountingTarget:
    """Says its name to each who connects, where it has one, then sends back what comes, and counts them (`taken`)."""

    def __init__(self, name="", host="127.0.0.1", path=None, port=0):
        self.name, self.taken = name.encode(), 0
        self.sock, self.address = listener(path, host=host, port=port)
        self.sock.settimeout(None)
        threading.Thread(target=self.serve, daemon=True).start()

    def serve(self):
        while True:
            try:
                conn = self.sock.accept()[0]
            except OSError:
                return
            self.taken += 1
            threading.Thread(target=self.echo, args=(conn,), daemon=True).start()

    def echo(self, conn):
        with conn, contextlib.suppress(OSError):
            conn.sendall(self.name)
            while data := conn.recv(65_536):
                conn.sendall(data)
