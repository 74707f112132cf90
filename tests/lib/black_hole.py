"""A target that never answers."""
import socket
import time


class BlackHole:
    """A port whose queue is full, so that who connects hears nothing."""

    def __init__(self):
        self.sock = socket.socket()
        self.sock.bind(("127.0.0.1", 0))
        self.sock.listen(0)
        self.where = self.sock.getsockname()
        self.address = f"tcp:127.0.0.1:{self.where[1]}"
        self.waiting = []
        for _ in range(4):
            one = socket.socket()
            one.setblocking(False)
            one.connect_ex(self.where)
            self.waiting.append(one)
        time.sleep(0.1)

    def __enter__(self):
        return self

    def __exit__(self, *_):
        for sock in [*self.waiting, self.sock]:
            sock.close()
