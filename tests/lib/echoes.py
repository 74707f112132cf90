"""A target that gives back what it is sent, and connections through a relay to it whose bytes are compared."""
import threading

from lib.sockets import connect, listener

BLOCK = 4096


def echo(sock):
    """Sends back what each connection brings, on a thread of its own."""
    def one(conn):
        with conn:
            try:
                while data := conn.recv(65536):
                    conn.sendall(data)
            except OSError:
                pass
    while True:
        try:
            conn, _ = sock.accept()
        except OSError:
            return
        threading.Thread(target=one, args=(conn,), daemon=True).start()


def target(path=None):
    """A listening socket whose connections are echoed, and its address."""
    sock, address = listener(path)
    sock.settimeout(None)
    threading.Thread(target=echo, args=(sock,), daemon=True).start()
    return sock, address


class Flow(threading.Thread):
    """A connection that passes numbered blocks, and compares what comes back."""

    def __init__(self, address, number, until):
        super().__init__(daemon=True)
        self.sock, self.number, self.until = connect(address), number, until
        self.blocks, self.fault = 0, None

    def run(self):
        try:
            while not self.until.is_set():
                block = (f"{self.number}:{self.blocks};".encode() * BLOCK)[:BLOCK]
                self.sock.sendall(block)
                came = b""
                while len(came) < BLOCK:
                    part = self.sock.recv(BLOCK - len(came))
                    if not part:
                        raise EOFError(f"ended in block {self.blocks}")
                    came += part
                if came != block:
                    raise ValueError(f"block {self.blocks} came back changed")
                self.blocks += 1
        except (OSError, EOFError, ValueError) as fault:
            self.fault = repr(fault)
        self.sock.close()


def flowing(address, count, until):
    """So many connections that pass blocks until the event."""
    flows = [Flow(address, it, until) for it in range(count)]
    for it in flows:
        it.start()
    return flows


def ended(flows, until):
    """The first faults of connections that were told to end."""
    until.set()
    for it in flows:
        it.join(20)
    return [it.fault for it in flows if it.fault][:3]


def comes_back(address, text=b"hello"):
    """Whether a new connection brings these bytes back."""
    try:
        with connect(address, 10) as sock:
            sock.sendall(text)
            return sock.recv(len(text)) == text
    except OSError:
        return False
