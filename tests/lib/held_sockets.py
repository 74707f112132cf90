"""The sockets that another process has, to ask the system what it keeps of them."""
import contextlib
import ctypes
import os
import socket
import struct

LIBC = ctypes.CDLL(None, use_errno=True)
# The system's call by which a process gets a descriptor of another one's (`pidfd_getfd`).
PIDFD_GETFD = 438
# Where the numbers of a listener's queue stand in what the system tells of a TCP socket (`tcp_info`): the second is the most of it.
QUEUE_AT = 24


@contextlib.contextmanager
def held_sockets(pid):
    """The sockets of a process, each as a socket of this one too as long as the block lasts."""
    process, held = os.pidfd_open(pid), []
    try:
        for number in os.listdir(f"/proc/{pid}/fd"):
            with contextlib.suppress(OSError):
                if os.readlink(f"/proc/{pid}/fd/{number}").startswith("socket:"):
                    held.append(socket.socket(fileno=got(process, int(number))))
        yield held
    finally:
        os.close(process)
        for it in held:
            it.close()


def got(process, number):
    own = LIBC.syscall(PIDFD_GETFD, process, number, 0)
    if own < 0:
        raise OSError(ctypes.get_errno(), "pidfd_getfd")
    return own


def queue_of(listener):
    """The most clients that may wait for an accept of a listener over TCP."""
    return struct.unpack_from("II", listener.getsockopt(socket.IPPROTO_TCP, socket.TCP_INFO, 104), QUEUE_AT)[1]
