"""What is said and heard over sockets, where any fault is an answer too."""
import time


def says(sock, data):
    """Whether all of it was taken."""
    try:
        sock.sendall(data)
        return True
    except OSError:
        return False


def hears(sock, data):
    """Whether these bytes come next."""
    came = b""
    try:
        while len(came) < len(data) and (part := sock.recv(len(data) - len(came))):
            came += part
    except OSError:
        return False
    return came == data


def passes(speaker, hearer, data):
    """Whether what one end says comes to the other."""
    return says(speaker, data) and hears(hearer, data)


def both_ways(first, second):
    """Whether a byte goes from one end to the other and comes back."""
    return passes(first, second, b"x") and passes(second, first, b"x")


def has_ended(sock):
    """Whether the other side has ended or reset, and no byte is left."""
    try:
        return sock.recv(1) == b""
    except ConnectionResetError:
        return True
    except OSError:
        return False


def heard(sock, seconds):
    """What comes next in so much time, or None where nothing does."""
    sock.settimeout(seconds)
    try:
        return sock.recv(100)
    except TimeoutError:
        return None
    except OSError as fault:
        return repr(fault)


def seconds_until_end(sock, most):
    """How long it takes until the other side ends or resets, or None where it takes longer."""
    began = time.monotonic()
    sock.settimeout(most)
    try:
        while sock.recv(65_536):
            pass
    except TimeoutError:
        return None
    except OSError:
        pass
    return time.monotonic() - began
