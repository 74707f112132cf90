"""Programs that are started with sockets, as systemd starts a service (`sd_listen_fds`)."""
import sys

# Puts the sockets to the numbers from 3 on, says so in the environment, and becomes the program.
START = """
import fcntl, os, sys
held = [fcntl.fcntl(int(it), fcntl.F_DUPFD, 300) for it in sys.argv[1].split(",")]
os.closerange(3, 300)
for place, number in enumerate(held):
    os.dup2(number, 3 + place)
    os.close(number)
own = os.getpid()
os.environ.update(LISTEN_PID=sys.argv[2].format(own=own, other=own + 1, wrapped=own + 2**64), LISTEN_FDS=sys.argv[3])
os.execvp(sys.argv[4], sys.argv[4:])
"""


def started_with(sockets, process="{own}", count=None):
    """Words ahead of a program's, and what `subprocess` has to be told beside them: it is started with these sockets.

    What is said of them is `process`, in which `{own}` is the program's number, `{other}` another and `{wrapped}` one that is its own
    where 64 bits wrap, and `count`, or how many they are."""
    numbers = [it.fileno() for it in sockets]
    said = [process, str(len(sockets)) if count is None else count]
    return [sys.executable, "-c", START, ",".join(map(str, numbers)), *said], {"pass_fds": numbers}
