#!/usr/bin/env python3
"""Has the calls of the system fail under the running relay, by a library that is loaded before the C library's.

    python3 tests/system/system_faults.py [--whole] [--only CALL] [single | bursts | storms | short | handed | named | ctl | planted]..

single  each call fails once, at its Nth time, with each error that its manual names and that a right program can meet. N goes up until a run
        has no such call; past 12 in growing steps, with --whole in steps of one.
bursts  several calls in a row fail.
storms  every call is interrupted so many times before it is served.
short   every read and write moves one byte, and what is left comes later.
handed  each call fails once by which a relay takes a listener that it is started with, or a Unix path that a killed one left. It is told
        to finish, and ends with its last connection.
named   each call fails, once or some times in a row, by which a relay looks the host of a target up: once these calls go well the target is
        where its host is, and standard error has each turn once.
ctl     each call of `pollrelay ctl show` fails once, or moves one byte: its status is 0 and the reply whole, or 3 with one line.
planted calls that lie, as a relay would that loses or invents bytes, or leaves a descriptor: each has to be found.

A fault before `listening 2` ends the relay with status 3 and one line. A later one costs one connection, or one admin session. Everybody
else goes on, the next client is served, no byte is invented or counted twice, threads and descriptors are those of a relay at rest,
and `stop` ends it with status 0 and the totals. CALL is one of those that ERRORS, HANDED and NAMED list, or several with commas.
"""
import collections
import errno
import os
import socket
import subprocess
import sys
from functools import partial

sys.path.insert(1, f"{sys.path[0]}/..")
from lib.admin_replies import is_reply
from lib.c_code import library
from lib.checks import Checks
from lib.clients import WAIT_SECONDS, Targets
from lib.faulted_life import Handed, Named, Run, kind_of, rest_of, said_of, single_run, summary, tell
from lib.places import LIB, PROGRAM
from lib.relay import Relay, allow_descriptors
from lib.sockets import free_port
from lib.stages import options, run_stages
from lib.waiting import wait_until

STEADILY = 12
# What a failed call may be answered, by its manual page, but for what only a wrong program can meet.
ERRORS = {
    "socket": "EACCES EAFNOSUPPORT EMFILE ENFILE ENOBUFS ENOMEM EPROTONOSUPPORT",
    "bind": "EACCES EADDRINUSE EADDRNOTAVAIL ELOOP ENOENT ENOMEM ENOTDIR EROFS",
    "listen": "EADDRINUSE",
    "epoll_create1": "EMFILE ENFILE ENOMEM",
    "eventfd": "EMFILE ENFILE ENODEV ENOMEM",
    "epoll_ctl": "ENOMEM ENOSPC",
    "pthread_create": "EAGAIN EPERM",
    "setsockopt": "ENOBUFS ENOMEM",
    "accept4": "EAGAIN ECONNABORTED EINTR EMFILE ENFILE ENOBUFS ENOMEM EPERM EPROTO",
    "connect": "EACCES EADDRINUSE EADDRNOTAVAIL EAGAIN ECONNREFUSED EINTR ENETUNREACH ENOENT EPERM ETIMEDOUT",
    "recvfrom": "EAGAIN ECONNRESET EINTR ENOMEM ETIMEDOUT",
    "recv": "EAGAIN ECONNRESET EINTR ENOMEM ETIMEDOUT",
    "sendto": "EAGAIN ECONNRESET EINTR ENOBUFS ENOMEM EPIPE",
    "send": "EAGAIN ECONNRESET EINTR ENOBUFS ENOMEM EPIPE",
    "shutdown": "ENOTCONN",
    "getpeername": "ENOBUFS ENOTCONN",
    "epoll_wait": "EINTR",
    "read": "EINTR EIO",
    "write": "EAGAIN EINTR EIO",
    "nanosleep": "EINTR",
    "close": "EINTR EIO",
}
# The same of the calls for what a relay is started with and for what was left.
HANDED = {
    "getsockname": "ENOBUFS",
    "listen": "EADDRINUSE",
    "fcntl": "EACCES",
    "statx": "EACCES ELOOP ENOENT ENOMEM ENOTDIR",
    "socket": "EMFILE ENOMEM",
    "connect": "EACCES EAGAIN ECONNREFUSED EINTR ENOENT",
    "unlink": "EACCES EBUSY EIO ENOENT EPERM EROFS",
    "bind": "EACCES EADDRINUSE ENOENT",
}
# The same of the calls by which a host is looked up, and the addresses that were found are handed over.
NAMED = {
    "pthread_create": "EAGAIN EPERM",
    "getaddrinfo": "EAI_AGAIN EAI_FAIL EAI_FAMILY EAI_MEMORY EAI_NONAME EAI_SYSTEM",
    "write": "EAGAIN EINTR EIO",
}
# The first removes what was left, and those after it the relay's own paths at its end, which stay then.
ONCE = ("unlink",)
# Bytes of an exchange, each way.
SIZE = 5_000
# So many accepts pause for 5 + 10 + .. + 80 ms.
BURST = 5
# So many look-ups in a row fail.
LOOK_UPS = 3
INTERRUPTED = ("accept4", "recv", "recvfrom", "send", "sendto", "epoll_wait", "read", "write")
# What `ctl` says where nothing was printed, and where the reply can't be.
UNDONE, UNPRINTED = ("cannot reach admin\n", "relay fault: memory\n"), "cannot print reply\n"
LYING = ("recv", "send", "close", "shutdown")
MOST_LIES = 12
ENOUGH_LIES = 3
MOVING = ("recv", "recvfrom", "send", "sendto", "read", "write")


def steps(is_whole):
    number = 1
    while True:
        yield number
        number += 1 if is_whole or number < STEADILY else number // 4


class Faults:
    """Runs with one kind of fault after the other, over the same targets."""

    def __init__(self, checks, folder, only, is_whole, kind=Run):
        self.kind = kind
        self.checks, self.only, self.is_whole = checks, only, is_whole
        self.library = library(f"{LIB}/fail_nth.c", f"{folder}/fail_nth.so")
        self.targets = Targets(folder)
        self.rest = rest_of(self.targets, {"LD_PRELOAD": self.library}, kind)
        self.kinds, self.hit = collections.Counter(), collections.Counter()

    def of(self, calls):
        """Those of the calls that were asked for."""
        return [it for it in calls if not self.only or it in self.only]

    def errors(self, table):
        return [(call, error) for call in self.of(table) for error in table[call].split()]

    def environment(self, call, error, more):
        number = -getattr(socket, error) if error.startswith("EAI_") else getattr(errno, error) if error else 0
        env = {"LD_PRELOAD": self.library, "FAIL_CALL": call, "FAIL_WITH": str(number)}
        return env | {f"FAIL_{key.upper()}": str(value) for key, value in more.items()}

    def run(self, name, call, error, most, seed, **more):
        """One run in which such calls fail; whether one did."""
        env = self.environment(call, error, more)
        # Of several writes that fail in a row one may be that of the line which says so.
        loses = (2 if most > 1 else 1) if call == "write" and error else 0
        came, was_failed, wrong = single_run(self.targets, env, self.rest, seed, most=most, size=SIZE, may_lose_lines=loses, kind=self.kind)
        if was_failed:
            self.hit[call] += 1
            self.kinds[kind_of(came)] += 1
        tell(self.checks, f"{name}: {call} {error or 'one byte'} {more}", came, wrong)
        return was_failed

    def ask(self, admin, call, error, **more):
        """Whether such a call of `ctl show` failed. The reply of two rules is printed whole, or a line says why not."""
        env = {**os.environ, **self.environment(call, error, more)}
        ran = subprocess.run([PROGRAM, "ctl", "--admin", admin, "show"], env=env, capture_output=True, timeout=WAIT_SECONDS, check=False)
        came, printed = (ran.returncode, *said_of(ran.stderr.decode())), ran.stdout.decode()
        is_told = error and came[0] == 3 and (came[1] in UNDONE and not printed or came[1] == UNPRINTED)
        is_done = came[:2] == (0, "") and printed and is_reply("show", printed.splitlines(), (1, 2))
        self.checks.holds(f"ctl: {call} {error or 'one byte'} {more}", is_told or is_done, f"{came} {printed!r}")
        self.hit[call] += came[2]
        self.kinds[came[1].strip() or "nothing"] += came[2]
        return came[2]


def single(faults):
    for call, error in faults.errors(ERRORS):
        for number in steps(faults.is_whole):
            if not faults.run("single", call, error, 1, number, at=number):
                break


def bursts(faults):
    for call, error in faults.errors(ERRORS):
        for number in (1, 2, 4, 8, 16, 32):
            if not faults.run("bursts", call, error, BURST, number, at=number, times=BURST):
                break


def storms(faults):
    for call in faults.of(INTERRUPTED):
        for times in (1, 2, 20, 1_000):
            faults.run("storms", call, "EINTR", 0, times, times=times, period=times + 1)


def short(faults):
    for call in faults.of(MOVING):
        faults.run("short", call, "", 0, 1, times=1 << 40)


def handed(faults):
    for call, error in faults.errors(HANDED):
        for number in steps(faults.is_whole):
            if not faults.run("handed", call, error, 1, number, at=number) or call in ONCE:
                break


def named(faults):
    for call, error in faults.errors(NAMED):
        for times in (1, LOOK_UPS) if call == "getaddrinfo" else (1,):
            for number in steps(faults.is_whole):
                if not faults.run("named", call, error, 1, number, at=number, times=times):
                    break


def ctl(faults):
    with Relay(faults.targets.rules(free_port())) as relay:
        rest = relay.descriptors()
        for call, error in faults.errors(ERRORS):
            for number in steps(faults.is_whole):
                if not faults.ask(relay.admin, call, error, at=number):
                    break
        for call in faults.of(MOVING):
            faults.ask(relay.admin, call, "", times=1 << 40)
        is_quiet = wait_until(lambda: relay.descriptors() == rest, 5)
        faults.checks.holds("ctl: the relay's descriptors", is_quiet, f"{relay.descriptors()}, at rest {rest}")
        faults.checks.expect("ctl: the relay's end", (0, (0, 0)), relay.stop()[:2])


def planted(faults):
    """Stops at a few that were found, since who waits for bytes that never come waits long."""
    for call in faults.of(LYING):
        found = 0
        for number in range(1, MOST_LIES):
            if found == ENOUGH_LIES:
                break
            env = {"LD_PRELOAD": faults.library, "FAIL_CALL": call, "FAIL_WITH": "-1", "FAIL_AT": str(number)}
            came, has_lied, wrong = single_run(faults.targets, env, faults.rest, number, size=SIZE)
            faults.hit[call] += has_lied
            found += bool(wrong)
            if wrong:
                faults.kinds[f"{call} {kind_of(came)}"] += 1
        faults.checks.holds(f"planted: a {call} that lies", found, "never found")
        print(f"planted: a {call} that lies is found in {found} of {faults.hit[call]} runs", flush=True)


STAGES = {"single": single, "bursts": bursts, "storms": storms, "short": short, "handed": handed, "named": named, "ctl": ctl, "planted": planted}


def main():
    given = options(__doc__, STAGES, whole=False, only="")
    only = given.only.split(",") if given.only else []
    if unknown := set(only) - {*ERRORS, *HANDED, *NAMED}:
        sys.exit(f"no call {' '.join(sorted(unknown))}")
    allow_descriptors()
    checks = Checks()

    def stage(name, checks, folder):
        faults = Faults(checks, folder, only, given.whole, {"handed": Handed, "named": Named}.get(name, Run))
        STAGES[name](faults)
        faults.targets.close()
        checks.holds(f"{name}: calls failed", sum(faults.hit.values()) > 0, "none")
        summary(name, faults.kinds)
        print(f"{name}: {dict(faults.hit)}", flush=True)

    run_stages(checks, {name: partial(stage, name) for name in STAGES}, given.stages)
    return checks.end()


if __name__ == "__main__":
    sys.exit(main())
