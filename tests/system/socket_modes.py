#!/usr/bin/env python3
"""Modes of Unix sockets that a configuration says: of the admin socket, and of those at which a rule listens.

    python3 tests/system/socket_modes.py [STAGE]..

set      under a umask that takes nothing and one that takes all of others, a socket has the mode that is said, or else what the umask leaves.
others   another user is refused by 0600 and let in by 0666. It takes root, to be another user; without root it says that it is left out.
order    each path is bound, has its mode set and then listens; a client that comes while the mode is set is refused.
fails    where the mode can't be set, the start ends with the rule's fault, or the admin socket's, and no path is left.
reloads  a reload sets the mode of a listener that comes, and leaves that of one that stays; a changed one of `admin` is told; where one can't
         be set the reload is refused, and no path is left.
given    a socket that the relay was started with keeps its mode.
stale    a path that a killed relay left gives way to a socket with the mode.
"""
import errno
import os
import socket
import stat
import sys

sys.path.insert(1, f"{sys.path[0]}/..")
from lib.c_code import library
from lib.configured_relay import ADMIN, relay, reload
from lib.counting_target import CountingTarget
from lib.places import LIB
from lib.relay import StartFault
from lib.sockets import connect, some_address
from lib.stages import run_script

SOON = 10
A = CountingTarget("A")
UMASKS = (0o000, 0o077)
# Another user than root, whom each Linux has.
NOBODY = 65534
LET_IN, REFUSED, BROKEN = range(3)


def rule(*names, mode=None, name="web"):
    """A rule at these paths of the relay's folder, or at whole addresses, with this mode."""
    listens = ", ".join(f'"{it}"' if ":" in it else f'"unix:{{folder}}/{it}"' for it in names)
    key = "" if mode is None else f'mode = "{mode}"\n'
    return f'[[rule]]\nname = "{name}"\nlisten = [{listens}]\ntarget = [{{ at = "{A.address}" }}]\n{key}'


def admin(mode):
    return f'{{ path = {ADMIN}, mode = "{mode}" }}'


def under(umask, *rules, **given):
    """A relay that was started under a umask."""
    before = os.umask(umask)
    try:
        return relay(*rules, **given)
    finally:
        os.umask(before)


def mode_at(path):
    return f"{stat.S_IMODE(os.stat(path).st_mode):04o}"


def modes(it, *names):
    return [mode_at(f"{it.folder}/{name}") for name in names]


def served(address):
    """What a client hears first, which is its target's name."""
    with connect(address, SOON) as client:
        return client.recv(1)


def are_set(checks, _):
    port = some_address()
    for umask in UMASKS:
        name, left = f"set: umask {umask:03o}", f"{0o777 & ~umask:04o}"
        with under(umask, rule("web", port, "more", mode="0660"), rule("plain", name="plain"), rule("none", mode="0000", name="none"), admin=admin("0606")) as it:
            checks.expect(name, ["0606", "0660", "0660", left, "0000"], modes(it, "admin.sock", "web", "more", "plain", "none"))
            for address in (f"unix:{it.folder}/web", f"unix:{it.folder}/more", port):
                checks.expect(f"{name}: a client", b"A", served(address))
            it.stop()
            checks.expect(f"{name}: what is left", [], it.sockets())
        with under(umask, rule("web")) as it:
            checks.expect(f"{name}: without a key", [left, left], modes(it, "admin.sock", "web"))


def comes(it, name):
    """What becomes of a client of another user, which is a process of its own."""
    client = os.fork()
    if client:
        return os.waitstatus_to_exitcode(os.waitpid(client, 0)[1])
    end = BROKEN
    try:
        os.setgroups([])
        os.setresgid(NOBODY, NOBODY, NOBODY)
        os.setresuid(NOBODY, NOBODY, NOBODY)
        connect(f"unix:{it.folder}/{name}", SOON)
        end = LET_IN
    except PermissionError:
        end = REFUSED
    finally:
        os._exit(end)


def others(checks, _):
    if os.geteuid() != 0:
        print("others: left out, since root alone can be another user", flush=True)
        return
    for mode, want in (("0600", REFUSED), ("0660", REFUSED), ("0666", LET_IN)):
        with relay(rule("web", mode=mode), admin=admin(mode)) as it:
            # (its folder is its user's alone until then)
            os.chmod(it.folder, 0o755)
            checks.expect(f"others: {mode}", [want, want], [comes(it, "web"), comes(it, "admin.sock")])


def preloaded(folder, name, **env):
    made = f"{folder}/{name}.so"
    if not os.path.exists(made):
        library(f"{LIB}/{name}.c", made)
    return {"LD_PRELOAD": made, **env}


def watched(it):
    """What was told of each path, by its name."""
    found = {}
    for line in it.errors().splitlines():
        if line.startswith(("[bind ", "[chmod ", "[listen ")):
            call, path, *said = line[1:-1].split()
            found.setdefault(os.path.basename(path), []).append(" ".join([call, *said]))
    return found


def order(checks, folder):
    for umask in UMASKS:
        name, first = f"order: umask {umask:03o}", f"bind {0o777 & ~umask:04o}"
        with under(umask, rule("web", "more", mode="0660"), admin=admin("0600"), env=preloaded(folder, "watch_modes")) as it:
            of_rule, of_admin = ([first, f"chmod {mode} refused", f"listen {mode}"] for mode in ("0660", "0600"))
            checks.expect(name, {"web": of_rule, "more": of_rule, "admin.sock": of_admin}, watched(it))
            reply = reload(it, rule("web", "more", mode="0660"), rule("late", name="late", mode="0666"), admin=admin("0600"))
            checks.expect(f"{name}: a reload", "rules 2", reply)
            checks.expect(f"{name}: what it brings", [first, "chmod 0666 refused", "listen 0666"], watched(it).get("late"))


def failing(folder, number):
    """What has this chmod fail."""
    return preloaded(folder, "fail_nth", FAIL_CALL="chmod", FAIL_AT=str(number), FAIL_WITH=str(errno.EPERM))


def said_in(errors):
    return errors.replace("[failed]\n", "")


def fails(checks, folder):
    for number, line in ((1, "cannot listen web\n"), (2, "cannot listen web\n"), (3, "cannot listen admin\n")):
        try:
            with relay(rule("plain", name="plain"), rule("web", "more", mode="0660"), admin=admin("0600"), env=failing(folder, number)) as it:
                checks.holds(f"fails: chmod {number}", False, f"it said {it.said!r}")
        except StartFault as fault:
            checks.expect(f"fails: chmod {number}", (3, line, []), (fault.status, said_in(fault.errors), fault.left))


def reloads(checks, folder):
    told = "reload: mode has changed, and needs a restart\n"
    with relay(rule("web", mode="0600"), admin=admin("0600"), env={}) as it:
        reply = reload(it, rule("web", mode="0666"), rule("new", mode="0640", name="new"), admin=admin("0660"))
        checks.expect("reloads: the reply", "rules 2", reply)
        checks.expect("reloads: one that stays, one that comes, and the admin socket", ["0600", "0640", "0600"], modes(it, "web", "new", "admin.sock"))
        checks.expect("reloads: what is told", told, it.errors())
        checks.expect("reloads: the mode of the start", "rules 1", reload(it, rule("new", mode="0640", name="new"), admin=admin("0600")))
        checks.expect("reloads: nothing more is told", told, it.errors())
        checks.expect("reloads: one that comes back", "rules 1", reload(it, rule("web", mode="0666"), admin=admin("0600")))
        checks.expect("reloads: its mode", ["0666"], modes(it, "web"))
    with relay(rule("web", mode="0600"), admin=admin("0600"), env=failing(folder, 3)) as it:
        both = rule("web"), rule("new", mode="0640", name="new")
        checks.expect("reloads: a mode that can't be set", "cannot listen new", reload(it, *both, admin=admin("0600")))
        checks.expect("reloads: what is left by it", ["admin.sock", "web"], it.sockets())
        checks.expect("reloads: the rule of before", b"A", served(f"unix:{it.folder}/web"))
        checks.expect("reloads: once it can", ("rules 2", ["0640"]), (it.ask("reload"), modes(it, "new")))


def given(checks, folder):
    held, path = socket.socket(socket.AF_UNIX), f"{folder}/held"
    held.bind(path)
    os.chmod(path, 0o640)
    held.listen()
    with held, relay(rule(f"unix:{path}", "own", mode="0606"), env={}, sockets=(held,)) as it:
        checks.expect("given: its mode, and that of one that was bound", ["0640", "0606"], [mode_at(path), *modes(it, "own")])
        checks.expect("given: a client", b"A", served(f"unix:{path}"))


def stale(checks, folder):
    left, path = socket.socket(socket.AF_UNIX), f"{folder}/left"
    left.bind(path)
    left.close()
    with relay(rule(f"unix:{path}", mode="0606"), more="replace_stale = true\n"):
        checks.expect("stale: its mode", "0606", mode_at(path))
        checks.expect("stale: a client", b"A", served(f"unix:{path}"))


if __name__ == "__main__":
    sys.exit(run_script(__doc__, {
        "set": are_set, "others": others, "order": order, "fails": fails, "reloads": reloads, "given": given, "stale": stale,
    }))
