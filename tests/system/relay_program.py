#!/usr/bin/env python3
"""Printed lines and exit statuses of the built program: words, `trace` and `check`, faults at the start of `serve` and their order,
admin sessions byte for byte, closed outputs, refused paths, and each sample of examples/.

    python3 tests/system/relay_program.py [STAGE]..
"""
import glob
import os
import resource
import socket
import subprocess
import sys
import threading
import time

sys.path.insert(1, f"{sys.path[0]}/..")
from lib.admin_replies import are_rising, ids_shown
from lib.c_code import library
from lib.checks import Checks
from lib.metrics import scrape
from lib.places import LIB, PROGRAM, ROOT
from lib.relay import DESCRIPTORS, Relay, allow_descriptors
from lib.served import so_many_pairs
from lib.sockets import REPLY_SECONDS, connect, free_port, listener
from lib.stages import options, run_stages
from lib.talk import heard
from lib.waiting import wait_until

BAD_COMMAND = b"error 400 bad command\n"
UNKNOWN = b"error 404 no such connection\n"
DRAINING = b"error 409 draining\n"
RULE = "relay {} tcp:127.0.0.1:{} tcp:127.0.0.1:9 never\n"
MOST_LINES = 65_536
# The most admin sessions at once.
MOST_SESSIONS = 32
# Who waits for a session that is silent waits for its minute, in seconds. A machine that is full of other work takes some seconds too.
HALF_A_MINUTE = 30

# The bytes of a stream, and the processor time that a thread which copied one has taken at least, beside an eighth of all.
STREAM = 64 << 20
BUSY_NS = 10_000_000


def run(words, stdin=subprocess.DEVNULL, stdout=subprocess.PIPE, before=None):
    """The status, standard output and standard error of the program, which has to end by itself. It has enough descriptors."""
    ran = subprocess.run(
        [PROGRAM, *words], stdin=stdin, stdout=stdout, stderr=subprocess.PIPE, timeout=20,
        preexec_fn=before or (lambda: allow_descriptors(DESCRIPTORS)),
    )
    return ran.returncode, ran.stdout, ran.stderr


def write(path, text):
    with open(path, "wb") as file:
        file.write(text if isinstance(text, bytes) else text.encode())
    return path


def text_of(path):
    with open(path, encoding="ascii") as file:
        return file.read()


def command_lines(checks, folder):
    """Refused words end with 2. Nothing is read: the rules are a pipe that nobody writes, and the script stays unread."""
    pipe = f"{folder}/pipe"
    os.mkfifo(pipe)
    script = write(f"{folder}/script", "1 incref\n")
    refused = [
        ["--help"], ["check"], ["frob"], ["serve", "--rules", pipe], ["trace", "x"],
        ["-h"], ["-V"], ["help", "x"], ["version", "x"], [""], ["--", "trace"], ["--", "--"], ["trace", "--", "x"], ["trace", "trace"], ["check", pipe], ["check", "--rules"],
        ["check", "--rules", pipe, "x"], ["check", "--rules", pipe, "--", "x"], ["check", "--rules", "--", pipe],
        ["check", "--", "--rules", pipe], ["check", "--rules", pipe, "--rules", pipe], ["check", "--admin", pipe],
        ["serve"], ["serve", "--admin", "/a"], ["serve", "--rules", pipe, "--admin"],
        ["serve", "--rules", pipe, "--admin", "/a", "--loops"], ["serve", "--rules", pipe, "--admin", "/a", "--loops", "0"],
        ["serve", "--rules", pipe, "--admin", "/a", "--loops", "65"], ["serve", "--rules", pipe, "--admin", "/a", "--loops=02"],
        ["serve", "--rules", pipe, "--admin", "/a", "--loops", "2", "--loops", "2"], ["check", "--rules", pipe, "--loops", "2"],
        *(["serve", "--rules", pipe, "--admin", "/a", "--connections", it] for it in ("", "0", "50001", "02", "+2", "two")),
        ["serve", "--rules", pipe, "--admin", "/a", "--connections=2", "--connections=2"], ["check", "--rules", pipe, "--connections", "2"],
        *(["serve", "--rules", pipe, "--admin", "/a", *more] for more in (
            ["--log"], ["--log", ""], ["--log="], ["--log=a", "--log=a"], ["--metrics"], ["--metrics", ""], ["--metrics", "x"],
            ["--metrics", "tcp:1.2.3:4"], ["--metrics", "tcp:1.2.3.4:0"], ["--metrics=unix:m"], ["--metrics=unix:/m", "--metrics=unix:/m"],
            ["--connect-timeout"], ["--connect-timeout", "86400001"], ["--connect-timeout=05"], ["--connections-per-rule", "0"],
            ["--connections-per-rule=50001"], ["--replace-stale=yes"], ["--replace-stale", "yes"], ["--replace-stale", "--replace-stale"],
        )),
        ["check", "--rules", pipe, "--log=a"], ["check", "--rules", pipe, "--metrics=unix:/m"],
        *(["ctl", "--admin", "/a", *more] for more in ([], ["frob"], ["list", "x"], ["close"], ["close", "01"], ["a", "b", "c", "d"], ["--", "list"], [""])),
        ["ctl", "list"], ["serve", "--rules", pipe, "--admin", "/a", "x"], ["trace", "--rules", pipe], [b"\xff"], ["check", "--rules", b"\xff"],
    ]
    for words in refused:
        with open(script, "rb") as stdin:
            checks.expect(f"words {words}", (2, b"", b"bad command line\n"), run(words, stdin))
            checks.expect(f"words {words}: what was read", 0, os.lseek(stdin.fileno(), 0, os.SEEK_CUR))
    for words in ([], ["trace"], ["--"], ["trace", "--"]):
        with open(script, "rb") as stdin:
            checks.expect(f"words {words}", (0, b"held 0000000000000008 0 0 -\n", b""), run(words, stdin))
    rules = write(f"{folder}/empty", "")
    checks.expect("words check --rules=F", (0, b"rules 0\n", b""), run(["check", f"--rules={rules}"]))
    checks.expect("words check --rules F --", (0, b"rules 0\n", b""), run(["check", "--rules", rules, "--"]))


def traces(checks, folder):
    """Inputs and outputs of `trace` that fail, a bad line, and an answer that comes before the next line is written."""
    script = write(f"{folder}/script", "1 incref\n01 incref\n")
    with open("/dev/full", "wb") as full, open(script, "rb") as stdin:
        checks.expect("trace: a full output", (3, None, b"trace fault: write\n"), run([], stdin, full))
    with open(script, "rb") as stdin:
        checks.expect("trace: a closed output", (3, b"", b"trace fault: write\n"), run([], stdin, before=lambda: os.close(1)))
    unread = os.open("/", os.O_RDONLY)
    checks.expect("trace: an input that can't be read", (3, b"", b"trace fault: read\n"), run([], unread))
    os.close(unread)
    with open(script, "rb") as stdin:
        checks.expect("trace: a bad line", (1, b"held 0000000000000008 0 0 -\nbad line 2\n", b""), run([], stdin))
    answers = []
    with subprocess.Popen([PROGRAM], stdin=subprocess.PIPE, stdout=subprocess.PIPE, bufsize=0) as process:
        for line in (b"1 incref\n", b"1 decref\n"):
            process.stdin.write(line)
            answers.append(process.stdout.readline())
        process.stdin.close()
        wanted = [b"held 0000000000000008 0 0 -\n", b"kept 0000000000000000 0 0 -\n"]
        checks.expect("trace: answers before the next line", (wanted, 0), (answers, process.wait(20)))


def many_rules(count):
    return "".join(RULE.format(f"r{at}", at + 1) for at in range(count))


VERDICTS = [
    ("an empty file", "", "rules 0"),
    ("any address", "# x\nrelay a tcp:0.0.0.0:1 tcp:255.255.255.255:65535 never", "rules 1"),
    ("a front zero", "relay a tcp:0.0.0.0:01 tcp:1.1.1.1:1 never\n", "bad rules: line 1"),
    ("a path twice", "relay a unix:/x unix:/y never\nrelay b unix:/x unix:/z 1\n", "bad rules: same listen address at line 2"),
    ("an idle time too long", "relay a unix:/x unix:/y 86400001\n", "bad rules: line 1"),
    ("the longest idle time", "relay a unix:/x unix:/y 86400000\n", "rules 1"),
    ("an idle time of 0", "relay a unix:/x unix:/y 0\n", "bad rules: line 1"),
    ("one rule", "relay web tcp:127.0.0.1:8080 unix:/tmp/a.sock 5000\n", "rules 1"),
    ("a rule twice", "relay web tcp:127.0.0.1:8080 unix:/tmp/a.sock 5000\n" * 2, "bad rules: same name at line 2"),
    ("one target twice", "relay a unix:/x unix:/z never\nrelay b unix:/y unix:/z never\n", "rules 2"),
    ("lines that count", "\n# two\n\nfrob\n", "bad rules: line 4"),
    ("a carriage return", "relay a unix:/x unix:/y never\r\n", "bad rules: line 1"),
    ("a comment of any bytes", b"#\xff\x00\r\n", "rules 0"),
    ("a space ahead", " relay a unix:/x unix:/y never\n", "bad rules: line 1"),
    ("two spaces", "relay a  unix:/x unix:/y never\n", "bad rules: line 1"),
    ("a port of 0", "relay a tcp:1.1.1.1:0 unix:/y never\n", "bad rules: line 1"),
    ("a port too great", "relay a tcp:1.1.1.1:65536 unix:/y never\n", "bad rules: line 1"),
    ("a name of 16", "relay a234567890123456 unix:/x unix:/y never\n", "rules 1"),
    ("a name of 17", "relay a2345678901234567 unix:/x unix:/y never\n", "bad rules: line 1"),
    ("a path of 100", f"relay a unix:/{'x' * 99} unix:/y never\n", "rules 1"),
    ("a path of 101", f"relay a unix:/{'x' * 100} unix:/y never\n", "bad rules: line 1"),
    ("64 rules", many_rules(64), "rules 64"),
    ("65 rules", many_rules(65), "bad rules: too many at line 65"),
    ("a bad line behind 64 rules", many_rules(64) + "frob\n", "bad rules: line 65"),
    ("a name again behind 64 rules", many_rules(64) + RULE.format("r1", 99), "bad rules: too many at line 65"),
    ("a rule wholly again", "relay a unix:/x unix:/y 1\nrelay a unix:/x unix:/y 1\n", "bad rules: same name at line 2"),
    ("65,536 bytes", "#" + "x" * 65_535, "rules 0"),
    ("65,537 bytes", "#" + "x" * 65_536, "bad rules: too long"),
    ("65,537 bytes and a bad line", "frob\n" + "x" * 65_532, "bad rules: too long"),
]


def verdicts(checks, folder):
    for name, text, verdict in VERDICTS:
        path = write(f"{folder}/rules", text)
        wanted = (0 if verdict.startswith("rules ") else 1, f"{verdict}\n".encode(), b"")
        checks.expect(f"check: {name}", wanted, run(["check", "--rules", path]))
    unread = (3, b"", b"cannot read rules\n")
    for path in (f"{folder}/none", folder, f"{folder}/rules/x", ""):
        checks.expect(f"check: {path!r}", unread, run(["check", "--rules", path]))


def outputs(checks, folder):
    """A verdict that can't be written is status 3 with no text; a message that can't be written leaves the status."""
    good, bad = write(f"{folder}/good", ""), write(f"{folder}/bad", "frob\n")
    for path in (good, bad):
        with open("/dev/full", "wb") as full:
            checks.expect("check: a full output", (3, None, b""), run(["check", "--rules", path], stdout=full))
        closed = lambda: os.close(1)
        checks.expect("check: a closed output", (3, b"", b""), run(["check", "--rules", path], before=closed))
    deaf = lambda: os.close(2)
    checks.expect("check: a closed error output", (3, b"", b""), run(["check", "--rules", f"{folder}/none"], before=deaf))
    checks.expect("words frob with a closed error output", (2, b"", b""), run(["frob"], before=deaf))
    inner = f"{folder}/in.sock"
    rules = write(f"{folder}/rules", f"relay a unix:{inner} unix:/x never\n")
    words = ["serve", "--rules", rules, "--admin", f"{folder}/admin"]
    device = (3, b"relay fault: device\n")
    with open("/dev/full", "wb") as full:
        status, _, said = run(words, stdout=full)
        checks.expect("serve: a full output", device, (status, said))
    status, _, said = run(words, before=lambda: os.close(1))
    checks.expect("serve: a closed output", device, (status, said))
    checks.expect("serve: paths after a fault", [], [it for it in (inner, f"{folder}/admin") if os.path.lexists(it)])
    last_line_lost(checks, words, [inner, f"{folder}/admin"])


def last_line_lost(checks, words, paths):
    """The reader of the output goes away before the last line."""
    process = subprocess.Popen([PROGRAM, *words], stdout=subprocess.PIPE, stderr=subprocess.PIPE)
    try:
        checks.expect("serve: its first line", b"listening 1\n", process.stdout.readline())
        process.stdout.close()
        said = session(paths[1], b"stop\n")
        status, errors = process.wait(20), process.stderr.read()
        checks.expect("serve: the last line lost", (b"ok\n", 3, b"relay fault: device\n"), (said, status, errors))
        checks.expect("serve: paths after a lost line", [], [it for it in paths if os.path.lexists(it)])
    finally:
        process.kill()


def serve_fault(rules, admin, before=None):
    status, out, said = run(["serve", "--rules", rules, "--admin", admin], before=before)
    return status, out.decode(), said.decode()


def start_faults(checks, folder):
    """Each fault at the start, where all later ones stand as well: the first in the order is told."""
    with listener()[0] as held:
        port = held.getsockname()[1]
        taken = RULE.format("first", free_port()) + RULE.format("second", port) + RULE.format("third", port).replace(":9 ", ":8 ")
        taken = taken.replace(f"third tcp:127.0.0.1:{port}", f"third unix:{folder}/taken")
        write(f"{folder}/taken", "")
        in_use = write(f"{folder}/in-use", taken)
        broken = write(f"{folder}/broken", "frob\n" + taken)
        admin = f"{folder}/taken"
        unread = (3, "", "cannot read rules\n")
        checks.expect("start: rules that can't be read", unread, serve_fault(f"{folder}/none", admin))
        checks.expect("start: bad rules", (1, "", "bad rules: line 1\n"), serve_fault(broken, admin))
        checks.expect("start: a listener", (3, "", "cannot listen second\n"), serve_fault(in_use, admin))
        only_third = write(f"{folder}/third", "".join(taken.splitlines(True)[::2]))
        checks.expect("start: a later listener", (3, "", "cannot listen third\n"), serve_fault(only_third, admin))
    bound = f"{folder}/bound"
    at_path = f"relay a unix:{bound} unix:/x never\n"
    taken = write(f"{folder}/taken-path", f"{at_path}relay b unix:{admin} unix:/x never\n")
    checks.expect("start: a listener at a path that is taken", (3, "", "cannot listen b\n"), serve_fault(taken, admin))
    checks.expect("start: the path that was bound before it", False, os.path.lexists(bound))
    good = write(f"{folder}/good", at_path)
    for path in (admin, "", f"{folder}/no/such", "/" + "x" * 100, f"{folder}/{'x' * (100 - len(folder))}"):
        what = f"start: the admin path {path[:20]!r} of {len(path)} bytes"
        checks.expect(what, (3, "", "cannot listen admin\n"), serve_fault(good, path))
        checks.expect(f"{what}: the path that was bound before it", False, os.path.lexists(bound))
    checks.expect("start: a path that was there stays", True, os.path.isfile(admin))


# The faults at a start that words and paths bring about, in their order, with the status and what they change of the words.
START_ORDER = (
    ("bad command line", 2, {"--loops": "0"}),
    ("cannot read rules", 3, {"--rules": "{folder}/none"}),
    ("bad rules: line 1", 1, {"--rules": "{folder}/bad"}),
    ("cannot listen one", 3, {"--rules": "{folder}/unheard"}),
    ("cannot listen admin", 3, {"--admin": "{folder}/taken"}),
    ("cannot open log", 3, {"--log": "{folder}/none/log"}),
    ("cannot listen metrics", 3, {"--metrics": "unix:{folder}/taken"}),
)


def start_pairs(checks, folder):
    """Of each two faults at the start the one that comes first in the order is told, and no path is left."""
    unheard = f"relay one unix:{folder}/taken unix:/x never\n"
    for name, text in (("good", f"relay one unix:{folder}/one unix:/x never\n"), ("unheard", unheard), ("bad", f"frob\n{unheard}"), ("taken", "")):
        write(f"{folder}/{name}", text)
    left = sorted(os.listdir(folder))
    for at, (first, status, changes) in enumerate(START_ORDER):
        # (the last one first: a fault that isn't told leaves the other, and a relay that serves where it is alone)
        for second, _, others in reversed(START_ORDER[at:]):
            words = {"--rules": "{folder}/good", "--admin": "{folder}/admin", "--loops": "1", **others, **changes}
            said = run(["serve", *(part.format(folder=folder) for word in words.items() for part in word)])
            checks.expect(f"start: {first} ahead of {second}", (status, b"", f"{first}\n".encode()), said)
            checks.expect(f"start: what is left by {first} and {second}", left, sorted(os.listdir(folder)))


def poller_fault(checks, folder):
    """With one descriptor more at a time the faults come in their order, the poller's between rules and listeners."""
    rules = write(f"{folder}/poller-rules", RULE.format("one", free_port()) + RULE.format("two", free_port()))
    order = [
        "cannot read rules", "relay fault: device", "cannot listen one", "cannot listen two", "cannot listen admin", "cannot open log",
        "cannot listen metrics",
    ]
    seen, bad, taken = [], write(f"{folder}/poller-bad", "frob\n"), write(f"{folder}/poller-taken", "")
    # The loader takes the fourth.
    for most in range(4, 60):
        words = [PROGRAM, "serve", "--rules", rules, "--admin", f"{folder}/{most}.sock", "--log", f"{folder}/log", "--metrics", f"unix:{folder}/m"]
        limit = lambda: resource.setrlimit(resource.RLIMIT_NOFILE, (most, most))
        process = subprocess.Popen(words, stdout=subprocess.PIPE, stderr=subprocess.PIPE, preexec_fn=limit)
        serves = process.stdout.readline() != b""
        if serves:
            process.kill()
        said = process.communicate(timeout=20)[1].decode().strip()
        if serves:
            break
        # (the line ahead of it says that they are few)
        seen.append(said.splitlines()[-1] if said else said)
        checks.expect(f"start with {most} descriptors: status", 3, process.returncode)
        if seen[-1] == "relay fault: device":
            for more, wanted in ((("--rules", bad), "bad rules: line 1"), (("--admin", taken), seen[-1]), (("--log", f"{folder}/none/log"), seen[-1])):
                words = ["serve", *(word for pair in {"--rules": rules, "--admin": f"{folder}/a", more[0]: more[1]}.items() for word in pair)]
                told = run(words, before=limit)[2].decode().splitlines()[-1:]
                checks.expect(f"start with {most} descriptors and {more[0]} of {wanted}", [wanted], told)
    places = [order.index(it) if it in order else -1 for it in seen]
    checks.holds("start: faults by descriptors, in their order", places == sorted(places) and -1 not in places, f"{seen}")
    checks.holds("start: the poller's fault", "relay fault: device" in seen, f"{seen}")


def refused_paths(checks, folder):
    """A Unix path that is there is refused and left as it was; the paths that were bound before are removed."""
    stale = f"{folder}/stale"
    with socket.socket(socket.AF_UNIX) as sock:
        sock.bind(stale)
    link, file = f"{folder}/link", write(f"{folder}/file", "kept")
    os.symlink(f"{folder}/nowhere", link)
    for path in (stale, link, file, folder):
        rules = f"relay early unix:{folder}/early unix:/x never\nrelay late unix:{path} unix:/x never\n"
        said = serve_fault(write(f"{folder}/path-rules", rules), f"{folder}/path-admin")
        checks.expect(f"start: a rule's path that is there, {path}", (3, "", "cannot listen late\n"), said)
        checks.expect(f"start: what was at {path}", True, os.path.lexists(path))
        checks.expect("start: an earlier path is removed", False, os.path.lexists(f"{folder}/early"))
    checks.expect("start: the file's text", "kept", text_of(file))


def session(path, sent):
    """What an admin session answers to these bytes and their end."""
    with connect(f"unix:{path}") as sock:
        sender = threading.Thread(target=send_all, args=(sock, sent))
        sender.start()
        replies = rest_of(sock)
        sender.join()
        return replies


def send_all(sock, sent):
    try:
        sock.sendall(sent)
        sock.shutdown(socket.SHUT_WR)
    except OSError:
        pass  # the session ended before


def rest_of(sock):
    """All that comes until the end."""
    parts = []
    while data := received(sock):
        parts.append(data)
    return b"".join(parts)


def received(sock):
    try:
        return sock.recv(65_536)
    except ConnectionError:
        return b""  # what the session hadn't read is given up at its end


SESSIONS = [
    ("nothing", b"", b""),
    ("list", b"list\n", b"ids 1 2 3 4\n"),
    ("totals, without a line feed", b"totals", b"totals up 12 down 0\n"),
    ("commands in turn", b"totals\nclose 9\nlist\nfrob\nquit\n", b"totals up 12 down 0\n" + UNKNOWN + b"ids 1 2 3 4\n" + BAD_COMMAND + b"ok\n"),
    ("a deadline too long", b"deadline 3 86400001\n", BAD_COMMAND),
    ("a deadline", b"deadline 3 86400000\ndeadline 3 never\n", b"ok\nok\n"),
    ("ids that are none", b"close 01\nclose 4503599627370495\nclose 0\nclose\nclose x\nclose 3 \n", BAD_COMMAND * 6),
    ("the greatest id", b"close 4503599627370494\ndeadline 4503599627370494 5\n", UNKNOWN * 2),
    ("drains of ids that are none", b"drain 9\ndrain 01\ndrain 0\ndrain\ndrain x\ndrain 3 \ndrain 3 never\n", UNKNOWN + BAD_COMMAND * 6),
    ("quit, and more", b"quit\nlist\n", b"ok\n"),
    ("65 bytes", b"x" * 65 + b"\nlist\n", BAD_COMMAND),
    ("64 bytes", b"x" * 64 + b"\nlist\n", BAD_COMMAND + b"ids 1 2 3 4\n"),
    ("an empty line, a carriage return, spaces", b"\nlist\r\n list\nlist \nlist", BAD_COMMAND * 4 + b"ids 1 2 3 4\n"),
    ("words of another case", b"LIST\nStop\n", BAD_COMMAND * 2),
    ("any bytes", b"\xff\x00\xfe\nquit", BAD_COMMAND + b"ok\n"),
    ("65,536 lines and more", b"x\n" * (MOST_LINES + 5), BAD_COMMAND * MOST_LINES),
]


def ctl(path, *words, stdout=subprocess.PIPE):
    return run(["ctl", "--admin", path, *words], stdout=stdout)


def control(checks, folder):
    """`ctl` on a relay: replies as they are, refused ones with 1, and 3 where no relay answers."""
    unreached = (3, b"", b"cannot reach admin\n")
    with Relay(RULE.format("r", free_port())) as relay:
        path = relay.admin
        for words, status, reply in (
            (["list"], 0, b"ids 1\n"), (["totals"], 0, b"totals up 0 down 0\n"), (["deadline", "1", "never"], 0, b"ok\n"),
            (["deadline 1 never"], 0, b"ok\n"), (["close", "9"], 1, UNKNOWN), (["reload"], 0, b"rules 1\n"),
            (["drain", "1"], 0, b"ok\n"), (["drain", "1"], 1, DRAINING), (["quit"], 0, b"ok\n"),
        ):
            checks.expect(f"ctl {' '.join(words)}", (status, reply, b""), ctl(path, *words))
        status, said, errors = ctl(path, "show")
        lines = said.decode().splitlines()
        checks.expect("ctl show", (0, [1], ["end"], b""), (status, ids_shown(lines[:-1]), lines[-1:], errors))
        write(f"{relay.folder}/rules", "frob\n")
        checks.expect("ctl reload of bad rules", (1, b"bad rules: line 1\n", b""), ctl(path, "reload"))
        with open("/dev/full", "wb") as full:
            checks.expect("ctl: a full output", (3, None, b"cannot print reply\n"), ctl(path, "list", stdout=full))
        checks.expect("ctl stop", (0, b"ok\n", b""), ctl(path, "stop"))
        relay.process.wait(20)
        checks.expect("ctl where no relay is any more", unreached, ctl(path, "list"))
    checks.expect("ctl where nothing is", unreached, ctl(f"{folder}/none", "list"))
    with listener(f"{folder}/deaf")[0] as deaf:
        for word, said in (("list", b""), ("list", b"o"), ("list", b"ok\nids"), ("show", b"show 1 rule r ..\n")):
            answer = threading.Thread(target=answer_once, args=(deaf, said))
            answer.start()
            checks.expect(f"ctl {word} where {said!r} is all that is said", unreached, ctl(f"{folder}/deaf", word))
            answer.join()


def answer_once(sock, said):
    client, _ = sock.accept()
    with client:
        rest_of(client)
        client.sendall(said)


def own_texts(checks, _):
    """The words of `help` name each command; `version` is one line."""
    status, said, errors = run(["help"])
    named = all(f"pollrelay {it}".encode() in said for it in ("serve --rules", "check --rules", "ctl --admin", "trace", "help", "version"))
    checks.expect("help", (0, True, b""), (status, named, errors))
    status, said, errors = run(["version"])
    checks.expect("version", (0, b"pollrelay", 1, b""), (status, said.split()[0], said.count(b"\n"), errors))


def admin_sessions(checks, _):
    accepts, target = listener()
    port = free_port()
    rules = f"relay one tcp:127.0.0.1:{port} {target} never\nrelay two tcp:127.0.0.1:{free_port()} {target} 9999\n"
    with accepts, Relay(rules) as relay:
        checks.expect("serve: its first line", "listening 2\n", relay.said)
        client = connect(f"tcp:127.0.0.1:{port}")
        client.sendall(b"twelve bytes")
        taken, _ = accepts.accept()
        taken.recv(12, socket.MSG_WAITALL)
        wait_until(lambda: relay.totals() == (12, 0), 5)
        for name, sent, wanted in SESSIONS:
            got = session(relay.admin, sent)
            short = got if len(got) < 200 else f"{len(got)} bytes"
            checks.holds(f"session: {name}", got == wanted, f"wanted {wanted[:200]!r}, got {short!r}")
        in_pieces(checks, relay)
        gone_without_reading(checks, relay)
        drained = b"ok\n" + DRAINING * 3 + b"ok\n" + DRAINING + b"ids 1 2 3 4\n"
        sent = b"drain 4\ndrain 4\ndeadline 4 9\ndeadline 4 never\ndrain 2\ndrain 2\nlist\n"
        checks.expect("session: drains", drained, session(relay.admin, sent))
        checks.expect("session: a deadline of 0", b"ok\n", session(relay.admin, b"deadline 3 0\n"))
        checks.expect("session: the client sees the end", b"", rest_of(client))
        wait_until(lambda: relay.ids() == [1, 2], 5)
        checks.expect("session: a listener's id", b"ok\nids 2\n" + UNKNOWN, session(relay.admin, b"close 1\nlist\nclose 1\n"))
        checks.expect("session: stop, and more", b"ok\n", session(relay.admin, b"stop\nlist\n"))
        said, _ = relay.process.communicate(timeout=20)
        checks.expect("serve: its last line and status", (b"up 12 down 0\n", 0), (said, relay.process.returncode))
        client.close()
        taken.close()


def in_pieces(checks, relay):
    """A reply comes before the next line, and a line may come byte by byte."""
    with connect(f"unix:{relay.admin}") as sock:
        for byte in b"list\n":
            sock.sendall(bytes([byte]))
        checks.expect("session: byte by byte", b"ids 1 2 3 4\n", received(sock))
        sock.sendall(b"quit\n")
        checks.expect("session: the next line", b"ok\n", rest_of(sock))


def gone_without_reading(checks, relay):
    """Clients that go away leave the next session served."""
    for _ in range(20):
        with connect(f"unix:{relay.admin}") as sock:
            sock.sendall(b"list\n" * 1_000)
    checks.expect("session: after clients that went away", b"ids 1 2 3 4\n", session(relay.admin, b"list\n"))


# Listings that are more than a socket holds, which is less than a quarter of a megabyte.
LISTINGS = 150


def listings(checks, _):
    """`show` has a line for each id; others are answered, close and connect while a client doesn't read its listings."""
    accepts, target = listener()
    port = free_port()
    with accepts, Relay(f"relay one tcp:127.0.0.1:{port} {target} never\n") as relay:
        clients = [connect(f"tcp:127.0.0.1:{port}") for _ in range(20)]
        wait_until(lambda: len(relay.ids()) == 41, 5)
        before, first = relay.ids(), relay.ask("show 1")
        shown = session(relay.admin, b"show\n").decode().splitlines()
        checks.expect("show: its ids and its last line", (before, ["end"]), (ids_shown(shown[:-1]), shown[-1:]))
        checks.expect("show: a line is that of its id", [first.split()[:12]], [it.split()[:12] for it in shown[:1]])
        with connect(f"unix:{relay.admin}") as slow:
            slow.sendall(b"show\n" * LISTINGS)
            checks.expect("show: a close meanwhile", "ok", relay.ask("close 2"))
            clients.append(connect(f"tcp:127.0.0.1:{port}"))
            wait_until(lambda: len(relay.ids()) == 41 and relay.ids() != before, 5)
            after = relay.ids()
            slow.shutdown(socket.SHUT_WR)
            said = rest_of(slow).decode()
        found = [ids_shown(it.splitlines()) for it in said.split("end\n")]
        checks.expect("show: listings", (LISTINGS, []), (len(found) - 1, found[-1]))
        checks.holds("show: ids rise", all(are_rising(it, before[:1]) for it in found[:-1]), f"{found[:1]}")
        checks.expect("show: the first and the last listing", [before, after], [found[0], found[-2:][0]])
        for sock in clients:
            sock.close()
        checks.expect("show: its end", 0, relay.stop()[0])


def stopped_and_gone(checks, _):
    """A client that says stop and goes away at once, whatever it asked before, stops the relay."""
    for sent in (b"stop\n", b"stop", b"list\n" * 1_000 + b"stop\n"):
        for _ in range(5):
            with Relay("") as relay:
                with connect(f"unix:{relay.admin}") as sock:
                    sock.sendall(sent)
                try:
                    said, _ = relay.process.communicate(timeout=20)
                except subprocess.TimeoutExpired:
                    said = b"still running"
                checks.expect("session: stop, and gone", (b"up 0 down 0\n", 0), (said, relay.process.poll()))


def no_rule(checks, _):
    with Relay("") as relay:
        checks.expect("no rule: first line", "listening 0\n", relay.said)
        checks.expect("no rule: list", b"ids\n", session(relay.admin, b"list\n"))
        checks.expect("no rule: its end", (0, (0, 0)), relay.stop()[:2])


def sample_rules(checks, _):
    """Each sample says in a line what `check` prints."""
    samples = sorted(glob.glob(f"{ROOT}/examples/rules/*.rules"))
    checks.holds("samples: rules", len(samples) >= 6, f"{len(samples)} files")
    for path in samples:
        said = [line.split(": ", 1)[1] for line in text_of(path).splitlines(True) if line.startswith("# It prints: ")]
        verdict = said[0] if said else ""
        wanted = (0 if verdict.startswith("rules ") else 1, verdict.encode(), b"")
        checks.expect(f"sample {os.path.basename(path)}", wanted, run(["check", "--rules", path]))


def sample_sessions(checks, _):
    """Each transcript is played to a relay with as many rules as it says; `>` lines are sent, `<` lines awaited."""
    samples = sorted(glob.glob(f"{ROOT}/examples/admin/*.session"))
    checks.holds("samples: sessions", len(samples) >= 3, f"{len(samples)} files")
    for path in samples:
        lines = text_of(path).splitlines()
        count = next(int(line.split()[-1]) for line in lines if line.startswith("# Rules: "))
        sent = "".join(f"{line[2:]}\n" for line in lines if line.startswith("> "))
        wanted = "".join(f"{line[2:]}\n" for line in lines if line.startswith("< "))
        rules = "".join(RULE.format(f"r{at}", free_port()) for at in range(count))
        with Relay(rules) as relay:
            checks.expect(f"sample {os.path.basename(path)}", wanted.encode(), session(relay.admin, sent.encode()))


def reload_with_one_more(relay, rules):
    write(f"{relay.folder}/rules", rules + RULE.format("three", free_port()))
    session(relay.admin, b"reload\nquit\n")


def sample_metrics(checks, folder):
    """The script for Prometheus counts one connection and its bytes, and a relay that doesn't answer is down."""
    output = f"{folder}/relay.prom"
    accepts, target = listener()
    port = free_port()
    rules = f"# one\n\nrelay one tcp:127.0.0.1:{port} {target} never\nrelay two tcp:127.0.0.1:{free_port()} {target} 9\n"
    words = [sys.executable, f"{ROOT}/examples/prometheus/pollrelay_textfile.py", "--output", output]
    with accepts, Relay(rules) as relay, connect(f"tcp:127.0.0.1:{port}") as client:
        client.sendall(b"twelve bytes")
        wait_until(lambda: relay.totals() == (12, 0), 5)
        words += ["--admin", relay.admin]
        # (a reload gives a listener an id behind those of connections)
        for step in (lambda: None, lambda: reload_with_one_more(relay, rules), relay.stop):
            step()
            checks.expect("metrics: status", 0, subprocess.run(words, timeout=20, check=False).returncode)
            values = [line for line in text_of(output).splitlines() if not line.startswith("#")]
            bytes_total = ['pollrelay_bytes_total{way="up"} 12', 'pollrelay_bytes_total{way="down"} 0']
            wanted = ["pollrelay_up 0"] if step == relay.stop else ["pollrelay_up 1", *bytes_total, "pollrelay_connections 1"]
            checks.expect("metrics: values", wanted, values)
            checks.expect("metrics: other files", ["relay.prom"], os.listdir(folder))


def metrics_at_a_path(checks, folder):
    """Metrics are given at a Unix path, which goes with the relay; a path that is there already keeps it from starting, and stays."""
    rule, path = RULE.format("one", free_port()), f"{folder}/metrics.sock"
    with Relay(rule, options=("--metrics", f"unix:{path}")) as relay:
        answered, told = scrape(f"unix:{path}")
        checks.holds("metrics: an answer", answered == 200 and "\npollrelay_loops " in told, told)
        checks.expect("metrics: status", 0, relay.stop()[0])
    checks.expect("metrics: what is left", [], os.listdir(folder))
    rules, taken = write(f"{folder}/rules", f"relay one unix:{folder}/listens tcp:127.0.0.1:1 never\n"), write(f"{folder}/taken", "")
    for admin, fault in ((f"{folder}/admin", b"cannot listen metrics\n"), (taken, b"cannot listen admin\n")):
        words = ["serve", "--rules", rules, "--admin", admin, "--metrics", f"unix:{taken}"]
        checks.expect(f"metrics: a path that is taken, {fault}", (3, b"", fault), run(words))
        checks.expect(f"metrics: what is left, {fault}", ["rules", "taken"], sorted(os.listdir(folder)))


def spread(checks, _):
    """Each of two loops copies for one of two streams, and for all connections there is one thread beside the loops."""
    accepts, target = listener()
    port = free_port()
    with accepts, Relay(f"relay one tcp:127.0.0.1:{port} {target} never\n", options=("--loops", "2")) as relay:
        pairs = []
        for _ in range(40):
            client = connect(f"tcp:127.0.0.1:{port}")
            client.sendall(b"x")
            taken, _ = accepts.accept()
            taken.recv(1)
            pairs.append((client, taken))
        checks.expect("spread: threads", 3, relay.threads())
        before = relay.nanoseconds()
        for client, taken in pairs[-2:]:
            sending = threading.Thread(target=client.sendall, args=(bytes(STREAM),))
            sending.start()
            left = STREAM
            while left > 0:
                left -= len(taken.recv(min(left, 1 << 20)))
            sending.join()
        grown = [now - then for now, then in zip(relay.nanoseconds(), before)]
        busy = sum(one > max(BUSY_NS, sum(grown) / 8) for one in grown)
        checks.holds("spread: threads that copied", busy == 2, f"{busy} of {grown}")
        for pair in pairs:
            for sock in pair:
                sock.close()


def asked_pairs(checks, _):
    """As many pairs stand as --connections asks for: fewer and more than without it. (`relay_rows` has the most.)"""
    allow_descriptors(DESCRIPTORS)
    so_many_pairs(checks, "3 pairs", 3, "--connections", "3")
    so_many_pairs(checks, "1,000 pairs", 1_000, "--connections=1000")


def silent_sessions(checks, folder):
    """A session that says nothing for a minute is ended; until then it keeps none waiting."""
    shim = library(f"{LIB}/fast_clock.c", f"{folder}/fast_clock.so")
    for fast, stays_seconds in ((1, 2.5), (20, 2.0)):
        with Relay("", env={"LD_PRELOAD": shim, "FAST": str(fast)}) as relay, connect(f"unix:{relay.admin}") as silent:
            began = time.monotonic()
            silent.sendall(b"list\nlist")
            checks.expect(f"silent {fast}: its whole line is answered", b"ids\n", heard(silent, stays_seconds))
            checks.expect(f"silent {fast}: it stays", None, heard(silent, stays_seconds / 2))
            checks.expect(f"silent {fast}: another is served", "ids", relay.ask("list"))
            if fast > 1:
                checks.expect(f"silent {fast}: its end", b"", heard(silent, REPLY_SECONDS))
                real = time.monotonic() - began
                checks.holds(f"silent {fast}: after a minute", 60 / fast - 0.1 < real < 60 / fast + 3, f"after {real * fast:.0f} s")


def many_sessions(checks, _):
    """Behind sessions that say nothing, that trickle and that read no reply another is answered at once; one beyond the most takes the place of the most silent."""
    with Relay("") as relay:
        held = [connect(f"unix:{relay.admin}") for _ in range(MOST_SESSIONS - 1)]
        for sock in held[::2]:
            sock.setblocking(False)
            try:
                sock.sendall(b"totals\n" * 100_000)
            except BlockingIOError:
                pass
        began = time.monotonic()
        for sock in held[1::2]:
            sock.sendall(b"l")
            checks.expect("many sessions: another is answered", b"ids\n", session(relay.admin, b"list\n"))
        took = time.monotonic() - began
        checks.holds("many sessions: none waits for another", took < HALF_A_MINUTE, f"{len(held[1::2])} in {took:.1f} s")
        held.append(connect(f"unix:{relay.admin}"))
        held[-1].sendall(b"list\n")
        checks.expect("many sessions: the last", b"ids\n", received(held[-1]))
        checks.expect("many sessions: one more", b"ids\n", session(relay.admin, b"list\n"))
        for sock in held:
            sock.close()


STAGES = {it.__name__: it for it in (
    command_lines, traces, verdicts, outputs, start_faults, start_pairs, poller_fault, refused_paths, admin_sessions, listings, stopped_and_gone,
    no_rule, sample_rules, sample_sessions, sample_metrics, metrics_at_a_path, spread,
    asked_pairs, silent_sessions, many_sessions, control, own_texts,
)}


def main():
    given, checks = options(__doc__, STAGES), Checks()
    run_stages(checks, STAGES, given.stages)
    return checks.end()


if __name__ == "__main__":
    sys.exit(main())
