#!/usr/bin/env python3
"""Hostile texts to the built program, by afl-fuzz.

    python3 tests/fuzz/fuzz.py [--minutes 10] [--keep] [trace | check | config | session | header]..
                                                  fuzzes each for so long, from the corpus on
    python3 tests/fuzz/fuzz.py --corpus           runs the corpus alone, some seconds
    python3 tests/fuzz/fuzz.py --planted          shows that a planted abort is found in each

trace    `pollrelay trace` with the text on standard input; the status is 0 or 1
check    `pollrelay check --rules` of the text; the status is 0 or 1
config   `pollrelay check --config` of the text; the status is 0 or 1, and what is printed is one line: the number of rules, or a fault that
         names a line and a column, or a key with its rule (fuzz_verdict.c)
session  the text is an admin session of a running relay; each line is answered as it may be (fuzz_session.c), and a relay that was told to
         stop or to finish ends with status 0
header   the text is what a client sends to a rule that awaits a header of the PROXY protocol; behind a good header all comes to the target,
         and any other client is ended (fuzz_header.c)

A crash, a run of 2 s or another status is a failure, and its text is kept in the folder that is named. A run that took 2 s by the clock is made again
alone, and is a hang if it takes 2 s of processor time. The program is run as it was built: a library that is loaded before the C library's
(fuzz_run.c) is afl-fuzz's fork server, has a process make many runs, and sets a breakpoint on each block of code, so that afl-fuzz learns which
texts reach new code: of a session and a header, code of the driver, which looks at each line and its reply, or at the header. With --keep
such texts go to the corpus. A program that has checks in place of proofs wants FUZZ_RUNS=1, and is slower by far. It needs gcc, binutils and
afl++: apt-get install gcc binutils afl++.
"""
import glob
import hashlib
import os
import resource
import shutil
import subprocess
import sys
import tempfile
import time

sys.path.insert(1, f"{sys.path[0]}/..")
from lib.checks import Checks
from lib.fuzz_target import HANG_MS, KEYS, Target, blocks_of
from lib.places import ROOT, TESTS
from lib.stages import options
from lib.waiting import wait_until

CORPUS = f"{TESTS}/fuzz/corpus"
MOST_BYTES = 4_096
OPERATIONS = "incref decref rlock wlock runlock wunlock rsignal wsignal rwake wwake close drain destroy".split()
NUMBERS = "0 1 2 01 64 65 262143 262144 67108863 67108864 16777217 4294967296 4503599627370494 4503599627370495 86400000 86400001".split()
# Of each key of a configuration some values are good, and some nearly so.
VALUES = [
    '"web"', '"30s"', '"500ms"', '"5m"', '"24h"', '"1441m"', '"never"', '"0s"', '"32767s"', '"32768s"', "true", "false",
    '"tcp:127.0.0.1:8080"', '"tcp:[::1]:443"', '"tcp:[fe80::1%2]:443"', '"tcp:localhost:80"', '"unix:/a"', '"unix:/' + "x" * 100 + '"',
    '"round-robin"', '"least-connections"', '"first"', '"source"', '"v1"', '"v2"', '"text"', '"json"', '"0660"',
    '"10.0.0.0/8"', '"2001:db8::/32"', '"::ffff:10.0.0.1"', '"0.0.0.0/0"', '"::/0"', '"10.0.0.0/33"', '"100/s"', '"30/m"', '"5/h"', '"1000001/h"',
    "0", "1", "64", "65", "100", "101", "50000", "50001", "65535", "65536", "-1", "1.5", "0x10", "0b1", "1_000", "inf", "nan",
    "9223372036854775807", "9223372036854775808", "1979-05-27T07:32:00Z", "07:32:00", "1979-05-27",
    '"""', "'''", "[]", "{}", "[[]]", "{ at = 1 }",
]
SIGNATURE = "\r\n\r\n\0\r\nQUIT\n"
TOKENS = {
    "trace": [*(f"{it}\n" for it in OPERATIONS), *NUMBERS, "+", " ", "\n", "\r\n"],
    "check": [
        "relay ", "web ", "tcp:", "unix:/", "tcp:127.0.0.1:", "255.255.255.255", "0.0.0.0", "65535", "65536", " never\n", " 86400000\n",
        "#", "\n", "\r\n", " ", ":", ".", "/", "relay a tcp:1.1.1.1:1 unix:/x never\n", "x" * 16, "x" * 17, "/" + "x" * 100, *NUMBERS,
    ],
    "config": [
        *(f"{it} = " for it in KEYS), *VALUES, "[[rule]]\n", "[rule]\n", "[admin]\n", "[log]\n", "[[rule.target]]\n", "[rule.health]\n", "rule.",
        "{ ", " }", "[", "]", ", ", "#", "\n", "\r\n", "\t", "\"", "'", "\\", "\\u00e9", "\\U0001F600", "\\x41", "\\e", "\u00c3\u00a9", "\u00e9",
        "\0", "\x7f", "=", ".", "x" * 17, "x" * 61,
    ],
    "session": [
        "list\n", "totals\n", "close ", "drain ", "drain 1\n", "show ", "show\n", "finish ", "show 1\n", "reload\n", "deadline ", " never\n", "quit\n", "stop\n", "\n", "\r\n", " ", "x" * 64, "x" * 65, *NUMBERS,
    ],
    "header": [
        SIGNATURE, *(f"{SIGNATURE}{it}" for it in ("\x20\0\0\0", "\x21\x11\0\x0c", "\x21\x21\0\x24", "\x21\x31\0\xd8", "\x21\x12\0\x0c", "\x21\0\x02\x08")),
        "PROXY ", "PROXY TCP4 ", "PROXY TCP6 ", "PROXY UNKNOWN", "TCP4", "TCP6", "UNKNOWN", "1.2.3.4 5.6.7.8 1 2", "::1 ::1 1 2", "203.0.113.7 ",
        "255.255.255.255", "0.0.0.0", "2001:db8::7 ", "::ffff:192.0.2.1", "::", "fe80::1%2", " 0", " 65535", " 65536", " 01", " ", "\r\n", "\r", "\n",
        "\0", "\x20", "\x21", "\x11", "\x22", "\x31", "\x32", "\x02\x08", "\x02\x09", "\x04\0\x03abc", "x" * 93, "x" * 94,
        "\0" * 12, "\0" * 36, "\0" * 108,
    ],
}
SEEDS = {
    "trace": [f"{ROOT}/examples/scripts/*.script"],
    "check": [f"{ROOT}/examples/rules/*.rules"],
    "config": [f"{ROOT}/examples/config/*.toml"],
    "session": [],
    "header": [],
}
PLANTED = {"trace": "65 wwake", "check": "255.255.255.255", "config": "1441m", "session": "262144", "header": "255.255.255.255"}
PLANTED_SECONDS = 300
# afl-fuzz makes a file of each text.
IN_MEMORY = "/dev/shm" if os.path.isdir("/dev/shm") else None


def content(path):
    with open(path, "rb") as file:
        return file.read()


def seeds(kind, folder):
    """A folder with the texts to begin with."""
    into = f"{folder}/seeds"
    os.makedirs(into, exist_ok=True)
    for at, path in enumerate(it for pattern in [*SEEDS[kind], f"{CORPUS}/{kind}/*"] for it in sorted(glob.glob(pattern))):
        if os.path.getsize(path) <= MOST_BYTES:
            shutil.copy(path, f"{into}/{at}")
    if not os.listdir(into):
        with open(f"{into}/empty", "wb") as file:
            file.write(b"list\n" if kind == "session" else b"\n")
    return into


def dictionary(kind, folder):
    path = f"{folder}/tokens"
    with open(path, "w", encoding="ascii") as file:
        for at, token in enumerate(TOKENS[kind]):
            text = "".join(f"\\x{byte:02X}" for byte in token.encode("latin-1"))
            file.write(f't{at}="{text}"\n')
    return path


def fuzz_words(target, folder, seconds):
    """The words of afl-fuzz."""
    words = ["afl-fuzz", "-i", seeds(target.kind, folder), "-o", f"{folder}/found", "-x", dictionary(target.kind, folder)]
    words += ["-t", str(HANG_MS), "-V", str(seconds), "-G", str(MOST_BYTES)]
    return [*words, "--", *target.words]


def fuzz_env(target, folder):
    env = {
        **os.environ, **target.env, "AFL_PRELOAD": target.library, "FUZZ_STATUSES": target.statuses, "AFL_NO_UI": "1", "AFL_SKIP_CPUFREQ": "1",
        "AFL_NO_AFFINITY": "1", "AFL_I_DONT_CARE_ABOUT_MISSING_CRASHES": "1", "AFL_SKIP_BIN_CHECK": "1",
        "AFL_HANG_TMOUT": str(HANG_MS), "FUZZ_BLOCKS": f"{folder}/blocks", "AFL_TMPDIR": f"{folder}/texts",
    }
    os.makedirs(env["AFL_TMPDIR"])
    # A byte for each block, in whole pages; afl-fuzz goes through all of them after each run.
    env["AFL_MAP_SIZE"] = str((blocks_of(target.words[0], env["FUZZ_BLOCKS"]) + 4096) & ~4095)
    return env


def stats_of(folder):
    """afl-fuzz's numbers by name."""
    paths = glob.glob(f"{folder}/found/default/fuzzer_stats")
    if not paths:
        return {}
    with open(paths[0], encoding="ascii", errors="replace") as file:
        return {name.strip(): value.strip() for name, value in (line.split(":", 1) for line in file if ":" in line)}


def fuzz(kind, folder, seconds, planted="", is_enough=lambda folder: False):
    """Runs afl-fuzz for so long, or until it is enough, and gives its numbers and what was wrong."""
    target = Target(kind, folder, planted)
    try:
        with open(f"{folder}/log", "wb") as log:
            words = fuzz_words(target, folder, seconds)
            process = subprocess.Popen(words, stdin=subprocess.DEVNULL, stdout=log, stderr=log, env=fuzz_env(target, folder))
            wait_until(lambda: process.poll() is not None or is_enough(folder), seconds + 120)
            if process.poll() is None:
                process.terminate()
            process.wait(30)
        hangs = [it for it in found(folder, "hangs") if hangs_alone(target, it)]
        return stats_of(folder), target.wrong(), hangs
    finally:
        target.close()


def found(folder, what):
    return [it for it in glob.glob(f"{folder}/found/default/{what}/*") if not it.endswith("README.txt")]


def keep(kind, folder):
    """Takes the texts that reached new code into the corpus, each under the front of its hash."""
    os.makedirs(f"{CORPUS}/{kind}", exist_ok=True)
    kept = 0
    for path in found(folder, "queue"):
        if "+cov" in path:
            text = content(path)
            name = f"{CORPUS}/{kind}/{hashlib.sha256(text).hexdigest()[:16]}"
            if not os.path.exists(name):
                kept += 1
                with open(name, "wb") as file:
                    file.write(text)
    return kept


def hangs_alone(target, path):
    """Whether a run of that text takes 2 s of processor time: beside other work any run may take so long by the clock."""
    if target.served is not None:
        return True
    seconds = HANG_MS // 1000
    with open(path, "rb") as stdin:
        words = [path if word == "@@" else word for word in target.words]
        limit = lambda: resource.setrlimit(resource.RLIMIT_CPU, (seconds, seconds))
        quiet = {"stdin": stdin, "stdout": subprocess.DEVNULL, "stderr": subprocess.DEVNULL}
        try:
            status = subprocess.run(words, **quiet, preexec_fn=limit, timeout=60 * seconds, check=False).returncode
        except subprocess.TimeoutExpired:
            return True
    return str(status) not in target.statuses


def hostile(checks, kinds, minutes, keeps):
    for kind in kinds:
        folder = tempfile.mkdtemp(prefix=f"fuzz-{kind}-", dir=IN_MEMORY)
        numbers, wrong, hangs = fuzz(kind, folder, int(60 * minutes))
        runs, seconds = int(numbers.get("execs_done", 0)), int(numbers.get("run_time", 0))
        crashes, slow = found(folder, "crashes"), len(found(folder, "hangs")) - len(hangs)
        checks.holds(f"{kind}: runs", runs > 10 * seconds > 0, f"{runs} in {seconds} s: see {folder}/log")
        checks.holds(f"{kind}: no crash and no other status", not crashes, f"{crashes[:3]}")
        checks.holds(f"{kind}: no run of {HANG_MS} ms", not hangs, f"{hangs[:3]}")
        checks.expect(f"{kind}: relays end by stop alone", [], wrong)
        kept = keep(kind, folder) if keeps else 0
        print(
            f"{kind}: {runs} runs in {seconds} s, {len(crashes)} crashes, {len(hangs)} hangs ({slow} runs of 2 s beside other work), "
            f"{len(found(folder, 'queue'))} texts in the queue, "
            f"code reached {numbers.get('bitmap_cvg', '-')}, {kept} kept",
            flush=True,
        )
        if not (crashes or hangs or wrong or not runs):
            shutil.rmtree(folder)


def corpus(checks, kinds):
    """Each text of the corpus has a right status."""
    for kind in kinds:
        texts = sorted(glob.glob(f"{CORPUS}/{kind}/*"))
        checks.holds(f"{kind}: texts", len(texts) > 0, "none")
        with tempfile.TemporaryDirectory(prefix="corpus-") as folder:
            target = Target(kind, folder)
            for path in texts:
                status = target.run(path)
                right = status is not None and str(status) in target.statuses
                checks.holds(f"{kind}: {os.path.basename(path)}", right, f"status {status}")
            checks.expect(f"{kind}: relays end by stop alone", [], target.wrong())
            target.close()


def planted(checks, kinds):
    """A program that aborts where it reads a certain text, which no seed has, is found out."""
    for kind in kinds:
        with tempfile.TemporaryDirectory(prefix="planted-") as folder:
            began = time.monotonic()
            text = PLANTED[kind].encode()
            checks.holds(f"{kind}: no seed has the planted text", not any(text in content(it) for it in glob.glob(f"{seeds(kind, folder)}/*")), "one has")
            numbers, _, _ = fuzz(kind, folder, PLANTED_SECONDS, PLANTED[kind], lambda folder: found(folder, "crashes"))
            crashes = found(folder, "crashes")
            checks.holds(f"{kind}: a planted abort is found", crashes, f"not in {numbers.get('execs_done')} runs")
            print(f"{kind}: a planted abort at {PLANTED[kind]!r} is found after {time.monotonic() - began:.0f} s", flush=True)


def main():
    chosen = options(__doc__, TOKENS, minutes=10.0, keep=False, corpus=False, planted=False)
    kinds, checks = chosen.stages or list(TOKENS), Checks()
    if chosen.corpus:
        corpus(checks, kinds)
    elif chosen.planted:
        planted(checks, kinds)
    else:
        hostile(checks, kinds, chosen.minutes, chosen.keep)
    return checks.end()


if __name__ == "__main__":
    sys.exit(main())
