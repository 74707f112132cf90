#!/usr/bin/env python3
"""A relay by a configuration: its verdicts, what it refuses, its settings beside those of the command line, and its reloads.

    python3 tests/system/configured.py [STAGE]..

verdicts  each faulty text has its line, of `check` on standard output and of `serve` on standard error, with status 1.
unserved  so has each key and value that this version doesn't carry out, of several the first in the written order.
statuses  words with both files or none, a file that isn't there, no admin socket.
served    bytes go through, by the sample too, and settings of the file are in force.
options   an option of the command line wins over its key, and standard error says so; one without a key says nothing.
reloads   a reload changes a target; a refused one changes nothing and is answered with its line; a key that needs a restart is told.
signal    HUP to the wrapper has the configuration read again.
converted the configuration of a rules file says the same rules, by Python's own reader of TOML too; a bad rules file has its verdict.
memory    each allocation of `check`, of a start and of a reload is refused in turn: each says so, and a relay that runs goes on.
"""
import os
import random
import signal
import subprocess
import sys
import tomllib
from glob import glob

sys.path.insert(1, f"{sys.path[0]}/..")
from lib.c_code import library
from lib.checks import Checks
from lib.metrics import scrape
from lib.places import LIB, PROGRAM, ROOT
from lib.relay import Relay, StartFault, allow_descriptors
from lib.signals import hear_all
from lib.sockets import connect, free_port, listener, some_address
from lib.stages import options, run_stages
from lib.talk import both_ways
from lib.waiting import wait_until

SAMPLE = f"{ROOT}/examples/config/relay.toml"
WAIT_SECONDS = 20
# A rule that is good, and its head alone.
RULE = '[[rule]]\nname = "web"\nlisten = ["unix:/a"]\ntarget = [{ at = "unix:/b" }]\n'
HEAD = '[[rule]]\nname = "web"\n'
ENDS = 'listen = ["unix:/a"]\ntarget = [{ at = "unix:/b" }]\n'
TIME = "is no time (as 500ms, 30s, 5m, 2h, at most a day; or never)"
LISTEN = "is no address to listen at (as tcp:0.0.0.0:443, tcp:[::]:443, unix:/run/x.sock)"
ADDRESS = "is no address (as tcp:10.0.0.1:443, tcp:[::1]:443, unix:/run/x.sock)"
CHECKS = "is not a table ({ every = .., timeout = .., fall = .., rise = .. })"
NETWORK = "is no network (as 10.0.0.0/8, 2001:db8::/32, 10.0.0.1)"
MODE = "is no mode (0 and three octal digits, as 0660)"
NAME = 'is no name (a letter, then letters, digits and "-", all small, at most 16)'
# Lists that let the clients of these tests in.
LISTS = 'allow = ["127.0.0.0/8", "2001:db8::/32"]\ndeny = ["10.0.0.0/8"]\nconnections_per_source = 100\naccepts_per_source = "1000000/s"\n'
# A text as a new operator may write it, and what is said of it behind `bad config: `.
FAULTS = (
    ("admin = /run/relay.sock\n", "line 1, column 9: no TOML: invalid value, expected a string, number, boolean, date-time, array or inline table"),
    ('relay web tcp:127.0.0.1:8080 unix:/run/app.sock 30000\n', "line 1, column 7: no TOML: key with no value, expected `=`"),
    ('loops = 2\nloops = 3\n', "line 2, column 1: no TOML: duplicate key"),
    ('connection = 5\n', 'unknown key "connection"; "connections" is meant?'),
    ('connect-timeout = "5s"\n', 'unknown key "connect-timeout"; "connect_timeout" is meant?'),
    ('rules = []\n', 'unknown key "rules"; "rule" is meant?'),
    ("connections = 0\n", "connections: 0 is not from 1 to 50000"),
    ("connections = 50001\n", "connections: 50001 is not from 1 to 50000"),
    ('connections = "512"\n', 'connections: "512" is not a whole number'),
    ("connections_per_rule = 1.5\n", "connections_per_rule: a number with a fraction is not a whole number"),
    ("connect_timeout = 5000\n", "connect_timeout: 5000 is not a text in quotes"),
    ('connect_timeout = "5"\n', f'connect_timeout: "5" {TIME}'),
    ("loops = 65\n", "loops: 65 is not from 1 to 64"),
    ('replace_stale = "yes"\n', 'replace_stale: "yes" is not true or false'),
    ('metrics = "127.0.0.1:9464"\n', f'metrics: "127.0.0.1:9464" {LISTEN}'),
    ('admin = ""\n', 'admin: "" is no path of a socket (1 to 100 bytes)'),
    ('admin = { path = "/a", mode = "0688" }\n', f'admin: mode: "0688" {MODE}'),
    ('admin = { path = "/a", mode = 432 }\n', "admin: mode: 432 is not a text in quotes"),
    ("log = true\n", "log: true is not a path in quotes or a table ({ file = .., format = .. })"),
    ('log = { file = "-", format = "xml" }\n', 'log: format: "xml" is none of "text", "json"'),
    ('log = { file = "-", format = 5 }\n', "log: format: 5 is not a text in quotes"),
    ('log = { file = "-", formt = "json" }\n', 'log: unknown key "formt"; "format" is meant?'),
    ('log = { format = "json" }\n', "log: file is missing"),
    ('log = { file = "", format = "xml" }\n', 'log: file: "" is no path of a file (1 to 4095 bytes; - is standard error)'),
    ('[rule]\nname = "web"\n', "rule: a table is not a list of tables ([[rule]])"),
    (HEAD, 'rule "web": listen is missing'),
    ('[[rule]]\nlisten = ["unix:/a"]\n', "rule 1: name is missing"),
    ('[[rule]]\nname = "Web"\n', f'rule "Web": name: "Web" {NAME}'),
    (RULE + RULE, 'rule "web": name: "web" is the name of a rule before it'),
    (RULE + RULE.replace("web", "ssh"), 'rule "ssh": listen 1: "unix:/a" is listened at already'),
    (RULE.replace('["unix:/a"]', '"unix:/a"'), 'rule "web": listen: "unix:/a" is not a list of texts'),
    (RULE.replace("unix:/a", "tcp:127.0.0.1"), f'rule "web": listen 1: "tcp:127.0.0.1" {LISTEN}'),
    (RULE.replace("unix:/b", "tcp:127.0.0.1:0"), f'rule "web": target 1: at: "tcp:127.0.0.1:0" {ADDRESS}'),
    (RULE.replace('[{ at = "unix:/b" }]', '"unix:/b"'), 'rule "web": target: "unix:/b" is not a list of tables ([[rule.target]])'),
    (RULE.replace("at =", "to ="), 'rule "web": target 1: unknown key "to"; "at" is meant?'),
    (HEAD + "idle = 30\n" + ENDS, 'rule "web": idle: 30 is not a text in quotes'),
    (HEAD + 'idle = "30x"\n' + ENDS, f'rule "web": idle: "30x" {TIME}'),
    (HEAD + 'idle = "3\\n0\\u0007"\n' + ENDS, f'rule "web": idle: "3\\n0\\u{{7}}" {TIME}'),
    (RULE.replace('[{ at = "unix:/b" }]', "[]"), 'rule "web": target: the list is empty'),
    (RULE.replace('"unix:/b"', '"unix:/b", weight = 65536'), 'rule "web": target 1: weight: 65536 is not from 0 to 65535'),
    (RULE.replace('"unix:/b"', '"unix:/b", backup = "yes"'), 'rule "web": target 1: backup: "yes" is not true or false'),
    (HEAD + 'balance = "random"\n' + ENDS, 'rule "web": balance: "random" is none of "round-robin", "least-connections", "first", "source"'),
    (HEAD + 'health = "2s"\n' + ENDS, f'rule "web": health: "2s" {CHECKS}'),
    (HEAD + "health = { every = 2 }\n" + ENDS, 'rule "web": health: every: 2 is not a text in quotes'),
    (HEAD + "health = { fall = 101 }\n" + ENDS, 'rule "web": health: fall: 101 is not from 1 to 100'),
    (HEAD + "health = { raise = 2 }\n" + ENDS, 'rule "web": health: unknown key "raise"; "rise" is meant?'),
    (HEAD + 'allow = "10.0.0.0/8"\n' + ENDS, 'rule "web": allow: "10.0.0.0/8" is not a list of texts'),
    (HEAD + "allow = []\n" + ENDS, 'rule "web": allow: the list is empty'),
    (HEAD + 'allow = ["10.0.0.0/8", "10.0.0/8"]\n' + ENDS, f'rule "web": allow 2: "10.0.0/8" {NETWORK}'),
    (HEAD + 'deny = ["10.0.0.0/33"]\n' + ENDS, f'rule "web": deny 1: "10.0.0.0/33" {NETWORK}'),
    (HEAD + 'deny = ["app.internal"]\n' + ENDS, f'rule "web": deny 1: "app.internal" {NETWORK}'),
    *((HEAD + f'mode = "{mode}"\n' + ENDS, f'rule "web": mode: "{mode}" {MODE}') for mode in ("", "660", "0o660", "1660", "00660", "0888", "rw-rw----")),
    (HEAD + "mode = 0o660\n" + ENDS, 'rule "web": mode: 432 is not a text in quotes'),
    (HEAD + 'modes = "0660"\n' + ENDS, 'rule "web": unknown key "modes"; "mode" is meant?'),
    (HEAD + 'alow = ["10.0.0.0/8"]\n' + ENDS, 'rule "web": unknown key "alow"; "allow" is meant?'),
    ("#" * 1_048_577, "more than 1048576 bytes"),
)
# A text with what isn't carried out, and the place that is named.
UNSERVED = (
    ('metrics = "unix:/' + 100 * "m" + '"\n', "metrics"),
    (RULE.replace('["unix:/a"]', '["unix:/a", "unix:/c", "unix:/' + 100 * "d" + '"]'), 'rule "web": listen 3'),
    (RULE.replace("unix:/a", "unix:/" + 100 * "a"), 'rule "web": listen 1'),
    (RULE.replace("unix:/b", "unix:/" + 100 * "b"), 'rule "web": target 1: at'),
    (RULE.replace('{ at = "unix:/b" }', '{ at = "unix:/b" }, { at = "unix:/' + 100 * "c" + '" }'), 'rule "web": target 2: at'),
    (RULE.replace('{ at = "unix:/b" }', 63 * '{ at = "tcp:app.internal:80" }, ' + '{ at = "unix:/' + 100 * "c" + '" }'), 'rule "web": target 64: at'),
    ("".join(RULE.replace("web", f"r{n}").replace("/a", f"/{n}") for n in range(65)), "rule 65"),
    # Of several the first: keys of the whole ahead of rules, and the text's own faults ahead of all.
    (RULE.replace("unix:/a", "unix:/" + 100 * "a").replace("unix:/b", "unix:/" + 100 * "b"), 'rule "web": listen 1'),
    ('metrics = "unix:/' + 100 * "m" + '"\n' + RULE.replace("unix:/a", "unix:/" + 100 * "a"), "metrics"),
)
# Rules of several targets, of such that are checked, that are sent a header, and whose hosts are named; rules whose clients begin with a
# header; rules with several addresses, with options of sockets, and with limits of their own and of a source.
TARGETS = (
    *(RULE.replace('["unix:/a"]', f'[{", ".join(addresses)}]') for addresses in (
        ('"unix:/a"', '"tcp:[::]:443"', '"tcp:0.0.0.0:443"'), [f'"unix:/{n}"' for n in range(16)],
    )),
    *(HEAD + f"{key} = {value}\n" + ENDS for key, value in (
        ("keepalive", '"1s"'), ("keepalive", '"32767s"'), ("user_timeout", '"1ms"'), ("user_timeout", '"24h"'), ("backlog", "1"), ("backlog", "65535"),
        ("source", '"127.0.0.1"'), ("source", '"2001:db8::1"'), ("resolve", '"1ms"'), ("resolve", '"24h"'), ("resolve", '"never"'),
        ("mode", '"0000"'), ("mode", '"0777"'),
    )),
    'admin = { path = "/b", mode = "0600" }\n' + RULE, HEAD + 'listen = ["tcp:0.0.0.0:443"]\ntarget = [{ at = "unix:/b" }]\nmode = "0660"\n',
    RULE.replace("unix:/b", "tcp:app.internal:80"), RULE.replace("unix:/b", "tcp:" + "a" * 63 + ":65535"),
    RULE.replace('{ at = "unix:/b" }', ", ".join(64 * ['{ at = "tcp:app.internal:80", weight = 2, backup = true }'])),
    HEAD + "connections = 1\n" + ENDS, HEAD + "connections = 50000\n" + ENDS,
    *(HEAD + f"{key} = {value}\n" + ENDS for key, value in (
        ("connections_per_source", "1"), ("connections_per_source", "50000"), ("accepts_per_source", '"1/s"'), ("accepts_per_source", '"1000000/m"'), ("accepts_per_source", '"5/h"'),
    )),
    *(HEAD + f"health = {keys}\n" + ENDS for keys in ("{}", '{ every = "1ms", timeout = "24h", fall = 1, rise = 100 }', "{ rise = 1 }")),
    RULE.replace('{ at = "unix:/b" }', '{ at = "unix:/b", weight = 2 }, { at = "unix:/b" }, { at = "unix:/c", backup = true }'),
    RULE.replace('"unix:/b"', '"unix:/b", weight = 0'), RULE.replace('"unix:/b"', '"unix:/b", backup = true'),
    RULE.replace('{ at = "unix:/b" }', ", ".join(64 * ['{ at = "unix:/b", weight = 65535 }'])),
    *(HEAD + f"proxy_protocol = {keys}\n" + ENDS for keys in (
        '{ to_target = "v1" }', '{ to_target = "v2" }', "{}", '{ from_client = ["0.0.0.0/0"] }', '{ to_target = "v2", from_client = ["::1", "10.0.0.1"] }',
    )),
    *(HEAD + f'balance = "{word}"\n' + ENDS for word in ("round-robin", "least-connections", "first", "source")),
)
# Addresses of IPv6, one with the number of a scope.
SIX = 'metrics = "tcp:[::1]:9464"\n' + RULE.replace("unix:/a", "tcp:[fe80::1%2]:80").replace("unix:/b", "tcp:[2001:db8::1]:443")
# What means the same as without the key.
WITHOUT_MEANING = (
    "admin = { path = \"/a\" }\nlog = { file = \"-\", format = \"text\" }\n" + HEAD
    + 'idle = "never"\nresolve = "30s"\nkeepalive = "never"\nuser_timeout = "never"\nbalance = "source"\n'
    + ENDS.replace('"unix:/b"', '"unix:/b", weight = 1, backup = false')
)


def run(*words, env=None):
    """The status, standard output and standard error of the program, which has to end by itself."""
    ran = subprocess.run(
        [PROGRAM, *words], stdin=subprocess.DEVNULL, capture_output=True, timeout=WAIT_SECONDS, check=False,
        env={**os.environ, **(env or {})}, preexec_fn=allow_descriptors,
    )
    return ran.returncode, ran.stdout.decode(), ran.stderr.decode()


def written(folder, text):
    with open(f"{folder}/config", "w", encoding="utf-8") as file:
        file.write(text)
    return f"{folder}/config"


def refused(checks, folder, text, why):
    """A text of which this is said, by each command."""
    path = written(folder, text)
    line = f"bad config: {why}\n"
    checks.expect(f"check: {line.strip()}", (1, line, ""), run("check", "--config", path))
    checks.expect(f"serve: {line.strip()}", (1, "", line), run("serve", "--config", path, "--admin", f"{folder}/admin.sock"))
    checks.holds(f"what is left by: {line.strip()}", not os.path.exists(f"{folder}/admin.sock"), "an admin socket")


def verdicts(checks, folder):
    for text, why in FAULTS:
        refused(checks, folder, text, why)
    two = RULE + RULE.replace("web", "ssh").replace("/a", "/c")
    json_log = 'log = { file = "-", format = "json" }\n'
    for text, count in (("", 0), (RULE, 1), (json_log, 0), (WITHOUT_MEANING, 1), (two, 2), (SIX, 1), *((text, 1) for text in TARGETS)):
        checks.expect(f"check: {count} rules", (0, f"rules {count}\n", ""), run("check", "--config", written(folder, text)))


def unserved(checks, folder):
    for text, place in UNSERVED:
        refused(checks, folder, text, f"{place}: this version doesn't serve it")
    faulty = HEAD.replace("unix:/a", "unix:/" + 100 * "a") + 'idle = "30x"\n' + ENDS
    refused(checks, folder, faulty, f'rule "web": idle: "30x" {TIME}')


def statuses(checks, folder):
    path, bad = written(folder, RULE), (2, "", "bad command line\n")
    for words in (
        ["check"], ["serve"], ["check", "--config", path, "--rules", path], ["serve", "--config", path, "--rules", path],
        ["serve", "--rules", path], ["serve", "--config", path, "--config", path], ["check", "--config", path, "--admin", "/a"],
    ):
        checks.expect(f"words {words}", bad, run(*words))
    for command in ("check", "serve"):
        checks.expect(f"{command}: no file", (3, "", "cannot read config\n"), run(command, "--config", f"{folder}/none"))
        checks.expect(f"{command}: a folder", (3, "", "cannot read config\n"), run(command, "--config", folder))
    told = "bad config: admin is missing, and no --admin is given\n"
    checks.expect("serve: no admin socket", (1, "", told), run("serve", "--config", path))


def config(port, target, more="", head=""):
    """A configuration of one rule with this target, with more keys of the whole, and of the rule."""
    rule = f'[[rule]]\nname = "web"\nlisten = ["tcp:127.0.0.1:{port}"]\ntarget = [{{ at = "{target}" }}]\n'
    return f'admin = "{{folder}}/admin.sock"\n{more}{rule}{head}'


def reaches(port, target):
    """Whether a client of the port is connected to this listener."""
    with connect(f"tcp:127.0.0.1:{port}") as client:
        target.settimeout(WAIT_SECONDS)
        with target.accept()[0] as served:
            return both_ways(client, served)


def target_at(folder, name):
    return listener(f"{folder}/{name}")


def served(checks, folder):
    port, figures = free_port(), some_address()
    target, at = target_at(folder, "target")
    text = config(port, at, f'loops = 3\nconnections = 77\nmetrics = "{figures}"\nlog = "{{folder}}/log"\n', 'idle = "1h"\n')
    with Relay(text, form="config") as relay:
        checks.expect("it listens", "listening 1\n", relay.said)
        checks.holds("bytes go through", reaches(port, target), "none pass")
        shown = scrape(figures, timeout=WAIT_SECONDS)[1]
        for line in ("pollrelay_loops 3", "pollrelay_connections_limit 77"):
            checks.holds(line, f"\n{line}\n" in shown, "isn't shown")
        checks.expect("its end", 0, relay.stop()[0])
        with open(f"{relay.folder}/log", encoding="utf-8") as file:
            checks.holds("its log has a line", " web " in file.read(), "it has none")
    checks.expect("the sample", (0, "rules 6\n", ""), run("check", "--config", SAMPLE))
    target.close()


def told_at_start(text, *words):
    """What a relay says on standard error at its start, and its figures of loops."""
    figures = some_address()
    with Relay(text, form="config", env={}, options=("--metrics", figures, *words)) as relay:
        shown = scrape(figures, timeout=WAIT_SECONDS)[1]
        relay.stop()
        return relay.errors(), next(it for it in shown.splitlines() if it.startswith("pollrelay_loops "))


def options_win(checks, folder):
    text = config(free_port(), f"unix:{folder}/none", "loops = 3\n")
    checks.expect("no option", ("", "pollrelay_loops 3"), told_at_start(text))
    line = "--loops is in force, not loops of the config\n"
    checks.expect("an option", (line, "pollrelay_loops 2"), told_at_start(text, "--loops", "2"))
    checks.expect("an option alone", ("", "pollrelay_loops 3"), told_at_start(text, "--connections", "5"))
    every = (
        ("connections", "5", "--connections=6"), ("connections_per_rule", "5", "--connections-per-rule=6"),
        ("connect_timeout", '"5s"', "--connect-timeout=6"), ("replace_stale", "false", "--replace-stale"),
        ("log", '"/dev/null"', f"--log={folder}/log"), ("log", '{ file = "/dev/null", format = "json" }', f"--log={folder}/log"),
        ("metrics", '"unix:/none/m"', None), ("admin", None, None),
    )
    for key, value, option in every:
        more = f"{key} = {value}\n" if value else ""
        words = {"metrics": (), "admin": ("--admin", f"{folder}/other.sock")}.get(key, (option,))
        said = steered_elsewhere(text + "", words) if key == "admin" else told_at_start(config(free_port(), f"unix:{folder}/none", more), *words)[0]
        name = key.replace("_", "-")
        checks.expect(f"--{name}", f"--{name} is in force, not {key} of the config\n", said)


def steered_elsewhere(text, words):
    """What a relay says whose admin socket an option names."""
    with Relay(text, form="config", env={}, options=words) as relay:
        relay.admin = words[1]
        relay.stop()
        return relay.errors()


def reloads(checks, folder):
    port, (first, one), (second, other) = free_port(), target_at(folder, "one"), target_at(folder, "other")
    with Relay(config(port, one), form="config", env={}) as relay:
        checks.holds("before", reaches(port, first), "no bytes pass")
        relay.write(config(port, other))
        checks.expect("a reload", "rules 1", relay.ask("reload"))
        checks.holds("the new target", reaches(port, second), "no bytes pass")
        for text, reply in (
            (config(port, one, "", "region = 1\n"), 'bad config: rule "web": unknown key "region"'),
            (config(port, "unix:/" + 100 * "b"), 'bad config: rule "web": target 1: at: this version doesn\'t serve it'),
            (config(port, one, "loops = 0\n"), "bad config: loops: 0 is not from 1 to 64"),
        ):
            relay.write(text)
            checks.expect("a refused reload", reply, relay.ask("reload"))
            checks.expect("its status", 1, run("ctl", "--admin", relay.admin, "reload")[0])
            checks.holds("the target stays", reaches(port, second), "no bytes pass")
        os.remove(f"{relay.folder}/config")
        checks.expect("no file", "cannot read rules", relay.ask("reload"))
        checks.expect("nothing is told so far", "", relay.errors())
        relay.write(config(port, one, 'loops = 5\nconnections = 9\nlog = { file = "/none/log", format = "json" }\n'))
        checks.expect("new keys", "rules 1", relay.ask("reload"))
        checks.holds("the target of before", reaches(port, first), "no bytes pass")
        told = "".join(f"reload: {key} has changed, and needs a restart\n" for key in ("connections", "loops", "log", "format"))
        checks.expect("what needs a restart", told, relay.errors())
        checks.expect("its end", 0, relay.stop()[0])
    first.close()
    second.close()


def by_signal(checks, folder):
    port, (first, one), (second, other) = free_port(), target_at(folder, "one"), target_at(folder, "other")
    admin = f"{folder}/admin.sock"
    text = config(port, one).partition("\n")[2]
    wrapper = ("sh", f"{ROOT}/packaging/pollrelay-run")
    with Relay(text, form="config", env={}, wrapper=wrapper, options=("--admin", admin)) as relay:
        relay.admin = admin
        checks.holds("before", reaches(port, first), "no bytes pass")
        relay.write(config(port, other).partition("\n")[2])
        relay.process.send_signal(signal.SIGHUP)
        checks.holds("the reply", wait_until(lambda: "rules 1" in relay.errors(), WAIT_SECONDS), relay.errors())
        checks.holds("the new target", reaches(port, second), "no bytes pass")
        relay.stop()
    first.close()
    second.close()


# What a time of a configuration is, in milliseconds.
UNITS = {"ms": 1, "s": 1_000, "m": 60_000, "h": 3_600_000}
RULES_FILES = 60


def ms_of(time):
    """The milliseconds of a text; a rule without one is never idle."""
    if time is None:
        return "never"
    digits = time.rstrip("hms")
    return str(int(digits) * UNITS[time[len(digits):]])


def rules_said(text):
    """The lines of a rules file that says what the configuration says."""
    rules = tomllib.loads(text).get("rule", [])
    return [f"relay {it['name']} {it['listen'][0]} {it['target'][0]['at']} {ms_of(it.get('idle'))}" for it in rules
            if len(it["listen"]) == len(it["target"]) == 1 and set(it["target"][0]) == {"at"}]


def some_rules(chance):
    """The lines of a rules file, with the longest names and paths, and each byte that a path may have."""
    lines = []
    for number in range(chance.choice((0, 1, 2, 64))):
        path = "/" + "".join(chr(chance.randrange(33, 127)) for _ in range(chance.choice((1, 20, 99 - len(str(number)))))) + str(number)
        ends = [f"tcp:{chance.randrange(256)}.0.0.{number}:{chance.choice((1, 80, 65535))}", f"unix:{path[-100:]}"]
        chance.shuffle(ends)
        name = f"{'r' * chance.choice((1, 14))}{number}"
        lines.append(f"relay {name} {ends[0]} {ends[1]} {chance.choice(('never', 1, 999, 1000, 60000, 90000, 3600000, 86400000))}")
    return lines


def converted(checks, folder):
    """Samples, and rules files of the largest kind."""
    chance = random.Random(17)
    samples = sorted(glob(f"{ROOT}/examples/rules/*.rules"))
    bad = [path for path in samples if run("check", "--rules", path)[0] != 0]
    files = [open(path, encoding="utf-8").read() for path in samples if path not in bad]
    files += ["".join(line + "\n" for line in some_rules(chance)) for _ in range(RULES_FILES)]
    for path in bad:
        checks.holds(f"{path}: its verdict", run("convert", "--rules", path) == run("check", "--rules", path), "")
    for number, text in enumerate(files):
        rules = [line for line in text.splitlines() if line and not line.startswith("#")]
        status, printed, errors = run("convert", "--rules", written(folder, text))
        checks.holds(f"rules file {number}: converted", (status, errors) == (0, ""), f"{status}, {errors!r}")
        checks.holds(f"rules file {number}: says the same", rules_said(printed) == rules, f"{rules_said(printed)} for {rules}")
        verdict = run("check", "--config", written(folder, printed))
        checks.holds(f"rules file {number}: is served", verdict == (0, f"rules {len(rules)}\n", ""), f"{verdict}")
    for text, line in (("relay web\n", "bad rules: line 1\n"), ("#" * 65_537, "bad rules: too long\n")):
        said = run("convert", "--rules", written(folder, text))
        checks.holds(f"{text[:9]!r}: its verdict", said == (1, line, ""), f"{said}")
    said = run("convert", "--rules", f"{folder}/none")
    checks.holds("no file: told", said == (3, "", "cannot read rules\n"), f"{said}")


def refusing(folder, number):
    made = f"{folder}/refuse_nth.so"
    if not os.path.exists(made):
        library(f"{LIB}/refuse_nth.c", made)
    return {"LD_PRELOAD": made, "REFUSE": str(number)}


def said_in(errors):
    """What the program said, and whether an allocation was refused."""
    return errors.replace("[refused]\n", ""), "[refused]\n" in errors


def memory(checks, folder):
    # (the file of a fault takes memory for its words too)
    for name, text, whole in (("good", RULE + LISTS, (0, "rules 1\n")), ("bad", RULE + "region = 1\n", (1, 'bad config: rule "web": unknown key "region"\n'))):
        path = written(folder, text)
        for number in range(1, 2_000):
            status, printed, errors = run("check", "--config", path, env=refusing(folder, number))
            said, was_refused = said_in(errors)
            is_right = (status, printed) == whole or (status, printed, said) == (3, "", "relay fault: memory\n")
            checks.holds(f"check, {name}: allocation {number}", is_right, f"{status}, {printed!r}, {said!r}")
            if not was_refused:
                break
        checks.holds(f"check, {name}: refusals", number > 20, f"{number}")
    starts(checks, folder)


def starts(checks, folder):
    """Each allocation of a start and of a reload behind it."""
    port, (target, at) = free_port(), target_at(folder, "target")
    for number in range(1, 3_000):
        try:
            with Relay(config(port, at, "", LISTS), form="config", env=refusing(folder, number)) as relay:
                was_refused = reload_refused(checks, relay, port, target, number)
        except StartFault as fault:
            said, was_refused = said_in(fault.errors)
            is_right = fault.status == 3 and said in ("relay fault: memory\n", "cannot listen web\n", "cannot listen admin\n", "relay fault: device\n")
            checks.holds(f"start: allocation {number}", is_right and not fault.left, f"{fault.status}, {said!r}, {fault.left}")
        if not was_refused:
            break
    checks.holds("start: refusals", 50 < number < 2_999, f"{number}")
    target.close()


def reload_refused(checks, relay, port, target, number):
    """A relay that has started goes on, whatever its reload was answered; whether anything was refused so far."""
    replies = []
    for _ in range(4):
        try:
            replies.append(relay.ask("reload"))
        except (OSError, EOFError):
            replies.append("")
    checks.holds(f"reload: allocation {number}", "rules 1" in replies and set(replies) <= {"rules 1", "", "error 507 out of memory"}, f"{replies}")
    for _ in range(4):
        try:
            if reaches(port, target):
                break
        except OSError:
            pass
    else:
        checks.holds(f"client: allocation {number}", False, "none is served")
    relay.process.terminate()
    relay.process.kill()
    relay.process.wait()
    return said_in(relay.errors())[1]


STAGES = {
    "verdicts": verdicts, "unserved": unserved, "statuses": statuses, "served": served, "options": options_win, "reloads": reloads,
    "signal": by_signal, "converted": converted, "memory": memory,
}


def main():
    given = options(__doc__, STAGES)
    allow_descriptors()
    hear_all()
    checks = Checks()
    run_stages(checks, STAGES, given.stages)
    return checks.end()


if __name__ == "__main__":
    sys.exit(main())
