#!/usr/bin/env python3
"""Shows that the checks of byte_conservation.py, relay_rows.py, relay_program.py and steering_storm.py fail where they should.

The stages of the first two run on wrong_relay.py, right at first and then wrong in one way after the other, and each time the
check that has to fail is looked for. The others run on the built program, while what they see of it is changed in one way after
the other: each check of the third has to fail at least once, and so does the one that is named for a change of the fourth. It
takes some minutes.

    python3 tests/system/planted_faults.py [FAULT..]
"""
import contextlib
import glob
import io
import os
import re
import subprocess
import sys
import time
from unittest import mock

sys.path.insert(1, f"{sys.path[0]}/..")
import relay_program
import relay_rows
import steering_storm
from lib.checks import Checks
from lib.places import TESTS
from lib.relay import Relay
from lib.stages import options, run_stages

HERE = f"{TESTS}/system"

# What wrong_relay.py does wrong, the stages and rows that are run on it, and the beginning of a check that has to fail.
PLANTED = [
    ("drops_a_byte", "whole", "whole: bytes"),
    ("turns_bytes_round", "whole", "whole: bytes"),
    ("repeats_a_front", "whole", "whole: bytes"),
    ("sends_other_bytes", "rough", "rough: bytes"),
    ("spoils_short_messages", "many hello", "many: short connections"),
    ("adds_a_byte_at_the_end", "hello", "hello: the end at the target"),
    ("closes_at_the_first_end", "whole", "whole: bytes"),
    ("keeps_the_other_half_open", "hello", "hello"),
    ("leaves_bytes_behind_a_stop", "read_stops", "read stops: bytes behind urgent data"),
    ("leaves_bytes_behind_a_stop", "read_stops", "read stops: bytes behind those with a descriptor"),
    ("leaves_the_end_behind_bytes", "read_stops", "read stops: the end behind them"),
    ("leaves_the_end_behind_bytes", "read_stops", "read stops: its end"),
    ("credits_what_it_read", "whole", "whole: totals after stop"),
    ("misses_a_credit", "whole", "whole: totals after stop"),
    ("misses_a_worker_that_failed", "whole rough", "rough: total up"),
    ("counts_down_twice", "rough", "rough: total down"),
    ("prints_other_totals", "whole drained many hello drains pairs", "whole: totals after stop"),
    ("idle_on_the_wrong_direction", "idle", "idle: silent from its start"),
    ("idle_is_never_set", "idle drained_in_time rough", "idle: silent after"),
    ("idle_counts_from_the_start", "idle", "idle: two-way traffic"),
    ("idle_of_either_way", "idle", "idle: the silent way"),
    ("deadlines_fire_late", "deadlines", "deadline: within 150 ms"),
    ("deadlines_fire_early", "deadlines drained_in_time", "deadline: not early"),
    ("never_lifts_nothing", "lifted", "deadline: lifted"),
    ("never_lifts_nothing", "lifted", "idle: lifted"),
    ("admin_deadline_stays", "lifted", "idle: set again"),
    ("listener_dies_at_a_deadline", "listeners", "listener: serves again"),
    ("listener_ignores_deadlines", "listeners", "listener: with a deadline"),
    ("dies_without_descriptors", "descriptors", "descriptors: served again"),
    ("ends_with_1", "descriptors drained drained_in_time", "descriptors: status"),
    ("one_listener_stops_all", "listeners", "listener: another rule"),
    ("closed_listener_accepts", "listeners", "listener: refuses"),
    ("closes_all_listeners", "listeners", "listener: the other one"),
    ("keeps_ids", "whole rough drained ids listeners drains drained_listeners pairs", "listener: out of the list"),
    ("keeps_the_other_side", "ids drains", "close: both ids go"),
    ("close_only_forgets", "ids drained_in_time", "close: the target sees"),
    ("dies_after_a_close", "ids", "list: after a close"),
    ("drain_is_forgotten", "drains", "drain: what the drained target says last"),
    ("drain_is_forgotten", "drained", "drained: bytes"),
    ("drain_ends_what_was_begun", "drains drained_listeners", "drain: a silent connection stays"),
    ("drain_ends_what_was_begun", "drained", "drained: bytes"),
    ("drain_drops_the_last_read", "drains", "drain: what the drained client says last"),
    ("drain_drops_the_last_read", "drained", "drained: bytes"),
    ("drain_drops_bytes_it_counts", "drained", "drained: bytes"),
    ("drains_twice", "drains drained_listeners", "drain of the target: drain again"),
    ("drained_takes_deadlines", "drains drained_listeners", "drain of the client: a deadline afterwards"),
    ("drains_both_sides", "drains", "drain: the other side has its deadlines"),
    ("dies_after_a_drain", "drained_listeners", "drain: another listener goes on"),
    ("drained_listener_ends_its_connections", "drained_listeners", "drain: the listener's connection stays"),
    ("drained_listener_accepts", "drained_listeners", "drain: the listener goes"),
    ("drained_listener_stays_open", "drained_listeners", "drain: the listener refuses"),
    ("uses_ids_again", "ids", "list: ids don't come again"),
    ("lists_a_thousand", "pairs", "pairs: ids"),
    ("skips_ids", "many_ids", "list: after 300 connections"),
    ("keeps_ids", "many_ids", "list: connections that went"),
    ("skips_ids", "ids", "list: a connection"),
    ("replies_otherwise", "ids lifted listeners drains drained_in_time drained_listeners", "close: again"),
    ("lists_backwards", "whole rough ids", "whole: what the admin session saw"),
    ("one_session_at_a_time", "sessions", "sessions: the next one is served"),
    ("ends_idle_sessions", "sessions", "sessions: the idle one stays"),
    ("takes_too_many_pairs", "pairs", "pairs: one more is dropped"),
    ("stalls_when_full", "pairs", "pairs: a full relay"),
    ("counts_pairs_up_alone", "pairs", "pairs: room again"),
    ("leaves_a_thread", "whole rough drained many", "many: threads"),
    ("leaves_a_descriptor", "whole rough drained many", "many: descriptors"),
    ("leaves_memory", "many", "many: memory"),
    ("leaves_its_paths", "whole rough drained many", "whole: Unix paths"),
    ("stops_late", "whole rough drained many drained_in_time pairs", "whole: stopped within 10 s"),
    ("ends_with_1", "whole rough many", "whole: status"),
]


def lines_of(fault, stages):
    """The statuses of the scripts that have these stages, or of both, and what they print about a relay with that fault."""
    rows = [it for it in stages if it in relay_rows.ROWS]
    others = [it for it in stages if it not in rows]
    env = {**os.environ, "POLLRELAY": f"{HERE}/wrong_relay.py", "RELAY_FAULT": fault}
    status, said = 0, ""
    for words, chosen in ((["byte_conservation.py", "--small", "--seed", "5"], others), (["relay_rows.py"], rows)):
        if chosen or not stages:
            words = ["timeout", "600", sys.executable, f"{HERE}/{words[0]}", *words[1:], "--all", *chosen]
            ran = subprocess.run(words, env=env, stdout=subprocess.PIPE, stderr=subprocess.STDOUT, text=True, check=False)
            status, said = status or ran.returncode, said + ran.stdout
    return status, said


def of_any_folder(name):
    """A check's name without the temporary folder."""
    return re.sub(r"/tmp/[a-z_]+-\w+", "..", name)


class WrongProcess(subprocess.Popen):
    """A process that writes a byte more, and whose status is one more."""

    def communicate(self, *words, **named):
        said = super().communicate(*words, **named)
        self.returncode += 1
        return tuple(text and text + b"x" if text != b"" else b"x" for text in said)

    def wait(self, *words, **named):
        return super().wait(*words, **named) + 1


class WrongRelay(Relay):
    """A relay whose first line has a space more."""

    def __init__(self, *words, **named):
        super().__init__(*words, **named)
        self.said += " "


def never_failed():
    """The checks of relay_program.py that passed, whatever was changed."""
    session, rest_of, text_of = relay_program.session, relay_program.rest_of, relay_program.text_of
    lexists, ids_shown = os.path.lexists, relay_program.ids_shown
    fast = mock.Mock(wraps=time, monotonic=lambda: 1_000 * time.monotonic())
    wrong = [
        mock.patch.object(subprocess, "Popen", WrongProcess),
        mock.patch.object(relay_program, "Relay", WrongRelay),
        mock.patch.object(relay_program, "session", lambda *words: session(*words).replace(b"\n", b" \n") or b"x"),
        mock.patch.object(relay_program, "rest_of", lambda sock: rest_of(sock) + b"x"),
        mock.patch.object(relay_program, "received", lambda sock: b""),
        mock.patch.object(relay_program, "text_of", lambda path: text_of(path) + "\nx"),
        mock.patch.object(os.path, "lexists", lambda path: not lexists(path)),
        mock.patch.object(os.path, "isfile", lambda path: False),
        mock.patch.object(os, "listdir", lambda path: ["x"]),
        mock.patch.object(relay_program, "ids_shown", lambda lines: ids_shown(lines)[::-1]),
        mock.patch.object(relay_program, "time", fast),
        mock.patch.object(relay_program, "scrape", lambda address: (500, "")),
        mock.patch.object(relay_program, "heard", lambda sock, seconds: b"x"),
        mock.patch.object(Relay, "ask", lambda relay, line: "x"),
        mock.patch.object(Relay, "nanoseconds", lambda relay: []),
        mock.patch.object(os, "lseek", lambda *_: 1),
        mock.patch.object(glob, "glob", lambda *_: []),
    ]
    # (what asked_pairs asks is shown on a wrong relay, by the row `pairs`)
    stages = {name: it for name, it in relay_program.STAGES.items() if name != "asked_pairs"}
    every, failed = set(), set()
    for change in wrong:
        checks = Checks()
        with change, contextlib.redirect_stdout(io.StringIO()):
            run_stages(checks, stages)
        every |= set(map(of_any_folder, checks.passed + checks.failed))
        failed |= set(map(of_any_folder, checks.failed))
    print(f"relay_program.py: {len(failed)} of {len(every)} checks were seen to fail, not {sorted(every - failed)}", flush=True)
    return sorted(every - failed)


def turned_round(send):
    """A client whose first two lines that differ in their words are answered in the other order."""
    def wrong(client, rng, count):
        asked = send(client, rng, count)
        other = next((at for at, it in enumerate(asked) if it.split()[0] != asked[0].split()[0]), 0)
        asked[0], asked[other] = asked[other], asked[0]
        return asked
    return wrong


def mixed_up(begin):
    """Clients of which every second one and the one before it have each other's replies."""
    before = []

    def wrong(client, admin):
        begin(client, admin)
        if before:
            other = before.pop()
            client.replies, other.replies = other.replies, client.replies
        else:
            before.append(client)
    return wrong


def listing_with(change):
    """A client whose listings are changed so."""
    reply = steering_storm.Client.reply
    return lambda client, asked: change(reply(client, asked)) if asked == "show" else reply(client, asked)


def other_totals(stop):
    def wrong(relay):
        status, (up, down), seconds = stop(relay)
        return status, (up + 1, down), seconds
    return wrong


def storms_not_seen():
    """The changes of what the storm sees of which no check of it tells."""
    client, missed = steering_storm.Client, []
    wrong = [
        ("two replies turned round", client, "send", turned_round(client.send), "storm: replies"),
        ("sessions mixed up", client, "__init__", mixed_up(client.__init__), "storm: replies"),
        ("a line shown twice", client, "reply", listing_with(lambda lines: lines[:1] + lines), "storm: replies"),
        ("a line left out", client, "reply", listing_with(lambda lines: lines[1:]), "storm: replies"),
        ("no last line", client, "reply", listing_with(lambda lines: lines[:-1]), "storm: replies"),
        ("other totals", Relay, "stop", other_totals(Relay.stop), "storm: sums of the log"),
    ]
    for name, where, what, change, check in wrong:
        checks = Checks()
        with mock.patch.object(where, what, change), contextlib.redirect_stdout(io.StringIO()):
            steering_storm.run(checks, 4_000, 5)
        print(f"{name}: {check if check in checks.failed else 'NOT SEEN'}", flush=True)
        missed += [] if check in checks.failed else [name]
    return missed


def names_of(said, verdict):
    """The checks with that verdict in what the scripts printed."""
    return {line.removeprefix(verdict).strip() for line in re.findall(rf"^{verdict}[^:]*:[^:]*", said, re.M)}


def main():
    chosen = options(__doc__, sorted({fault for fault, _, _ in PLANTED})).stages
    missed, every, failed = [], set(), set()
    if not chosen:
        status, said = lines_of("", [])
        print(f"a right relay: status {status}, {said.splitlines()[-1]}", flush=True)
        every |= names_of(said, "PASSED")
        missed += ["a right relay"] if status else []
    for fault, stages, check in PLANTED:
        if chosen and fault not in chosen:
            continue
        status, said = lines_of(fault, stages.split())
        found = [line for line in said.splitlines() if line.startswith(f"FAILED {check}")]
        print(f"{fault}, {stages}: {found[0][:110] if found else 'NOT SEEN'}", flush=True)
        failed |= names_of(said, "FAILED")
        if status == 0 or not found:
            missed.append(fault)
            print(said)
    if not chosen:
        print(f"of a relay: {len(every & failed)} of {len(every)} checks were seen to fail, not {sorted(every - failed)}", flush=True)
        missed += sorted(every - failed) + never_failed() + storms_not_seen()
    print(f"{len(missed)} not seen {missed}")
    return 1 if missed else 0


if __name__ == "__main__":
    sys.exit(main())
