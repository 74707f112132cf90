#!/usr/bin/env python3
"""Tests of pages.py: each row plants a text in a page or in the code, and the check has to tell it where it told nothing before."""
import re
import unittest
from unittest import mock

import pages
from lib.pages import kit, tools
from lib.pages.links import CHANGES
from lib.pages.tree import GUIDE, HELP, MAN, TRUSTED, UNIT, Tree

COMMAND_LINE, ADMIN = "crates/relay_command/src", "crates/relay_admin/src"
TEXTFILE = "examples/prometheus/pollrelay_textfile.py"
MEASURED, FORMAT, README = "docs/performance.md", "docs/admin-protocol.md", "README.md"
TABLE = "\n| Promise | Contract that carries it | How far |\n|---|---|---|\n"
# The subject, the file, what stands there as a regular expression, what comes in its place, and what has to be told. Where nothing
# stands there the text is put behind the file's.
END = None
ROWS = (
    # What differs between the code and its pages.
    ("options", f"{COMMAND_LINE}/grammar.rt", r'optional\(alloc, "log"\)', 'optional(alloc, "log"))?.arg(optional(alloc, "burst")', "the option `--burst`"),
    ("options", f"{COMMAND_LINE}/grammar.rt", r'"loops"', '"threads"', "lacks or has too much: ['loops', 'threads']"),
    ("options", GUIDE, END, "\nSay `serve --burst 9`.\n", "an option `--burst`, which the code has not"),
    ("options", "docs/crates.md", r"`ctl`, ", "", "the program's row lacks or has too much: ['ctl']"),
    ("options", HELP, r"--metrics", "--figures", "the option `--metrics`"),
    ("admin", f"{ADMIN}/admin/command.rt", r'b"stop"', 'b"halt"', "the admin command `halt`"),
    ("admin", FORMAT, END, "\n`close ID MS`\n", "the command takes 1 words"),
    ("replies", f"{ADMIN}/admin/reply_text.rt", r"error 409 busy", "error 410 gone", "the reply `error 410 gone`"),
    ("replies", f"{ADMIN}/admin/shown.rt", r'" quiet "', '" silent "', "a reply to `show` isn't"),
    ("replies", "examples/admin/first.session", END, "< error 418 no such thing\n", "`error 418 no such thing` is no reply"),
    ("faults", "crates/relay_admin/src/serve_fault.rt", r"cannot open log", "cannot write log", "the fault `cannot write log`"),
    ("faults", "crates/pollrelay/src/main.rt", r'eprintln!\(rt; "{fault}"\)', 'eprintln!(rt; "it ends: {fault}")', "the line `it ends: {fault}`"),
    ("faults", f"{ADMIN}/rules/verdict.rt", r"bad rules: too long", "bad rules: too large", "the fault `bad rules: too large`"),
    ("faults", GUIDE, END, "\n`cannot find rules`\n", "`cannot find rules` is no line"),
    ("faults", f"{COMMAND_LINE}/fault.rt", r"BadCommandLine => 2", "BadCommandLine => 4", "`bad command line` is status 4"),
    ("faults", f"{COMMAND_LINE}/fault.rt", r"BadCommandLine => 2", "BadCommandLine => 4", "exit statuses lacks or has too much: [2, 4]"),
    ("faults", f"{COMMAND_LINE}/fault.rt", r"Fault::TraceMemory => 3", "Fault::TraceMemory => 5", "`trace fault: memory` has status 5"),
    ("trace", "crates/lockword_script/src/script.rt", r'b"rwake"', 'b"rawake"', "says nothing of `rawake`"),
    ("trace", "crates/lockword_script/src/printed_line.rt", r'"woken"', '"awake"', "says nothing of `awake`"),
    ("limits", "crates/lockword_core/src/word.rt", r"REFERENCES_WIDTH: u32 = 24", "REFERENCES_WIDTH: u32 = 22", "4,194,303, as `MAX_REFERENCES` is"),
    ("faults", UNIT, r"(RestartPreventExitStatus)=.*", r"\1=1", "RestartPreventExitStatus isn't"),
    ("metrics", "crates/relay_metrics/src/family.rt", r"pollrelay_loops", "pollrelay_event_loops", "the figure `pollrelay_event_loops`"),
    ("metrics", "crates/relay_log/src/ended.rt", r'b"drained",', 'b"emptied",', "`pollrelay_rule_ends_total` has the labels"),
    ("metrics", "crates/relay_log/src/ended.rt", r'\n *b"no_target",', "", "`pollrelay_rule_ends_total` has the labels"),
    ("metrics", "crates/relay_log/src/ended.rt", r'\n *b"unreachable",', "", "`pollrelay_rule_no_target_total` has the labels"),
    ("faults", GUIDE, r"\n\| `cannot reach admin` ", "\n| `no such relay` | | |\n\\g<0>", "has a message `no such relay`"),
    ("metrics", README, END, "\n`pollrelay_turns`\n", "`pollrelay_turns` is no figure"),
    ("metrics", "examples/prometheus/alerts.yml", r"pollrelay_up_seconds <", "pollrelay_uptime_seconds <", "`pollrelay_uptime_seconds` is no figure"),
    ("metrics", "examples/grafana/pollrelay.json", r"pollrelay_turns_total\{instance", "pollrelay_turns_total{host", "has no label ['host']"),
    ("log_words", "crates/relay_log/src/ended.rt", r'b"drained"\)', 'b"emptied")', "log's word `emptied`"),
    ("log_words", "crates/relay_log/src/ended.rt", r'b"unreachable"', 'b"far"', "log's word `far`"),
    ("log_words", GUIDE, END, "\n    2026-11-24T15:21:47.123Z web 2 3 eof\n", "no line of a log"),
    ("log_words", "crates/relay_log/src/line.rt", r"    pub up: u64,", "    pub loop_place: u64,\n    pub up: u64,", "a line of the log has 11 fields"),
    ("version", HELP, r"pollrelay 0\.", "pollrelay 1.", "packaging/debian/changelog: the program says"),
    ("headline", "docs/lock-word.md", r"It has \d+ lines", "It has 99 lines", "of the lines that the headline's reader reads"),
    ("headline", "crates/lockword/specs/Headline.antt", r"\npub record Headline", "\n-- more\n" * 45 + r"\g<0>", "at most 200 are allowed"),
    ("kit", README, END, "\nIt was tried with `rattle-kit-1`.\n", "names rattle-kit-1, and the kits that were tried are"),
    ("kit", README, END, "\nIt needs `logic 0123456789abcdef`.\n", "asks for logic 0123456789abcdef"),
    ("kit", TRUSTED, r"`slab`, `arrayvec`,", "`arrayvec`,", "what is trusted lacks or has too much: ['slab']"),
    ("kit", "crates.txt", r"(?m)^(conntable\b.*)$", r"\1 indexmap", "what is trusted lacks or has too much: ['indexmap']"),
    ("listed", "docs/wake-ups.md", r"\b\d+ mutants", "7 mutants", "says 7, and tests/gate/wakeups.sh has"),
    ("listed", "tests/README.md", r"\| `figures` \| quick \| 5 \| program \|", "| `figures` | quick | 5 | program, jq |", "the quick tests need ['curl', 'gcc', 'jq', 'mandoc']"),
    ("listed", "tests/gate/wakeups.sh", r"(?m)^# harmless \|", "# sound |", "harmless changes, and tests/gate/wakeups.sh has others"),
    ("listed", "tests/system/system_faults.py", r'    "nanosleep": "EINTR",\n', "", "docs/testing.md: says 26, and tests/system/system_faults.py has 25"),
    ("listed", "crates/lockword/specs/Headline.antt", END, "-- more\n", "CHANGELOG.md: says 120, and"),
    ("listed", "docs/testing.md", r"`handle_io`, `net`, `pollrelay`", "`net`, `pollrelay`", "doesn't say whether `rt plant` was run on handle_io"),
    ("listed", "docs/crates.md", r"(\| `readiness` [^\n]*\n)(\| `conntable` [^\n]*\n)", r"\2\1", "readiness stands on ['conntable'], which it has above"),
    ("listed", "docs/crates.md", r"(\| `pollrelay` \| [^|]*\|) [^|]* \|", r"\1 none |", "nothing but safety is proved of pollrelay"),
    ("listed", "crates.txt", END, "relay_udp: base_types\n", "doesn't say whether `rt plant` was run on relay_udp"),
    ("limits", "crates/conntable/src/token.rt", r"KEYS: u64 = 4096", "KEYS: u64 = 2048", "2,048, as `KEYS` is"),
    ("limits", "crates/relay_workers/src/buffers.rt", r"BUFFER_BYTES: usize = 16_384", "BUFFER_BYTES: usize = 8_192", "8,192, as `BUFFER_BYTES` is"),
    ("limits", "packaging/pollrelay-run", r"finish=30000", "finish=20000", "20,000, as `FINISH_MS` is"),
    ("limits", "crates/relay_ledger/src/book.rt", r"PARTS - 1", "PARTS - 2", "4,294,967,294, as `MAX_SHARES` is"),
    ("options", "crates/relay_command/src/grammar.rt", r'"replace-stale"', '"help"', "says that an option is refused which the code has: ['help']"),
    ("kit", TRUSTED, r"logic [0-9a-f]{16}", "logic", "what tests/lib/pages/kit.py reads here isn't there any more"),
    ("admin", CHANGES, END, "- A socket: `list`, `totals`, `show ID`, `close ID`, `drain ID`, `deadline ID MS`.\n", "a list of commands lacks ['"),
    ("limits", HELP, r"1 to 50000", "1 to 3000", "50,000, as `MAX_PAIRS` is"),
    ("limits", f"{ADMIN}/rules/file.rt", r"MAX_RULES: usize = 64", "MAX_RULES: usize = 65", "its limit of rules isn't 65"),
    ("limits", FORMAT, END, "\nA line of more than 80 bytes ends it.\n", "64, as `MAX_LINE_BYTES` is"),
    ("limits", f"{COMMAND_LINE}/descriptors.rt", r"CLIENTS: u64 = 64", "CLIENTS: u64 = 63", "`METRICS_CLIENTS` isn't 64"),
    ("limits", GUIDE, r"loops \+ 64\) \+ 112", "loops + 64) + 96", "doesn't say that a relay needs 2 × (connections + loops + 64) + 112"),
    ("limits", GUIDE, r"\| 512 \| 1 to 50,000 \|", "| 512 | 1 to 4,000 |", "the Range of --connections CONNECTIONS isn't 50,000"),
    ("limits", "crates/relay_config/src/health.rt", r"DEFAULT_FALL: u32 = 3", "DEFAULT_FALL: u32 = 4", "the Default of fall isn't 4, as `DEFAULT_FALL` is"),
    ("limits", "crates/relay_config/src/health.rt", r"MAX_IN_A_ROW: u32 = 100", "MAX_IN_A_ROW: u32 = 50", "the Value of rise isn't 1 to 50"),
    ("limits", GUIDE, r"a time, at least `1ms` \| `2s` \|", "a time, at least `1ms` | `5s` |", "the Default of every isn't 2s"),
    ("limits", GUIDE, r"1,280 with", "1,216 with", "8 loops need 1280 descriptors"),
    ("limits", UNIT, r"(LimitNOFILE)=.*", r"\1=1024", "LimitNOFILE is 1024, below"),
    ("limits", UNIT, r"TasksMax=.*", "TasksMax=32", "TasksMax is 32, below 76"),
    ("limits", UNIT, r"(?m)^ExecStart=.*", "ExecStart=/usr/bin/pollrelay-run --finish 3600000 --rules /a --admin /b", "below 3601"),
    ("shell_lines", README, END, "\n    pollrelay serve --rule FILE --admin PATH\n", "`serve` has no option `--rule`"),
    ("shell_lines", GUIDE, END, "\n    pollrelay check --rules FILE && pollrelay ctl --admin PATH close\n", "`close` is no admin command"),
    ("shell_lines", GUIDE, END, "\n    pollrelay ctl --admin PATH target web tcp:10.0.0.1:80 off\n", "tcp:10.0.0.1:80 off` is no admin command"),
    ("shell_lines", "examples/README.md", END, "\n    pollrelay serve --rules FILE\n", "lacks `--admin`"),
    ("shell_lines", "examples/README.md", END, "\n    pollrelay check rules\n", "lacks `--rules` or `--config`"),
    ("shell_lines", "examples/rules/web.rules", END, "# Check this file: pollrelay check --rules examples/rules/wep.rules\n", "there is no examples/rules/wep.rules"),
    ("shell_lines", README, END, "\n    sh tests/run.sh no_such_part\n", "there is no part no_such_part"),
    ("shell_lines", README, END, "\n    sh examples/first_connection.sh --prove-all\n", "has no option --prove-all"),
    ("shell_lines", UNIT, END, "ExecStart=/usr/bin/pollrelay-run --end 9 --rules /a --admin /b\n", "has no option `--end`"),
    ("shell_lines", UNIT, END, "ExecReload=/usr/local/bin/pollrelay ctl --admin /a relaod\n", "`relaod` is no admin command"),
    ("shell_lines", GUIDE, END, "\n    wget http://127.0.0.1:9464/metrics\n", "no part of the tests tries `wget`"),
    ("shell_lines", "CONTRIBUTING.md", END, "\n    python3 tests/clauses.py\n", "there is no tests/clauses.py"),
    ("shell_lines", GUIDE, r"\n    (pollrelay ctl --admin PATH deadline 3)", r"\n\1", "is a command, and isn't set off"),
    ("shell_lines", README, r"(--admin /tmp/relay\.sock &\n)(?:.*\n){3}", r"\1", "asks a relay that was just started"),
    ("samples", "packaging/debian/rules.sample", END, "relay web tcp:0.0.0.0:80 never\n", "no rule"),
    ("samples", "examples/rules/web.rules", END, "relay app unix:/tmp/app.sock tcp:127.0.0.1:80 never\n", "the unit hides /tmp"),
    ("metrics", TEXTFILE, r"pollrelay_up and pollrelay_connections are", "pollrelay_up is", "its head says ['pollrelay_up']"),
    ("quotes", README, END, "\n```rust\nlet conn = listener.take()?;\n```\n", "no crate has the line"),
    ("claims", README, END, f"{TABLE}| It reads | `relay_admin::Rules::parse` `no_such_clause` | proved |\n", "nothing is called `no_such_clause`"),
    ("claims", README, r"the duty to destroy comes at most once", "the descriptor is closed once", "docs/lock-word.md:"),
    ("names", "docs/testing.md", END, "\n`a_close_ends_no_read_at_all`\n", "nothing is called `a_close_ends_no_read_at_all`"),
    ("names", "crates/workers_tests/src/.*", r"fn lines_have_their_replies", "fn lines_have_replies", "nothing is called `lines_have_their_replies`"),
    ("links", README, END, "\n[here](docs/nowhere.md)\n", "links to docs/nowhere.md"),
    ("links", README, r"\n## The kit\n", "\n## A kit\n", "links to #the-kit of README.md, which has no such heading"),
    ("links", README, END, "\n`tests/metrics_storm.py`\n", "names `tests/metrics_storm.py`"),
    ("links", README, END, "\n`docs/operations.md` (Stopping, Beginning) has it.\n", "names Beginning of docs/operations.md, which has no such section"),
    ("links", GUIDE, r"\n## Stopping\n", "\n## Ending\n", "which has no such section"),
    ("links", "docs/design.md", r"`relay_facts/src/safeguards\.rt`", "`relay_facts/src/safeguard.rt`", "names `relay_facts/src/safeguard.rt`, which isn't there"),
    ("links", "docs/design.md", r"(?<=`relay_main/src/main_loop\.rt`, )`accept_turns\.rt`", "`safeguards.rt`", "names `safeguards.rt` behind a file of relay_main/src, which has none"),
    ("names", "docs/rattle-for-rust.md", END, "\n`FROM_JAVA.md`\n", "nothing is called `FROM_JAVA`"),
    ("links", "docs/nowhere.md", END, "# Nowhere\n", "doesn't list nowhere.md"),
    ("net_page", "docs/net.md", r"Closes the connection for all who share it", "Closes this clone", "isn't what tools/net_reference.py makes of crates/net/src"),
    ("net_page", "docs/net.md", r"makes, and removes as it closes", "makes and nobody removes", "isn't what tools/net_reference.py makes of crates/net/src"),
    ("tables", "docs/DECISIONS.md", END, "\n| A | B |\n|---|---|\n| one | two | three |\n", "a row of 3 cells below a head of 2"),
    ("tables", "crates/relay_main/README.md", r"`listeners_end`", "`ending`", "lacks or has too much: ['ending', 'listeners_end']"),
    ("tables", "crates/net_tests/README.md", r"\| `groups` \|", "| `crowds` |", "there is no file `crowds`"),
    ("tables", "crates/relay_server/README.md", r"`Config`, ", "`Safeguards`, ", "`Safeguards` is no word of this crate"),
    ("voice", GUIDE, END, "\nThe log has a line for each row of faults.\n", "a series"),
    ("voice", "docs/glossary.md", END, "\nSome state that the rule admits has this word.\n", "some reachable state"),
    ("voice", "docs/connection-table.md", END, "\nEach seat has a table.\n", "uses the word “seat”"),
    ("voice", GUIDE, r"For operators: the reference", "The reference", "doesn't say in its first line for whom it is"),
    ("packaged", GUIDE, END, "\nSee `../packaging/deb.sh`.\n", "names ../packaging/deb.sh, which the package hasn't"),
    ("packaged", "packaging/deb.sh", r"git ls-files examples", "git ls-files examples/rules", "../examples/admin, which the package hasn't"),
    # What pages said once that wasn't so.
    ("stale", "packaging/debian/rules.sample", END, "# It is read at the start alone: systemctl restart pollrelay\n", "rules are read anew by `reload`"),
    ("stale", "docs/DECISIONS.md", END, "| What are `--` and `-- trace` on the command line? | Refused, though clap takes them |\n", "a `--` at the end is taken"),
    ("stale", CHANGES, END, "- One call (`Poller::hold`), and an entry for it (`Held`).\n", "the entry of a table is `HeldSocket`"),
    ("stale", "docs/proved.md", END, "\n`FdHandle::read` and `write` are called by no program here.\n", "a benchmark calls `FdHandle::read`"),
    ("stale", GUIDE, r"as long as the list is the same, and the same targets of it are up\.", "as long as the list is the same.", "the remainder changes with the targets that are up"),
    ("stale", "docs/wake-ups.md", END, "\nA loop, the admin thread and the main thread.\n", "admin sessions are tasks of the main thread"),
    ("stale", "crates/readiness/src/sock.rt", r"stream\.set_nodelay\(true\)", "stream.set_keepalive(true)", "says “TCP keepalive is off without `keepalive`”, and"),
    ("stale", "crates/readiness/src/sock.rt", r"stream\.set_nodelay\(true\)", "stream.set_nodelay(false)", "says “TCP connections have `TCP_NODELAY`”, and"),
    ("limits", CHANGES, END, "- A read takes up to 16,384 bytes from the first on.\n", "65,536, as `LOOP_BUFFER_BYTES` is"),
    ("figures", CHANGES, END, "- `--loops` of serve: loops.\n- `--loops` of serve: how many loops.\n", "tells `--loops` twice"),
    ("admin", GUIDE, END, "\nCommands are `list`, `totals`, `close ID`, `drain ID`, `deadline ID MS`, `quit`, `stop`.\n", "a list of commands lacks"),
    ("man", MAN, r"\.It \"\\fB\\%show \\%ID[^\0]*?(?=\.It)", "", "isn't what tools/man_page.py makes of docs/operations.md"),
    ("man", MAN, r"Take the relay out of the balancer", "Say \\\\fBdeadline 1 0\\\\fP", "isn't what tools/man_page.py makes of docs/operations.md"),
    ("man", MAN, r"(?<=Kind: gauge\.\n)Event loops\.", "Labels: | event loops.", "isn't what tools/man_page.py makes of docs/operations.md"),
    ("man", GUIDE, r"`pollrelay_loops` \| gauge \| \|", "`pollrelay_loops` | gauge |", "a row of 3 cells below 4 heads"),
    ("man", MAN, r"\n\.Ss Several targets", r"\n### Several targets", "isn't what tools/man_page.py makes of docs/operations.md"),
    ("man", GUIDE, r"\n### Several targets\n", r"\n#### Several targets\n", "no heading that is known: #### Several targets"),
    ("man", GUIDE, r"\n1\. Take[^\n]*\n", r"\n", "isn't what tools/man_page.py makes of docs/operations.md"),
    ("admin", "examples/balancer/two_relays.cfg", r"(#     pollrelay ctl[^\n]* finish 30000\n)(#     \(wait[^\n]*ended[^\n]*\n)", r"\2\1", "a rolling restart goes"),
    ("admin", GUIDE, r"Say `pollrelay ctl --admin PATH finish 30000`", "Say `drain 1`", "a rolling restart goes"),
    ("admin", "examples/balancer/two_relays.cfg", r"check port 8011", "check", "checks the relayed port"),
    ("admin", "examples/balancer/two_relays.cfg", r"GET /healthz\n", "GET /\n", "don't ask /healthz"),
    ("faults", GUIDE, r"admin socket, log, address", "log, admin socket, address", "`serve` checks in the order ["),
    ("faults", "crates/relay_server/src/serving.rt", r"(    server\.open\(admin_of\(settings\), settings\.admin_mode\)\?;\n)(.*\n)(.*start_log.*\n)", r"\3\2\1", "`serve` checks in the order ["),
    ("stale", README, END, "\nRattle has contracts, which a prover checks before the program is built.\n", "builds a program with nothing proved"),
    ("metrics", TEXTFILE, r"way=", "direction=", "has no label ['direction']"),
    ("samples", UNIT, r"RuntimeDirectory=pollrelay", "RuntimeDirectory=relay", "says /run/pollrelay, and the unit has RuntimeDirectory=relay"),
    ("samples", "examples/kubernetes/pollrelay.yaml", r"path: /metrics", "path: /healthz", "its row liveness hasn't /healthz"),
    ("samples", TEXTFILE, r"connections = sum\(.*\)", "connections = (len(shown) + 1) // 2", "2 connections stand"),
    ("limits", UNIT, END, "# 90,000 pairs take 180,216 at most.\n", "below what a remark in the unit asks for: 180216"),
    ("figures", MEASURED, END, "| bytes (A) | 10 | nginx 20 | 0.75 |\n", "is 0.50, not 0.75"),
    ("figures", README, END, "\nIt has 0.33 of the memory of HAProxy.\n", "has the ratio 0.33"),
    ("figures", README, END, "\n| bytes | 1,719 | nginx 113,800 | 0.97 |\n", "has the figures [0.97, 1719.0, 113800.0]"),
    ("figures", README, r"\| 3,277 \| 3,539 \| 3,604 \|", "| 3,277 | 3,539 |", "of all relays"),
    ("figures", README, r"\| 2,929 \| 3,406 \| 3,954 \|", "| 2,929 | 3,406 | 3,054 |", "of all relays"),
    ("figures", README, r"at 53 and 88 %", "at 109 and 88 %", "is at [53, 88] % of Go's splice"),
    ("figures", README, r"by a factor of two", "by a factor of four", "by a factor of [2]"),
    ("figures", MEASURED, END, "\n| bytes (Y) | 10 | nginx 10 | 1.00 |\n", "of the run Y, of which nothing is said"),
    ("figures", MEASURED, END, "\n| Y | lately | `python3 bench/relay/run.py` |\n", "the run Y has no date"),
    ("figures", MEASURED, r"\n\| p50 over 1, 16 and 64 \| nginx by[^\n]*", "", "behind in p50 over 16, "),
    ("figures", MEASURED, r"\| 524 \| 426 \| 360 \|", "| 299 | 426 | 360 |", "behind in p50 over 64, "),
    ("figures", "docs/GATE.md", END, "\nIt tries 1,234 wrong bodies of 77 crates.\n", "1,234 wrong bodies: there are"),
    ("figures", "docs/GATE.md", END, "\nIt tries 1,234 wrong bodies of 77 crates.\n", "77 crates: there are"),
    ("plants", "docs/testing.md", r"\| finish takes no last clients \|", "| finish takes clients |", "aren't those of `tests/plants`"),
    ("plants", "crates/relay_main/src/listeners_end.rt", r"self\.end_rule\(one\.token, last\);", "self.end_rule(one.token, last_clients);", "0 times, and not once"),
    ("figures", "examples/first_connection.sh", END, "# Proving takes three quarters of an hour.\n", "proving takes three quarters of an hour here"),
)


class Planted(unittest.TestCase):
    @classmethod
    def setUpClass(cls):
        cls.tree, cls.before = Tree(), {}

    def told_before(self, subject):
        if subject not in self.before:
            self.before[subject] = set(pages.told_of(self.tree, [subject]).lines)
        return self.before[subject]

    def planted(self, path, old, new):
        """The tree with the text in its place. A row may name its file by an expression, of which one file has what stands there."""
        if old is END:
            return self.tree.having(path, self.tree.text(path) + new)
        holders = [it for it in self.tree.paths(path) if re.search(old, self.tree.text(it))]
        self.assertEqual(len(holders), 1, f"{path} has {old!r} in {holders}")
        return self.tree.having(holders[0], re.sub(old, new, self.tree.text(holders[0])))

    def test_each_planted_text_is_told(self):
        for subject, path, old, new, said in ROWS:
            with self.subTest(f"{subject}: {said}"):
                told = set(pages.told_of(self.planted(path, old, new), [subject]).lines) - self.told_before(subject)
                self.assertTrue(any(said in it for it in told), f"told instead: {sorted(told)}")

    def test_a_kit_that_was_not_tried_is_told_and_fails_nothing(self):
        for said, is_noted in (
            ("rattle-kit-13b logic dac8208d650f15bf", False), ("rattle-kit-13f logic dac8208d650f15bf", False),
            ("rattle-kit-99 logic dac8208d650f15bf", True), ("rattle-kit-13b logic 0123456789abcdef", True), ("", True),
        ):
            with self.subTest(said), mock.patch.object(kit, "version_here", return_value=said):
                told = pages.told_of(self.tree, ["kit"])
                self.assertEqual((told.lines, len(told.notes)), ([], int(is_noted)))

    def test_without_a_kit_the_pages_are_checked_all_the_same(self):
        def forget():
            kit.pages_of_kit.cache_clear()
            tools.words_of_kit.cache_clear()

        self.addCleanup(forget)
        forget()
        with mock.patch.object(kit, "said_by_kit", return_value=""), mock.patch.object(tools, "said_by_kit", return_value=""):
            told = pages.told_of(self.tree, ["kit", "links", "names", "shell_lines"])
            self.assertEqual((told.lines, len(told.notes)), ([], 1))
            unknown = self.tree.having(README, self.tree.text(README) + "\n`docs/nowhere.md`\n")
            self.assertEqual(len(pages.told_of(unknown, ["links"]).lines), 1)

    def test_each_subject_has_a_row(self):
        self.assertEqual({it[0] for it in ROWS}, set(pages.SUBJECTS))


if __name__ == "__main__":
    unittest.main()
