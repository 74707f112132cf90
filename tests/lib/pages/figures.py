"""Figures and counts that pages repeat: ratios are those of docs/performance.md's rows, which are what their figures give, and what the
README says of them in words is so; counts are as they are counted; how long the first build takes is said in one way; and the CHANGELOG tells nothing twice."""

import datetime
import re

from lib.pages.markdown import bare, rows, spans

README, MEASURED, CHANGES = "README.md", "docs/performance.md", "CHANGELOG.md"
NUMBER = re.compile(r"(?<![\w.,])\d{1,3}(?:,\d{3})+(?!\d)|(?<![\w.,])\d+(?:\.\d+)?(?![\w,])")
RATIO = re.compile(r"(?<![\d.,v])\d\.\d\d(?![\d.])")
# How many relays a row beside the peers has.
RELAYS = 6
PEERS = re.compile(r"HAProxy|nginx|socat|\bGo\b")
# How a row beside the peers is named, and one of those in which pollrelay is behind: what is measured, and over how many connections.
OVER = re.compile(r"(bytes|round trips|p50|p99|processor)(?: time)?(?: a round trip)?(?: over ([\d, and]+))?")
RATES = {"bytes", "round trips"}
# Where the first build and its time are spoken of, and how.
BUILDS = ("README.md", "examples/README.md", "examples/first_connection.sh", "docs/operations.md", "CONTRIBUTING.md")
TIMES = {"a quarter of an hour": 15, "half an hour": 30, "three quarters of an hour": 45, "an hour": 60}
MONTHS = "January February March April May June July August September October November December".split()
WORDS = dict(zip("one two three four five six seven eight nine ten eleven twelve".split(), range(1, 13)))


def numbers(text):
    return [float(it.replace(",", "")) for it in NUMBER.findall(text)]


def check(tree, told):
    table = [(line, [bare(it) for it in cells]) for line, cells in rows(tree.text(MEASURED))]
    made_of_their_figures(told, table)
    quoted(told, tree.text(README), table)
    in_words(told, tree.text(README))
    letters(told, tree.text(MEASURED), table)
    behind(told, tree.text(MEASURED), table)
    counts(tree, told)
    build_times(tree, told)
    told_twice(told, tree.text(CHANGES))


def made_of_their_figures(told, table):
    """The last cell of a row is the ratio of the two before, or a median of such, which may be some hundredths off."""
    for line, cells in table:
        ours, beside = (numbers(re.sub(r"\([^)]*\)", "", it)) for it in (cells[-3:-1] if len(cells) == 4 else ("", "")))
        if RATIO.fullmatch(cells[-1]) and ours and beside and beside[-1]:
            ratio, said = ours[0] / beside[-1], float(cells[-1])
            told.holds(abs(ratio - said) <= 0.006 + 0.03 * said, MEASURED, f"{ours[0]:g} beside {beside[-1]:g} is {ratio:.2f}, not {said}", line)


def quoted(told, text, table):
    """A row of figures in the README is one of the measured rows, with all peers that were measured, in their order, and so is each
    ratio beside a peer's name."""
    beside = [numbers(" ".join(cells[1:])) for _, cells in table if len(cells) == RELAYS + 1]
    measured = [set(numbers(" ".join(cells))) for _, cells in table]
    every = set().union(*measured) if measured else set()
    for line, cells in rows(text):
        if RATIO.fullmatch(bare(cells[-1])):
            wanted = set(numbers(bare(" ".join(cells[1:]))))
            told.holds(any(wanted <= it for it in measured), README, f"no row of {MEASURED} has the figures {sorted(wanted)}", line)
        elif len(cells) > 3 and all(NUMBER.fullmatch(it) for it in cells[1:]):
            figures = numbers(" ".join(cells[1:]))
            told.holds(figures in beside, README, f"no row of {MEASURED} has the figures {figures} of all relays", line)
    for line, said in enumerate(text.splitlines(), 1):
        if PEERS.search(said) and not said.startswith("|"):
            for it in RATIO.findall(said):
                told.holds(float(it) in every, README, f"no row of {MEASURED} has the ratio {it}", line)


def in_words(told, text):
    """What the README says of its rows in words is what their figures give. A row ends with Go's splice."""
    found = {bare(cells[0]): numbers(" ".join(cells[1:])) for _, cells in rows(text) if len(cells) == RELAYS + 1}
    parts = [round(100 * it[0] / it[-1]) for name, it in found.items() if name.startswith("MB/s")]
    for said in re.findall(r"at (\d+) and (\d+) % of Go's splice", text):
        told.holds([int(it) for it in said] == parts, README, f"is at {parts} % of Go's splice by its rows, and it says {said}")
    factors = [int(min(it[1:]) / it[0]) for name, it in found.items() if name.startswith("MiB") and it]
    for said in re.findall(r"least memory by a factor of (\w+)", text):
        told.holds([WORDS.get(said)] == factors, README, f"has less memory by a factor of {factors} by its row, and it says {said}")


def letters(told, text, table):
    """Each run that a row names has a row of its own with its date, and no date is yet to come."""
    runs = {cells[0]: cells[1] for _, cells in table if re.fullmatch(r"[A-Z]", cells[0])}
    for line, cells in table:
        for named in re.findall(r"\(([A-Z])\b[^)]*\)", cells[0]):
            told.holds(named in runs, MEASURED, f"a row is of the run {named}, of which nothing is said", line)
    year = re.search(r"\b20\d\d\b", text)
    for day, month in re.findall(rf"(\d+) ({'|'.join(MONTHS)})", text):
        date = datetime.date(int(year[0]) if year else 1, MONTHS.index(month) + 1, int(day))
        told.holds(date <= datetime.date.today(), MEASURED, f"{day} {month} is yet to come")
    for name, said in runs.items():
        told.holds(re.search("|".join(MONTHS), said), MEASURED, f"the run {name} has no date")


def behind(told, text, table):
    """Each row in which a peer is better than pollrelay is told as such, and no other. A row that tells no number is of all."""
    found, names = set(), {}
    for _, cells in table:
        named = OVER.match(cells[0])
        if named and named[2] and len(cells) == RELAYS + 1:
            ours, *peers = numbers(" ".join(cells[1:]))
            row = (named[1], int(re.findall(r"\d+", named[2])[0]))
            names[row] = cells[0]
            found |= {row} if (max(peers) > ours if row[0] in RATES else min(peers) < ours) else set()
    section = re.search(r"where pollrelay is behind[^\n]*\n\n(.*?)\n\n", text, re.S | re.I)
    if told.reads(names and section, MEASURED, __file__):
        told_of = set()
        for _, cells in rows(section[1]):
            named = OVER.match(cells[0])
            over = {int(it) for it in re.findall(r"\d+", named[2] or "")} if named else set()
            told_of |= {it for it in names if named and it[0] == named[1] and (it[1] in over or not over)}
        for row in sorted(found ^ told_of):
            told.holds(False, MEASURED, f"pollrelay is behind in {names[row]}, and the page tells it not, or the other way round")
        told.passed += len(found & told_of)


def counted(tree):
    """What is counted, by the words that pages have for it."""
    named = len(re.findall(r"^\w+[^:\n#]*:", tree.text("crates.txt"), re.M))
    hard, soft = (len(tree.paths(rf"crates/\w+/{it}/[^/]*\.edit")) for it in ("must-fail", "wrong-bodies"))
    return {"crates": {named}, "wrong bodies": {hard, soft, hard + soft}, "edits": {hard, soft, hard + soft}}


def counts(tree, told):
    """A number of crates or of wrong bodies is that which is counted. A small one may be of some of them."""
    known = counted(tree)
    for page in tree.pages():
        for number, what in re.findall(r"(?<![\d,.])(\d[\d,]+) (crates|wrong bodies|edits)\b(?!/)", tree.text(page)):
            if page not in (CHANGES, "docs/DECISIONS.md"):
                told.holds(int(number.replace(",", "")) in known[what], page, f"{number} {what}: there are {sorted(known[what])}")
    hard = len(tree.paths(r"crates/\w+/must-fail/[^/]*\.edit"))
    for page in ("CONTRIBUTING.md", "docs/GATE.md"):
        for said in re.findall(r"`must-fail/`[^.\n]{0,20}?\b(\w+) wrong bodies|so (\w+) stand there", tree.text(page)):
            word = said[0] or said[1]
            told.holds(WORDS.get(word, hard) == hard, page, f"{word} edits in `must-fail/`: there are {hard}")


def build_times(tree, told):
    """How long proving everything takes is said in one way."""
    said = {}
    for page in BUILDS:
        for line, text in enumerate(tree.text(page).splitlines(), 1):
            for sentence in re.split(r"(?<=[.:]) ", text):
                if re.search(r"\bprov(?:es|ed|ing)\b", sentence, re.I):
                    for words in sorted(TIMES, key=len, reverse=True):
                        if words in sentence:
                            said.setdefault(TIMES[words], []).append((page, line, words))
                            sentence = sentence.replace(words, "")
    usual = max(said, key=lambda it: len(said[it]), default=None)
    for minutes, places in said.items():
        for page, line, words in places:
            others = ", ".join(it[0] for it in said[usual])
            told.holds(minutes == usual, page, f"proving takes {words} here, and another time in {others}", line)


def told_twice(told, text):
    """An option or an admin command is told as something new once."""
    seen = {}
    for line, entry in enumerate(text.splitlines(), 1):
        if entry.startswith("- "):
            told.holds(entry not in seen, CHANGES, f"has this entry twice: {entry[:60]}", line)
            for name in new_names(entry):
                told.holds(seen.setdefault(name, line) == line, CHANGES, f"tells `{name}` twice: also in line {seen[name]}", line)
            seen[entry] = line


def new_names(entry):
    """The options and admin commands that an entry tells: those with which it, or a part of it, begins."""
    parts = re.split(r"(?<=[.;]) ", entry[2:])
    heads = [spans(it)[0][1] for it in parts if it.startswith("`")]
    return {it for it in heads if re.fullmatch(r"--\w+|[a-z]+ (?:ID|MS)|reload", it)}
