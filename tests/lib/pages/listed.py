"""Counts that pages give of what a script or a file lists: each is that of the list. The packages that the quick tests install. And what is
said of each crate: whether `rt plant` was run on it, above which others it stands, and whether more than its safety is proved."""

import re

from lib.pages.markdown import paragraphs, rows, section, spans

PARTS, TESTING, CRATES = "tests/README.md", "docs/testing.md", "docs/crates.md"
GUARANTEES = "docs/guarantees.md"
# Where it is said of which crates `rt plant` had a whole run.
PLANTED = "What `rt plant` lets through"
# What a part may need beside packages: a program that is built, a machine of its own, a lane among those that mostly wait.
NO_PACKAGES = {"", "program", "proved program", "alone", "sleeps"}
SEARCHES, WAKE_UPS = "tests/gate/wakeups.sh", "docs/wake-ups.md"
HARMLESS = r"^# *harmless *\|"
# The page, the words of the count in it, the file that has the list, and what an entry of the list is there.
ROWS = (
    (WAKE_UPS, r"(\d+) models that must be sound", SEARCHES, r"^# *(?:sound|ends) *\|"),
    (WAKE_UPS, r"(\d+) mutants", SEARCHES, r"^# *(?:fails|endless) *\|"),
    (WAKE_UPS, r"(\d+) changes that must turn out harmless", SEARCHES, HARMLESS),
    (TESTING, r"each of (\d+) calls of the C library that fails", "tests/system/system_faults.py", r'^    "(\w+)": "E'),
    ("CHANGELOG.md", r"one file of (\d+) lines \(`crates/lockword/specs/Headline.antt`\)", "crates/lockword/specs/Headline.antt", r"\n"),
)


def entries(text, pattern):
    """How many different entries a list has."""
    found = [it for it in re.finditer(pattern, text, re.M)]
    return len({it[1] for it in found} if re.compile(pattern).groups else found)


def packages(tree, told):
    """The README names the packages that parts of the quick tier need, and no other."""
    needs = re.findall(r"^\| `\w+` \| quick \| \d+ \|([^|]*)\|", tree.text(PARTS), re.M)
    needed = {it.strip() for cell in needs for it in cell.split(",")} - NO_PACKAGES
    said = re.search(r"the quick ones ([\w, ]+?), the long ones", tree.text("README.md"))
    if told.reads(needed and said, "README.md" if needed else PARTS, __file__):
        named = set(re.split(r", | and ", said[1]))
        told.holds(named == needed, "README.md", f"the quick tests need {sorted(needed)}, and it says {sorted(named)}")


def planted(tree, told):
    """Each crate but those of tests and benches has its place where `rt plant` is told of: a new one isn't passed over."""
    crates = re.findall(r"^(?!bench_)(\w+?)(?<!_tests)\b[^:\n#]*:", tree.text("crates.txt"), re.M)
    said = {it for _, it in spans(section(tree.text(TESTING), PLANTED))}
    if told.reads(crates and said, TESTING, __file__):
        for it in crates:
            told.holds(it in said, TESTING, f"{PLANTED}: doesn't say whether `rt plant` was run on {it}")


def highest_first(tree, told):
    """In each table of the list of crates a crate stands above those that it stands on, but in that of tests."""
    below = {it[1]: it[2].split() for it in re.finditer(r"^(\w+)[^:\n#]*:(.*)$", tree.text("crates.txt"), re.M)}
    lists = [[it[0].strip("`") for _, it in rows(block)] for _, block in paragraphs(tree.text(CRATES)) if block.startswith("|")]
    if told.reads(below and lists, CRATES, __file__):
        for named in lists:
            for at, crate in enumerate(named):
                above = set(below.get(crate, ())) & set(named[:at])
                told.holds(crate.endswith("_tests") or not above, CRATES, f"{crate} stands on {sorted(above)}, which it has above")


def beyond_safety(tree, told):
    """Of a crate that the guarantees have in a heading, the list of crates doesn't say that nothing but safety is proved."""
    named = {it for head in re.findall(r"^## .*", tree.text(GUARANTEES), re.M) for it in re.findall(r"`(\w+)`", head)}
    said = {it[0].strip("`"): it[2] for _, it in rows(tree.text(CRATES)) if len(it) == 3}
    if told.reads(named and said, CRATES, __file__):
        for crate in named:
            told.holds(said.get(crate) != "none", CRATES, f"says that nothing but safety is proved of {crate}, and {GUARANTEES} has clauses of it")


def check(tree, told):
    packages(tree, told)
    beyond_safety(tree, told)
    planted(tree, told)
    highest_first(tree, told)
    for page, words, file, pattern in ROWS:
        number = entries(tree.text(file), pattern)
        said = re.findall(words, tree.text(page), re.M)
        if told.reads(number and said, file if not number else page, __file__):
            for it in said:
                told.holds(int(it) == number, page, f"says {it}, and {file} has {number}: {words}")
    explained = len(list(rows(section(tree.text(WAKE_UPS), "Harmless changes")))) - 1
    told.holds(explained == entries(tree.text(SEARCHES), HARMLESS), WAKE_UPS, f"has a reason for {explained} harmless changes, and {SEARCHES} has others")
