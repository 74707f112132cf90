#!/usr/bin/env python3
"""Copies crates of this repository, with all below them, into another repository.

    python3 tools/vendor.py NAME.. DEST            copies, and brings up to date what was copied before
    python3 tools/vendor.py --built NAME.. DEST    the same, and their libraries, as they were proved here
    python3 tools/vendor.py --check DEST           says what was changed there since

DEST is the top of a repository: a folder, with a crates.txt or without. Of a crate go its src/, specs/ and proofs/, its
README and the licence; its tests and wrong bodies stay here, and DEST's out/ stays there. The crates' lines of crates.txt
stand in one block, which the next run writes anew; all other lines are the reader's own. DEST/hobrintza.sha256 has the
digest of each file, as `sha256sum --check` reads it, behind a head that says of which revision they are.

With --built go the libraries too that `rt check` left here of exactly this text, so that it doesn't prove them anew in DEST. They
have to stand here: `python3 tools/build.py --for-checks NAME` proves them. DEST/hobrintza.built has a line for each: the digest of the
library, and that of the sources that it was proved from, which is of the crate's lines in hobrintza.sha256.

It writes over no crate that isn't a copy, and over no copy that was changed. Where the crates take a handle that DEST's
HANDLES doesn't allow, it says so. It needs Python's standard library alone, git for the revision, and for --built the kit's rt.
"""

import hashlib
import pathlib
import re
import shutil
import subprocess
import sys

ROOT = pathlib.Path(__file__).resolve().parent.parent
PARTS = ("src", "specs", "proofs")
RECORD, BUILT = "hobrintza.sha256", "hobrintza.built"
BEGIN, END = "# Begin of the crates of Hobrintza: tools/vendor.py of its repository writes these lines.", "# End of the crates of Hobrintza."
BLOCK = re.compile(f"{re.escape(BEGIN)}\n(.*?){re.escape(END)}\n", re.S)
HANDLES = ("Threads", "Wait", "Net", "Processes")


def text_of(path):
    return path.read_text(encoding="utf-8") if path.is_file() else ""


def lines_of(text):
    """Of each crate of a crates.txt its line, with the comment right above it, and the names of what it stands on."""
    lines, deps, said = {}, {}, ""
    for line in text.splitlines():
        if ":" in line and not line.startswith("#"):
            head, _, below = line.partition(":")
            lines[head.split()[0]], deps[head.split()[0]] = f"{said}{line}\n", below.split()
        said = f"{line}\n" if line.startswith("#") else ""
    return lines, deps


def with_below(names, deps):
    """These crates and all below them, in the order of crates.txt."""
    wanted = set(names)
    for name in reversed(deps):
        wanted |= set(deps[name]) & deps.keys() if name in wanted else set()
    return [it for it in deps if it in wanted]


def files_of(folder):
    """The files of a crate that are copied, by their paths in it."""
    found = [folder / "README.md", *(it for part in PARTS for it in sorted((folder / part).rglob("*")))]
    return [it.relative_to(folder).as_posix() for it in found if it.is_file()]


def digest_of(path):
    return hashlib.sha256(path.read_bytes()).hexdigest() if path.is_file() else None


def recorded(dest):
    """The digests of what was copied into DEST, by path."""
    rows = (line.split("  ", 1) for line in text_of(dest / RECORD).splitlines() if not line.startswith("#"))
    return {path: digest for digest, path in rows}


def copied(dest):
    """The crates that were copied into DEST and are there."""
    return sorted({it.split("/")[1] for it in recorded(dest) if (dest / "crates" / it.split("/")[1]).is_dir()})


def changes(dest):
    """What isn't as it was copied: a line each."""
    known, names = recorded(dest), copied(dest)
    found = []
    for path, digest in known.items():
        if path.split("/")[1] in names and digest_of(dest / path) != digest:
            found.append(f"{path} {'is changed' if (dest / path).is_file() else 'is gone'}")
    for name in names:
        found += [f"crates/{name}/{it} was added" for it in files_of(dest / "crates" / name) if f"crates/{name}/{it}" not in known]
    block = BLOCK.search(text_of(dest / "crates.txt"))
    lines = lines_of(block[1])[0] if block else {}
    return found + [f"crates.txt has no line of {it} in the block of copied crates" for it in names if it not in lines]


def sources_digest(dest, name):
    """The digest of what a crate in DEST was copied from."""
    rows = sorted(f"{digest}  {path}\n" for path, digest in recorded(dest).items() if path.split("/")[1] == name)
    return hashlib.sha256("".join(rows).encode()).hexdigest()


def library(top, name):
    """Where `rt check` leaves a crate's library."""
    return top / "crates" / name / "out" / "rlib"


def library_digest(top, name):
    """The digest of all files of a library, with their paths, or None where there is none."""
    folder, found = library(top, name), hashlib.sha256()
    for it in sorted(folder.rglob("*")):
        if it.is_file():
            found.update(f"{digest_of(it)}  {it.relative_to(folder).as_posix()}\n".encode())
    return found.hexdigest() if folder.is_dir() else None


def built(dest):
    """Of each library that came along to DEST its digest, and that of its sources."""
    rows = (line.split() for line in text_of(dest / BUILT).splitlines() if not line.startswith("#"))
    return {name: (of_library, of_sources) for of_library, of_sources, name in rows}


def library_changes(dest):
    """Which libraries aren't those that came along, or are of other sources than stand there now: a line each."""
    found = []
    for name, (of_library, of_sources) in built(dest).items():
        now = library_digest(dest, name)
        if now != of_library:
            found.append(f"the library of {name} is {'changed, or proved anew since' if now else 'gone'}")
        if sources_digest(dest, name) != of_sources:
            found.append(f"the library of {name} was proved from other sources")
    return found


def unproved(names):
    """Which of these crates have no library here of this very text."""
    rt = shutil.which("rt") or sys.exit("--built needs the kit's rt on the path")
    sys.path.insert(0, str(pathlib.Path(rt).resolve().parent))
    import rtlib  # the kit's own module, beside rt: it knows of which text a library is

    proved = {it.name for it in rtlib.crates_below(str(ROOT)) if it.makes_rlib() and it.is_built()}
    return [it for it in names if it not in proved]


def copy_libraries(names, dest):
    """Copies the libraries in place of those that stand there, and notes what they are."""
    for name in names:
        here, there = library(ROOT, name), library(dest, name)
        shutil.rmtree(there, ignore_errors=True)
        shutil.copytree(here, there, ignore=shutil.ignore_patterns("stamp"), copy_function=shutil.copyfile)
        # (last, since rt takes a library that has it as whole)
        shutil.copyfile(here / "stamp", there / "stamp")
    lines = [f"{library_digest(dest, it)} {sources_digest(dest, it)} {it}\n" for it in names]
    head = f"# Libraries of Hobrintza, revision {revision()}: their digests, and those of the sources that they were proved from.\n"
    (dest / BUILT).write_text(head + "".join(lines), encoding="utf-8")
    print(f"proved already: {' '.join(names)}")


def refusal(names, dest, deps):
    """Why nothing is copied, or None."""
    own, before = lines_of(BLOCK.sub("", text_of(dest / "crates.txt")))[0], copied(dest)
    for title, found in (
        ("crates.txt here names no", [it for it in names if it not in deps]),
        (f"{dest} has crates of its own named", [it for it in names if it in own or it not in before and (dest / "crates" / it).exists()]),
        ("here is no crate any more, so take it out of DEST, with what needs it:", [it for it in before if it not in deps]),
        (f"{dest} isn't as it was copied:", [f"\n    {it}" for it in changes(dest)]),
    ):
        if found:
            return f"{title} {' '.join(found)}\nnothing is written"
    return None


def copy(name, dest):
    """Copies a crate in place of an earlier copy. Gives the lines of the digests."""
    here, there = ROOT / "crates" / name, dest / "crates" / name
    for part in PARTS:
        shutil.rmtree(there / part, ignore_errors=True)
    sources = {it: here / it for it in files_of(here)} | {"LICENSE": ROOT / "LICENSE"}
    for file, source in sources.items():
        (there / file).parent.mkdir(parents=True, exist_ok=True)
        shutil.copyfile(source, there / file)
    return [f"{digest_of(there / it)}  crates/{name}/{it}\n" for it in sources]


def lacking_handles(names, dest):
    """The words of HANDLES that the crates take from std and DEST's doesn't have."""
    code = "\n".join(text_of(it) for name in names for it in (ROOT / "crates" / name / "src").rglob("*.rt"))
    allowed = re.findall(r"\w+", text_of(dest / "HANDLES"))
    return [it for it in HANDLES if re.search(rf"\bstd::[^;]*\b{it}\b", code) and it not in allowed]


def revision():
    words = ["git", "-C", str(ROOT), "describe", "--always", "--dirty"]
    return subprocess.run(words, capture_output=True, text=True, check=False).stdout.strip() or "unknown"


def vendor(names, dest, with_libraries=False):
    """Copies, and gives the exit status."""
    lines, deps = lines_of(text_of(ROOT / "crates.txt"))
    wanted = with_below([*names, *copied(dest)], deps)
    why = refusal(list(dict.fromkeys([*names, *wanted])), dest, deps)
    missing = unproved(wanted) if with_libraries and not why else []
    if missing:
        why = f"not proved here: {' '.join(missing)}\nnothing is written; python3 tools/build.py --for-checks NAME proves them"
    if why:
        print(why)
        return 1
    digests = [line for name in wanted for line in copy(name, dest)]
    own = BLOCK.sub("", text_of(dest / "crates.txt"))
    block = "".join([f"{BEGIN}\n", *(lines[it] for it in wanted), f"{END}\n"])
    (dest / "crates.txt").write_text(block + own, encoding="utf-8")
    logic = re.search(r"logic [0-9a-f]{16}", text_of(ROOT / "README.md"))
    head = f"# Crates of Hobrintza, revision {revision()}, proved by {logic[0] if logic else 'an unknown logic'}.\n"
    (dest / RECORD).write_text(head + "".join(digests), encoding="utf-8")
    print(f"copied: {' '.join(wanted)}")
    if with_libraries:
        copy_libraries(wanted, dest)
    lacking = lacking_handles(wanted, dest)
    if lacking:
        print(f"HANDLES has to allow {', '.join(lacking)}")
    return 0


def check(dest):
    found = changes(dest) + library_changes(dest)
    libraries = f", and {len(built(dest))} libraries" if built(dest) else ""
    print("\n".join(found) or f"{len(copied(dest))} crates are as they were copied{libraries}")
    return 1 if found or not copied(dest) else 0


def main(words):
    option = words[0] if words and words[0] in ("--built", "--check") else None
    *names, dest = words[1 if option else 0 :] or sys.exit(__doc__)
    if any(it.startswith("-") for it in [*names, dest]) or bool(names) == (option == "--check"):
        sys.exit(__doc__)
    dest = pathlib.Path(dest)
    if not dest.is_dir() or dest.resolve() == ROOT:
        sys.exit(f"{dest} is no folder of another repository")
    return vendor(names, dest, option == "--built") if names else check(dest)


if __name__ == "__main__":
    sys.exit(main(sys.argv[1:]))
