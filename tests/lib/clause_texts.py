"""Reads what the crates promise out of their texts: the clauses of functions, the ghost members of types and traits, and the
definitions of specs/ that they cite.

A promise is told by its crate, the function, type or definition, and its kind with its name, as `ensures:answer`; clauses
without a name are numbered. Its text is compared without regard to layout and comments. A crate of tests promises nothing.
"""

import hashlib
import pathlib
import re
import subprocess
from collections import defaultdict, namedtuple

from lib.places import ROOT

# A promise in a file: its key, its text, and the file's imports.
Promise = namedtuple("Promise", "key text imports")
Key = namedtuple("Key", "crate where what")

HEAD = re.compile(r"^( *)(?:pub(?:\([^)]*\))? )?(?:const |unsafe )*fn (\w+)", re.M)
CLAUSE = re.compile(r"\b(requires|ensures)(?: ?\*)?(?: (\w+))? \{")
GHOST = re.compile(r"^ +(?:pub )?ghost (\w+)\b(?=:| =)", re.M)
OWNER = re.compile(r"^(?:pub(?:\([^)]*\))? )?(impl|trait|struct|enum)\b([^{;]*)", re.M)
IMPORT = re.compile(r"\buse (Rattle\.[\w.]+)\.\{([^}]*)\}", re.S)
SHORT = re.compile(r"\buse (Rattle\.\w+\.specs\.(?!declared\.)[\w.]+) as (\w+)")
DEFINED = re.compile(r"^((?:abbrev |unfoldable |pub |record |data )*)([^\s:({]+)")

# A definition's kind, and that of a name that one file of specs/ hands on from another.
DEFINITION, HANDED_ON = "definition", "use"


def is_promise_text(path):
    found = re.fullmatch(r"crates/(\w+)/(?:src/.*\.rt|specs/.*\.antt)", path)
    return bool(found) and not found[1].endswith("_tests")


def run(*words):
    return subprocess.run(words, cwd=ROOT, capture_output=True, text=True, check=True).stdout


def texts_of(revision=None):
    """The texts of src/ and specs/ by path: of the work tree, or of a revision."""
    if revision is None:
        files = sorted(pathlib.Path(ROOT).glob("crates/*/s*/**/*.*t*"))
        paths = {str(it.relative_to(ROOT)): it for it in files if it.is_file()}
        return {path: it.read_text(encoding="utf-8") for path, it in paths.items() if is_promise_text(path)}
    paths = run("git", "ls-tree", "-r", "--name-only", revision, "crates").splitlines()
    return {it: run("git", "show", f"{revision}:{it}") for it in paths if is_promise_text(it)}


def balanced(text, at):
    """The text between the brace at `at` and the one that closes it, and the place behind that."""
    depth, end = 1, at + 1
    while depth and end < len(text):
        depth += {"{": 1, "}": -1}.get(text[end], 0)
        end += 1
    return text[at + 1 : end - 1], end


def owner_of(code, at):
    """The type or trait in whose block a place is, or none."""
    heads = [it for it in OWNER.finditer(code, 0, at)]
    if not heads or re.search(r"^[})]", code[heads[-1].end() : at], re.M):
        return ""
    words = heads[-1][2]
    while re.search(r"<[^<>]*>", words):
        words = re.sub(r"<[^<>]*>", "", words)
    named = re.search(r"(?:\bfor |^)\s*([\w:]+)\s*(?:where\b.*|:.*|\(.*)?$", words.strip(), re.S)
    return named[1].split("::")[-1] if named else ""


def imports_of(text):
    """Which module each imported name comes from, and which one each short name of a module, as `spec.`, stands for."""
    found = {f"{name}.": path for path, name in SHORT.findall(text)}
    for path, names in IMPORT.findall(text):
        found |= {it.strip(): path for it in names.split(",") if it.strip()}
    return found


def folded(text):
    return " ".join(text.split())


def functions_in(crate, code):
    """Each function's clauses; a function without one has a promise without a text, so that it is known to be there."""
    for head in HEAD.finditer(code):
        ends = re.compile(rf"^{head[1]}\{{|^{head[1]}\}}|;\n", re.M).search(code, head.end())
        end, at, unnamed = ends.start() if ends else len(code), head.end(), defaultdict(int)
        owner = owner_of(code, head.start())
        where = f"{owner}::{head[2]}" if owner else head[2]
        first = CLAUSE.search(code, at, end)
        if not first:
            yield Key(crate, where, "-"), ""
        while (clause := CLAUSE.search(code, at, end)) is not None:
            said, at = balanced(code, clause.end() - 1)
            unnamed[clause[1]] += clause[2] is None
            yield Key(crate, where, f"{clause[1]}:{clause[2] or f'#{unnamed[clause[1]]}'}"), said


def ghosts_in(crate, code):
    """The ghost members of types and traits: what always holds of a value, and what an implementation means."""
    for ghost in GHOST.finditer(code):
        at, said = ghost.end(), []
        while (part := re.compile(r"\s*[:=]\s*\{").match(code, at)) is not None:
            text, at = balanced(code, part.end() - 1)
            said.append(text)
        yield Key(crate, owner_of(code, ghost.start()) or "-", f"ghost:{ghost[1]}"), " = ".join(said)


def lines_at(text):
    """The items of a file of specs/, each with what stands indented below it; what a module has ahead goes with each."""
    ahead, items = "", []
    for line in re.sub(r"^\s*--.*\n", "", text, flags=re.M).splitlines():
        depth = len(line) - len(line.lstrip())
        if not line.strip():
            continue
        if depth == 0:
            ahead = line if line.startswith("module ") else ""
            if not ahead:
                items.append(("", line))
        elif depth == 2 and ahead:
            items.append((ahead, line))
        elif items:
            items[-1] = (items[-1][0], f"{items[-1][1]} {line}")
    return items


def definitions_in(crate, text):
    """Each definition with its equations, and each name that is handed on, with where it comes from."""
    found = defaultdict(list)
    for ahead, item in lines_at(text):
        head = DEFINED.match(item.strip())
        if re.match(r"(pub )?(use|mod)\b", item):
            for name, path in imports_of(item).items() if item.startswith("pub use") else ():
                found[Key(crate, name, HANDED_ON)].append(path)
        elif head and not head[2].startswith(("}", ")")):
            name = head[2]
            found[Key(crate, name, DEFINITION)] += ([ahead] if "pub " in head[1] else []) + [item]
        elif found:
            found[list(found)[-1]].append(item)
    return ((key, " ".join(said)) for key, said in found.items())


def promises_of(texts):
    """All promises of these texts."""
    found = []
    for path, text in texts.items():
        crate, imports = path.split("/")[1], imports_of(text)
        if path.endswith(".rt"):
            code = re.sub(r"//[^\n]*", "", text)
            read = [*functions_in(crate, code), *ghosts_in(crate, code)]
        else:
            read = definitions_in(crate, text)
        found += [Promise(key, folded(said), imports) for key, said in read]
    return found


def defined_often(keys):
    """The names of which there are two definitions or more."""
    count = defaultdict(int)
    for key in keys:
        count[key.where] += key.what == DEFINITION
    return {name for name, times in count.items() if times > 1}


def digest_of(promise, ambiguous):
    """A short digest of a promise's text, and of where the names in it come from of which there are several."""
    if promise.key.what == "-":
        return "-"
    words = set(re.findall(r"[^\s(){}.,∷]+", promise.text))
    known = [f"{it}={promise.imports.get(it, 'here')}" for it in sorted(words & ambiguous)]
    known += [f"{it}.={promise.imports[f'{it}.']}" for it in sorted(words) if f"{it}." in promise.imports]
    return hashlib.sha256(" ".join([promise.text, *known]).encode()).hexdigest()[:12]
