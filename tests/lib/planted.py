"""Plants: wrong bodies of what the running relay decides, all of them in one unproved program, of which a switch has one on.

A plant is a file of `tests/plants`, named for what it does. Its line `seen: SCRIPT STAGE: CHECK` says which check of
`tests/system` has to fail. Its other lines are as in `crates/NAME/wrong-bodies`, with paths from the top; in a line `new:` the
word `planted` stands for whether the plant is on. The environment of the program says that, by the plant's number (`PLANT`).

What a library decides, and no script on a relay sees reliably, is seen by the library's tests: there `seen: CRATE TEST: ROW` names the crate
of the tests, the test and the row that fails, and the plant is on in a copy of the sources.
"""
import hashlib
import os
import re
import shutil
import subprocess
import sys
import tempfile
from collections import namedtuple

from lib.edits import applied_together, apply, read_edit
from lib.places import LIB, ROOT

FOLDER = f"{ROOT}/tests/plants"
# A crate that says which plant is on. Its C is the program's alone: no crate of the repository has any.
SWITCH = "planted"
SWITCH_TEXT = f"""//! Which plant is on.
#![tactic(auto)]

unsafe extern "C" {{
    safe fn {SWITCH}_number() -> u32;
}}

/// Whether the plant with this number is on.
pub fn is_on(number: u32) -> bool {{
    {SWITCH}_number() == number
}}
"""
SEEN = re.compile(r"^seen: (\w+) (\w+): (.+)$", re.M)

class Plant(namedtuple("Plant", "name number edit script stage check")):
    """A plant: its name and number, the edit, and the script, the stage and the beginning of the check that has to see it, or the crate
    of tests, the test and the row.
    """

    def is_for_a_crate(self):
        return self.script.endswith("_tests")


class PlantFault(RuntimeError):
    """A plant that can't be read, or doesn't apply."""


def text_at(path):
    with open(f"{ROOT}/{path}", encoding="utf-8") as file:
        return file.read()


def switched(number):
    """Whether the plant of this number is on, as a source asks it."""
    return f"{SWITCH}::is_on({number})"


def read_plant(path, number):
    edit = read_edit("", path)
    with open(path, encoding="utf-8") as file:
        seen = SEEN.search(file.read())
    if not seen:
        raise PlantFault(f"{edit.name}: its line `seen:` isn't `SCRIPT STAGE: CHECK`")
    pairs = tuple((file, old, re.sub(rf"\b{SWITCH}\b", switched(number), new)) for file, old, new in edit.pairs)
    if any(new == before for (_, _, new), (_, _, before) in zip(pairs, edit.pairs)):
        raise PlantFault(f"{edit.name}: a line `new:` doesn't ask whether it is `{SWITCH}`")
    return Plant(edit.name, number, edit._replace(pairs=pairs, refused=seen[0]), *seen.groups())


def plants():
    """All plants by their names, with numbers from 1."""
    names = sorted(it for it in os.listdir(FOLDER) if it.endswith(".edit"))
    return [read_plant(f"{FOLDER}/{name}", at + 1) for at, name in enumerate(names)]


def planted_texts(all_plants):
    """The texts of the sources with all plants in them, by paths."""
    for it in all_plants:
        _, why = apply(it.edit, text_at)
        if why:
            raise PlantFault(f"{it.name}: {why}")
    texts = applied_together([it.edit for it in all_plants], text_at)
    if texts is None:
        raise PlantFault("a plant keeps another from applying")
    return texts


def with_switch(listed, crates):
    """The text of crates.txt where these crates stand on the switch too."""
    for it in crates:
        listed = re.sub(rf"^({it}\b[^:\n#]*:.*)$", rf"\1 {SWITCH}", listed, flags=re.M)
    return f"{listed}{SWITCH}:\n"


def write(path, text):
    os.makedirs(os.path.dirname(path), exist_ok=True)
    with open(path, "w", encoding="utf-8") as file:
        file.write(text)


def make_tree(folder, texts):
    """What crates and programs are built of, with these texts in place of others."""
    for crate in os.listdir(f"{ROOT}/crates"):
        for part in ("src", "specs"):
            if os.path.isdir(f"{ROOT}/crates/{crate}/{part}"):
                shutil.copytree(f"{ROOT}/crates/{crate}/{part}", f"{folder}/crates/{crate}/{part}")
    for path in ("tools/unproved.py", "tests/lib"):
        copy = shutil.copytree if os.path.isdir(f"{ROOT}/{path}") else shutil.copy
        os.makedirs(os.path.dirname(f"{folder}/{path}"), exist_ok=True)
        copy(f"{ROOT}/{path}", f"{folder}/{path}")
    for path, text in texts.items():
        write(f"{folder}/{path}", text)


def make_program_tree(folder, texts):
    """What a program is built of, with these texts in place of others, and the switch."""
    make_tree(folder, texts)
    write(f"{folder}/crates.txt", with_switch(text_at("crates.txt"), {path.split("/")[1] for path in texts}))
    write(f"{folder}/crates/{SWITCH}/src/lib.rt", SWITCH_TEXT)
    os.makedirs(f"{folder}/crates/{SWITCH}/c")
    shutil.copy(f"{LIB}/{SWITCH}.c", f"{folder}/crates/{SWITCH}/c/")


def stamp(all_plants):
    """What tells a program of other sources, plants or tools."""
    from lib import checker  # (it needs the kit, which a reader of the plants may lack)

    relay = next(it for it in checker.crates() if it.name == "pollrelay")
    edits = repr([(it.number, it.edit.pairs) for it in all_plants])
    return hashlib.sha256("\0".join([relay.stamp(), edits, SWITCH_TEXT, text_at(f"tests/lib/{SWITCH}.c")]).encode()).hexdigest()


def program(all_plants):
    """The path of the program with all plants, which is built where it doesn't stand."""
    made = f"{ROOT}/crates/pollrelay/out/{SWITCH}"
    now, texts = stamp(all_plants), planted_texts(all_plants)
    if not os.path.isfile(f"{made}/stamp") or text_at(f"crates/pollrelay/out/{SWITCH}/stamp") != now:
        shutil.rmtree(made, ignore_errors=True)
        with tempfile.TemporaryDirectory(prefix=f"{SWITCH}-") as folder:
            make_program_tree(folder, texts)
            words = [sys.executable, f"{folder}/tools/unproved.py"]
            built = subprocess.run(words, env={**os.environ, "RT_ALLOW_C": SWITCH}, stdout=subprocess.PIPE, text=True, check=False)
            if built.returncode:
                raise PlantFault(f"the program with the plants isn't built: {built.stdout}")
            os.makedirs(made)
            shutil.copy(built.stdout.split()[-1], f"{made}/pollrelay")
        write(f"{made}/stamp", now)
    return f"{made}/pollrelay"


def tried_in_its_crate(plant, is_on, seconds):
    """What the tests of the crate that a plant names say, where the plant is on or isn't, and whether all of them passed."""
    pairs = tuple((file, old, new.replace(switched(plant.number), "true")) for file, old, new in plant.edit.pairs)
    texts = applied_together([plant.edit._replace(pairs=pairs)], text_at) if is_on else {}
    with tempfile.TemporaryDirectory(prefix=f"{SWITCH}-") as folder:
        make_tree(folder, texts)
        for name in ("crates.txt", "HANDLES"):
            shutil.copy(f"{ROOT}/{name}", folder)
        words, where = ["rt", "try", "--test"], f"{folder}/crates/{plant.script}"
        ran = subprocess.run(words, cwd=where, stdout=subprocess.PIPE, stderr=subprocess.STDOUT, text=True, timeout=seconds, check=False)
        return ran.stdout, ran.returncode == 0
