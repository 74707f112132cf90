"""Crates as the modules of one crate: what they use is built once, and that is most of a build."""
import os
import re
import shutil

from lib.places import ROOT

LISTED = re.compile(r"^(\w+)[^:\n#]*:[ \t]*(.*)$", re.M)
# What stands only in the first file of a crate.
HEAD = "#![tactic(auto)]\n"
FIRST = ("lib.rt", "main.rt")
# Only the program's own main has all of the runtime by its type: a module's has what the first file calls Host.
MAIN = "\npub fn main<H: crate::Host>(rt: H)"


def text_of(path):
    with open(path, encoding="utf-8") as file:
        return file.read()


def write(path, text):
    os.makedirs(os.path.dirname(path), exist_ok=True)
    with open(path, "w", encoding="utf-8") as file:
        file.write(text)


def texts_below(folder):
    """The texts of a folder's files by their paths in it."""
    paths = sorted(f"{at}/{it}" for at, _, files in os.walk(folder) for it in files)
    return {os.path.relpath(it, folder): text_of(it) for it in paths}


class Joined:
    """A repository in a folder, with the crates of this one, and with one of which others are modules."""

    def __init__(self, top, name):
        self.top, self.name, self.crate = top, name, f"{top}/crates/{name}"
        self.listed = dict(LISTED.findall(text_of(f"{ROOT}/crates.txt")))
        self.modules, self.uses = [], {}
        for it in self.listed:
            shutil.copytree(f"{ROOT}/crates/{it}/src", f"{top}/crates/{it}/src")

    def take_crate(self, name):
        """Takes a crate of this repository in."""
        self.take(name, self.listed[name].split(), texts_below(f"{ROOT}/crates/{name}/src"))

    def take(self, name, uses, texts):
        """Takes a crate of these texts in: its first file is its module's, and the others stand below it."""
        self.modules.append(name)
        self.uses |= dict.fromkeys(uses)
        for path, text in texts.items():
            text, path = text.replace("crate::", f"crate::{name}::"), f"{name}/{path}" if path not in FIRST else f"{name}.rt"
            write(f"{self.crate}/src/{path}", text.replace(HEAD, "").replace("\nfn main(rt: HostRuntime)", MAIN))

    def begin(self, file, text=""):
        """Writes the first file, which names the modules, and then has this text; and the crate's line of crates.txt."""
        write(f"{self.crate}/src/{file}", "".join([HEAD, "\n", *(f"mod {it};\n" for it in self.modules), text]))
        write(f"{self.top}/crates.txt", f"{text_of(f'{ROOT}/crates.txt')}{self.name}: {' '.join(self.uses)}\n")
