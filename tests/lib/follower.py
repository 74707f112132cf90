"""Follows a page as its reader does: writes its files, gives its commands, and looks for what they have to print.

A block of `sh` is commands, in the folder where the block before ended. A block below a line with a path alone is that file. A
block of `text` behind commands is what they print: each of its lines has to come, in their order. In such a line `..` stands for
anything. Any other block is quoted from the files that stand where the reader is.
"""
import glob
import os
import re
import subprocess

BLOCK = re.compile(r"^(?:`(?P<path>[\w./-]+)`:\n\n)?```(?P<kind>\w+)\n(?P<text>.*?)^```$", re.M | re.S)
SECONDS = 1_500


class Follower:
    """The folder where the reader is, and what the last commands printed, or None where they were left out.

    `left_out` is what commands have that aren't given, and `env` what the reader has in his environment.
    """

    def __init__(self, checks, folder, env, left_out=None):
        self.checks, self.top, self.at, self.env, self.left_out = checks, folder, folder, env, left_out
        self.printed = None

    def follow(self, page):
        for block in BLOCK.finditer(page):
            line = page[: block.start("text")].count("\n") + 1
            if block["path"]:
                self.write(block["path"], block["text"])
            elif block["kind"] == "sh":
                self.give(line, block["text"])
            elif block["kind"] == "text":
                self.look_for(line, block["text"])
            else:
                self.compare(line, block["text"])

    def give(self, line, text):
        if self.left_out and self.left_out.search(text):
            self.printed = None
            return
        script = f"cd '{self.at}'\n{text}\npwd >'{self.top}/where'\n"
        ran = subprocess.run(
            ["sh", "-e", "-c", script], env={**os.environ, **self.env}, stdin=subprocess.DEVNULL, stdout=subprocess.PIPE,
            stderr=subprocess.STDOUT, text=True, errors="replace", timeout=SECONDS, check=False,
        )
        self.checks.holds(f"line {line}: {text.splitlines()[0]}", ran.returncode == 0, f"status {ran.returncode}: {ran.stdout[-2_000:]}")
        self.printed = ran.stdout
        if ran.returncode == 0:
            with open(f"{self.top}/where", encoding="utf-8") as file:
                self.at = file.read().rstrip("\n")

    def write(self, path, text):
        path = f"{self.at}/{path}"
        os.makedirs(os.path.dirname(path), exist_ok=True)
        with open(path, "w", encoding="utf-8") as file:
            file.write(text)

    def compare(self, line, text):
        """A quotation with the files of the crate where the reader is."""
        there = [it for part in ("src", "specs") for it in glob.glob(f"{self.at}/{part}/**/*.*t", recursive=True)]
        texts = []
        for path in there:
            with open(path, encoding="utf-8") as file:
                texts.append(file.read())
        self.checks.holds(f"line {line}: a quotation", any(text in it for it in texts), f"no file of {there} has it")

    def look_for(self, line, text):
        """The lines of a text, each behind the one before."""
        at = 0
        for wanted in text.splitlines() if self.printed is not None else ():
            found = re.compile(re.escape(wanted).replace(r"\.\.", ".*")).search(self.printed, at)
            self.checks.holds(f"line {line}: {wanted}", found, f"not in {self.printed!r}")
            at = found.end() if found else at
