"""How many lines must be read by who wants to know what the headline of the lock word says, and what `look` says of it:
`specs/Headline.antt`, and each definition that it or one of these cites, with its comments. Beside them stand the Rust types
that are cited, as the sources write them, and words of std and of the table. A page that tells the numbers tells them right.
"""
import re

HEADLINE = "crates/lockword/specs/Headline.antt"
LOOK = ("lockword", "Laws", "StoodBy")
MOST = 200
USE = re.compile(r"^(?:pub )?use Rattle\.(\w+)\.specs\.([\w.]+)\.\{(.*)\}$", re.M)
VARIANTS = re.compile(r"^use Rattle\.(\w+)\.specs\.declared\.(\w+)\.(\w+)\.TheVariants", re.M)
TOLD = re.compile(r"(\d+) lines with all that it cites, beside (\d+) of Rust types")
DEFINED = re.compile(r"^ *(?:unfoldable )?(?:pub )?(?:abbrev|data|record) (?:pub )?(\w+)", re.M)


def uses(text):
    """The crate, the module and the name of each thing that a text takes from elsewhere, by the name that it has there."""
    for crate, module, names in USE.findall(text):
        for name in names.split(", "):
            there, _, here = name.partition(" as ")
            yield here or there, (crate, module, there)


def blocks(text):
    """The definitions of a text: each stands between two empty lines, with its comments, its `use` lines apart."""
    lines = [it for it in text.splitlines() if not it.startswith(("use ", "pub use ", "unfoldable pub use "))]
    return [it for it in re.split(r"\n\s*\n", "\n".join(lines)) if it.strip()]


class Reading:
    """What is read: blocks of definitions by file, and Rust types by file."""

    def __init__(self, tree):
        self.tree, self.definitions, self.types = tree, {}, set()
        text = tree.text(HEADLINE)
        self.lines = len(text.splitlines())
        self.follow(text, text)
        self.read(*LOOK)

    def follow(self, text, block):
        """Reads what a block cites of what its file takes from elsewhere."""
        for name, (crate, module, there) in uses(text):
            if re.search(rf"(?<![\w.]){re.escape(name)}(?![\w?])", re.sub(r"(?m)^(?:pub )?use .*$", "", block)):
                self.read(crate, module, there)
        for crate, file, name in VARIANTS.findall(text) if block is text else ():
            self.types.add((crate, file, name))

    def read(self, crate, module, name):
        if module.startswith("declared."):
            self.types.add((crate, *module.split(".")[1:2], name))
            return
        path = f"crates/{crate}/specs/{module.replace('.', '/')}.antt"
        if path not in self.tree.paths(re.escape(path)):
            return
        text = self.tree.text(path)
        handed = {here: there for here, there in uses("\n".join(it for it in text.splitlines() if it.startswith("pub use ")))}
        if name in handed:
            self.read(*handed[name])
        self.read_in(path, text, name)

    def read_in(self, path, text, name):
        """Reads the definition of a name in its file, and what this cites."""
        if path == HEADLINE:
            return
        for block in (it for it in blocks(text) if name in DEFINED.findall(it)):
            if (path, block) not in self.definitions:
                self.definitions[path, block] = len(block.strip("\n").splitlines())
                self.follow(text, block)
                for other in set(re.findall(r"\w+", block)) & set(DEFINED.findall(text)):
                    self.read_in(path, text, other)

    def all(self):
        return self.lines + sum(self.definitions.values())

    def of_types(self):
        """The lines of the Rust types and constants that are cited, and of the types that these have, with their comments."""
        ahead, known = list(self.types), {}
        while ahead:
            crate, file, name = ahead.pop()
            if (crate, name) not in known:
                text = self.tree.text(f"crates/{crate}/src/{file}.rt")
                known[crate, name] = item_lines(text.splitlines(), name)
                ahead += self.parts(crate, text, known[crate, name])
        return sum(map(len, known.values()))

    def parts(self, crate, text, lines):
        """The types of this repository that an item's lines name, of its own crate and of those that its file names."""
        named = set(re.findall(r"\b[A-Z]\w+", re.sub(r"//.*", "", "\n".join(lines))))
        for other in {crate, *re.findall(r"\buse (?:Rattle\.)?(\w+)(?:\.|::)", text)}:
            for path in self.tree.paths(rf"crates/{other}/src/\w+\.rt"):
                for name in named & set(re.findall(r"^pub (?:struct|enum) (\w+)", self.tree.text(path), re.M)):
                    yield other, path.split("/")[-1][:-3], name


def item_lines(lines, name):
    """The lines of a type or a constant, with the comments above it."""
    at = next((i for i, it in enumerate(lines) if re.match(rf"pub (?:struct|enum|const) {name}\b", it)), None)
    if at is None:
        return []
    first, last = at, at
    while lines[first - 1].startswith(("///", "#[")):
        first -= 1
    while not lines[last].endswith(";") and lines[last] != "}":
        last += 1
    return lines[first : last + 1]


def check(tree, told):
    reading = Reading(tree)
    have = (reading.all(), reading.of_types())
    told.holds(have[0] <= MOST, HEADLINE, f"has {have[0]} lines with all that it cites, and at most {MOST} are allowed")
    said = [tuple(map(int, it)) for it in TOLD.findall(tree.text("docs/lock-word.md"))]
    told.holds(said == [have], "docs/lock-word.md", f"says {said} of the lines that the headline's reader reads, and these are {have}")
