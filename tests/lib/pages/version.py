"""The program's version, as it says it, is that of the package, of the guide's commands and of the CHANGELOG."""

import re

from lib.pages.rust import constants
from lib.pages.tree import GUIDE, HELP

PACKAGE, CHANGES = "packaging/debian/changelog", "CHANGELOG.md"


def check(tree, told):
    said = re.search(r"\d+\.\d+\.\d+", str(constants(tree.text(HELP)).get("VERSION")))
    if not told.reads(said, HELP, __file__):
        return
    package = re.match(r"pollrelay \(((\S+)-\d+)\)", tree.text(PACKAGE))
    told.holds(package and package[2] == said[0], PACKAGE, f"the program says that it is {said[0]}")
    for it in re.findall(r"pollrelay_([\d.]+-\d+)_", tree.text(GUIDE)):
        told.holds(package and it == package[1], GUIDE, f"has a package {it}, and {PACKAGE} {package and package[1]}")
    told.holds(re.search(rf"^## {re.escape(said[0])}\b", tree.text(CHANGES), re.M), CHANGES, f"has no heading {said[0]}, which the program says that it is")
