"""The man page is what its tool makes of the guide, so that what holds of the guide holds of it."""

from lib.pages.made import check_page
from lib.pages.tree import GUIDE, MAN


def check(tree, told):
    check_page(tree, told, MAN, "tools/man_page.py", GUIDE, tree.text(GUIDE))
