"""Pages that a tool makes: each is what its tool makes now."""

import importlib.util
import os

from lib.places import ROOT


def page_of(tool, *given):
    """What the tool's `page` makes of these."""
    how = importlib.util.spec_from_file_location(os.path.basename(tool)[:-3], os.path.join(ROOT, tool))
    module = importlib.util.module_from_spec(how)
    how.loader.exec_module(module)
    return module.page(*given)


def check_page(tree, told, page, tool, source, *given):
    """A page is what a tool makes of its source, which the tool can read."""
    try:
        wanted = page_of(tool, *given).splitlines()
    except ValueError as fault:
        told.holds(False, source, f"{tool} can't read it: {fault}")
        return
    found = tree.text(page).splitlines()
    differ = next((at for at, pair in enumerate(zip(wanted, found), 1) if pair[0] != pair[1]), min(len(wanted), len(found)))
    told.holds(wanted == found, page, f"isn't what {tool} makes of {source}", differ)
