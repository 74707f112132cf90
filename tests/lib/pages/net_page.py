"""The reference of `net` is what its tool makes of the crate, and each public item of the crate has its place there."""

from lib.pages.made import check_page


def check(tree, told):
    check_page(tree, told, "docs/net.md", "tools/net_reference.py", "crates/net/src")
