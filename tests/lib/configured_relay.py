"""A relay by a configuration of rules, with a log and two loops in its own folder."""
import contextlib

from lib.relay import Relay

ADMIN = '"{folder}/admin.sock"'


def config(*rules, more="", admin=ADMIN):
    return f'admin = {admin}\nlog = "{{folder}}/log"\nloops = 2\n{more}{"".join(rules)}'


def relay(*rules, more="", admin=ADMIN, **given):
    return contextlib.closing(Relay(config(*rules, more=more, admin=admin), form="config", **given))


def reload(it, *rules, more="", admin=ADMIN):
    it.write(config(*rules, more=more, admin=admin))
    return it.ask("reload")
