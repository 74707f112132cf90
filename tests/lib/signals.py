"""Signals as the children of a script find them."""
import signal


def hear_all():
    """Has children catch what whoever started the script ignored, as `nohup` and a shell's `&` do: a shell can't otherwise."""
    for it in (signal.SIGHUP, signal.SIGQUIT, signal.SIGTERM):
        signal.signal(it, signal.SIG_DFL)
    signal.signal(signal.SIGINT, signal.default_int_handler)
