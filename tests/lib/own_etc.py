"""A folder in the place of /etc for a relay, so that its resolver asks the files of a test alone. It wants root and `unshare`."""
import json
import os
import sys
import tempfile

from lib.places import LIB

MOUNTED = 'mount --bind "$0" /etc && exec "$@"'


class OwnEtc:
    """The files by which names are looked up. `words` are those ahead of a program's that has them.

    With `has_server` the program has a network of its own too, and a name server there (lib/name_server.py), which is asked for hosts
    that the file doesn't have."""

    def __init__(self, has_server=False):
        self.made = tempfile.TemporaryDirectory(prefix="etc-")
        # (without `multi on` the C library takes the first line of a name alone)
        self.put("host.conf", "multi on\n")
        self.put("nsswitch.conf", f"hosts: files{' dns' * has_server}\n")
        self.put("resolv.conf", "nameserver 127.0.0.1\noptions timeout:30 attempts:1\n")
        self.know({})
        self.serve({})
        self.words = ("unshare", "-m", "sh", "-c", MOUNTED, self.made.name)
        if has_server:
            self.words = ("unshare", "-n", *self.words, sys.executable, f"{LIB}/name_server.py", f"{self.made.name}/served")

    def put(self, name, text):
        """Has a file say this, all at once."""
        path = f"{self.made.name}/{name}"
        with open(f"{path}.new", "w", encoding="ascii") as file:
            file.write(text)
        os.rename(f"{path}.new", path)

    def know(self, hosts):
        """From now on the file has these hosts, each with these addresses."""
        self.put("hosts", "".join(f"{at} {host}\n" for host, addresses in hosts.items() for at in addresses))

    def serve(self, hosts):
        """From now on the name server answers so."""
        self.put("served", json.dumps(hosts))

    def close(self):
        self.made.cleanup()
