"""Programs of Debian's packages that a script needs."""
import os
import shutil
import subprocess
import sys


def is_there(command):
    return shutil.which(command) or os.path.exists(command)


def install(*pairs):
    """Installs the packages of those commands, or files, that aren't there: a pair is `command:package`, or has several packages."""
    # (a user's path leaves out what is root's alone)
    os.environ["PATH"] += ":/usr/sbin:/sbin"
    lacking = [word for command, packages in (it.split(":") for it in pairs) if not is_there(command) for word in packages.split()]
    if lacking:
        env = {**os.environ, "DEBIAN_FRONTEND": "noninteractive"}
        # (a machine that was never asked for a package has no list of them)
        subprocess.run(["apt-get", "update", "-qq"], env=env, stdout=sys.stderr, check=False)
        words = ["apt-get", "install", "-y", "--no-install-recommends", "-o", "DPkg::Lock::Timeout=120", *lacking]
        if subprocess.run(words, env=env, stdout=sys.stderr, check=False).returncode:
            sys.exit(f"not there: {' '.join(lacking)}")
