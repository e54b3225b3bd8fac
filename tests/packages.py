"""Debian's packages that the tests need, installed where the commands that they bring are missing."""
import fcntl
import os
import shutil
import subprocess

from programs import TOP


def apt_get(*words):
    """What apt-get complains of; None if it did what it was asked."""
    start = [] if os.geteuid() == 0 else ["sudo", "-n"]
    quiet = {**os.environ, "DEBIAN_FRONTEND": "noninteractive"}
    try:
        ended = subprocess.run([*start, "apt-get", *words], capture_output=True, text=True, errors="replace", timeout=900, env=quiet)
    except (OSError, subprocess.TimeoutExpired) as problem:
        return str(problem)
    return ended.stdout + ended.stderr if ended.returncode else None


def lacks(packages):
    """What is missing, after an attempt to install it; None if all commands are there. `packages` has for each command those of Debian that bring it."""
    missing, said = lambda: [command for command in packages if not shutil.which(command)], None
    install = lambda: ["install", "-y", "--no-install-recommends", *sum((packages[command] for command in missing()), [])]
    os.makedirs(os.path.join(TOP, "target"), exist_ok=True)
    # one test at a time: apt-get refuses to run twice
    with open(os.path.join(TOP, "target", "apt.lock"), "w", encoding="utf-8") as lock:
        fcntl.flock(lock, fcntl.LOCK_EX)
        for words in (install, lambda: ["update"], install):
            if not missing():
                return None
            said = apt_get(*words())
    return f"not there, and not to be installed: {' '.join(missing())}: {said or 'apt-get says that they are'}" if missing() else None
