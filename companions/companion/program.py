"""The programs: where they are, and the SHA-256 of hkreplay."""

import hashlib
import os
import shutil
import subprocess

from .saying import Trouble, unreadable

HERE = os.path.dirname(os.path.dirname(os.path.dirname(os.path.realpath(__file__))))
BUILT = os.path.join(HERE, "crates", "hkreplay", "out", "hkreplay")
BUILT_MONITOR = os.path.join(HERE, "crates", "hkmon", "out", "hkmon")


def monitor_path():
    """The hkmon that this repository built, or the one on the path; else None."""
    return BUILT_MONITOR if os.path.exists(BUILT_MONITOR) else shutil.which("hkmon")


def program_path(given=None):
    """The program that was named, or the one that this repository built, or the one on the path; else None."""
    if given is not None:
        if not os.path.exists(given):
            raise Trouble(f"{given}: no such file", "give the built hkreplay")
        return given
    return BUILT if os.path.exists(BUILT) else shutil.which("hkreplay")


def sha256_of(path):
    try:
        with open(path, "rb") as file:
            return hashlib.file_digest(file, "sha256").hexdigest()
    except OSError as error:
        raise unreadable(path, error) from error


def prints_of_sound(program, sound, form, flips=0):
    """Words and masks of one segment's sound, by `hkreplay print`."""
    if program is None:
        raise Trouble("hkreplay isn't there", "build it as README says, or give it by --program")
    words = [program, "print", "--channels", str(form.channels), "--factor", str(form.factor), "--flips", str(flips)]
    done = subprocess.run(words, input=sound, stdout=subprocess.PIPE, stderr=subprocess.PIPE, check=False)
    if done.returncode:
        raise Trouble(f"{program} ended with the status {done.returncode}", "see hk explain status")
    return [tuple(int(word, 16) for word in line.split()[1:]) for line in done.stdout.decode().splitlines()]
