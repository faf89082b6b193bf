"""What the tools share of the C library's archive: the proved one, the one without proofs, or one that is named."""
import os
import shutil
import subprocess

import unproved
from running import Refusal

TOP = unproved.TOP
PROVED = (f"{TOP}/crates/homa_c/out/libhoma_c.a", f"{TOP}/out/proved/libhoma_c.a")


def with_memory(archive):
    """The archive, and the kit's archive with the three functions of memory that it calls."""
    kit = os.path.dirname(os.path.dirname(os.path.realpath(shutil.which("rt") or "rt")))
    return [os.path.abspath(archive), f"{kit}/c/liblibc_c.a"]


def newest_source():
    """When a source or definition of the library last changed. A folder changes with the files that it has."""
    times = [os.stat(f"{TOP}/crates.txt").st_mtime]
    for crate in unproved.crates_below("homa_c"):
        for part in ("src", "specs"):
            for at, _, files in os.walk(f"{TOP}/crates/{crate}/{part}"):
                times += [os.stat(it).st_mtime for it in (at, *(f"{at}/{name}" for name in files))]
    return max(times)


def proved():
    """The path of the proved archive, or None if there is none, or a source is newer."""
    changed = newest_source()
    return next((it for it in PROVED if os.path.exists(it) and os.stat(it).st_mtime >= changed), None)


def prove():
    """The path of the proved archive, which is proved and built first if it has to be."""
    if not proved() and subprocess.run([f"{TOP}/tools/prove-program", "--library"]).returncode:
        raise Refusal("the library isn't proved")
    return PROVED[0] if os.path.exists(PROVED[0]) else proved()


def built(archive=None):
    """The archive that is named, else the proved one, else one that is built without proofs; and the kit's."""
    return with_memory(archive or proved() or unproved.fresh("libhoma_c.a"))


def is_archive(path):
    """Whether this file begins as an archive does."""
    with open(path, "rb") as it:
        return it.read(8) == b"!<arch>\n"
