"""Runs the program over a file and reads the calls by which it opens, writes and syncs it, as a library tells them that is laid before the C
library (`device_calls.c`). The kit's compiler builds that, so nothing else is needed.
"""
import os
import subprocess

HERE = os.path.dirname(os.path.abspath(__file__))
# The kit's folder has the page that its command names.
KIT = os.environ.get("RATTLE_KIT") or os.path.dirname(subprocess.run(["rt", "doc"], stdout=subprocess.PIPE, text=True, check=True).stdout.strip())
CLANG = [
    f"{KIT}/toolchain/bin/clang", "--target=x86_64-unknown-linux-gnu", f"--sysroot={KIT}/toolchain", "--no-default-config", "-nostdinc",
    "-nostdlib", "-fuse-ld=lld", "-shared", "-fPIC", "-O1",
]


def library(room):
    """Builds the library into a folder, and answers its path."""
    path = os.path.join(room, "device_calls.so")
    subprocess.run([*CLANG, "-o", path, os.path.join(HERE, "device_calls.c")], check=True)
    return path


class Calls:
    """A run of the program, and its calls in their order. Each is a name and more: `pwrite` with its place and length, `sync`, `print` with
    what was printed, and `other` for a write or a sync of anything but the one file that was opened."""

    def __init__(self, laid, words, source, seconds, failing=()):
        surroundings = {**os.environ, "LD_PRELOAD": laid, **dict(failing)}
        done = subprocess.run(words, input=source, stdout=subprocess.PIPE, stderr=subprocess.PIPE, env=surroundings, timeout=seconds)
        self.status, self.lines, self.made = done.returncode, done.stdout.decode().splitlines(), []
        told, opened = done.stderr, []
        while told:
            line, _, told = told.partition(b"\n")
            name, file, place, length = line.decode().split()
            if name == "open":
                opened.append(file)
            elif name == "write":
                self.made.append(("print" if file == "1" else "other", told[: int(length)].decode()))
                told = told[int(length) :]
            else:
                self.made.append((name if opened == [file] else "other", int(place), int(length)))

    def printed(self):
        return "".join(what[0] for name, *what in self.made if name == "print").splitlines()
