"""A copy of a crate that can be altered and proved again, for the tools that try wrong programs and wrong definitions. It is checked as `rt must-fail`
checks an edit: over the libraries below and what `rt check` kept of the crate, so that only what the alteration touches is proved."""
import os
import pathlib
import shutil
import subprocess
import sys
import tempfile

from crate import PARTS, compiler, crate


def prepared(root, name):
    """The crate, once `rt check` has proved it, which builds the libraries below and keeps what it proved."""
    said = subprocess.run(["rt", "check"], cwd=root / "crates" / name, stdout=subprocess.PIPE, stderr=subprocess.STDOUT, text=True, errors="replace")
    if said.returncode:
        sys.exit(f"{said.stdout[-2000:]}\n{name} is not proved as it stands")
    return crate(root, name)


def link(one, other):
    """What was proved is linked: a check replaces such a file, and changes none."""
    return os.link(one, other) if one.endswith(".oantt") else shutil.copy2(one, other)


class Scratch:
    def __init__(self, of):
        self.of = of
        self.room = pathlib.Path(tempfile.mkdtemp(prefix="khumbuseal-"))
        self.place, self.kept = self.room / of.name, self.room / "kept"

    def __enter__(self):
        return self

    def __exit__(self, *_):
        shutil.rmtree(self.room)

    def restore(self):
        """The crate as the repository has it, and what was proved of it."""
        shutil.rmtree(self.place, ignore_errors=True)
        for part in PARTS:
            if os.path.isdir(f"{self.of.folder}/{part}"):
                shutil.copytree(f"{self.of.folder}/{part}", self.place / part)
        shutil.rmtree(self.kept, ignore_errors=True)
        try:
            shutil.copytree(f"{self.of.folder}/out/incremental", self.kept, symlinks=True, copy_function=link)
        except OSError:  # another disk, say: the same check takes longer
            shutil.rmtree(self.kept, ignore_errors=True)
            self.kept.mkdir()

    def prove(self):
        """What a check says of the crate as it stands."""
        return compiler("check", self.of, "--incremental", self.kept, folder=self.place).stdout
