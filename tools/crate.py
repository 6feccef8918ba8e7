"""A crate as rt sees it, for tools that have to check or compile one in a way that no command of rt does: the kit's own rtlib.py reads
crates.txt and says with which words the compiler is called. `run` in an own folder writes nothing beside it."""
import importlib.machinery
import importlib.util
import pathlib
import subprocess
import sys

TOOLS = pathlib.Path(__file__).resolve().parent
ONE_JOB = ["--jobs", "1"]


def kit(path=""):
    """The kit's folder, or a path in it."""
    return pathlib.Path(subprocess.run([TOOLS / "kit", path], stdout=subprocess.PIPE, text=True, check=True).stdout.strip())


def of_rt():
    """The module that rt itself stands on."""
    sys.dont_write_bytecode = True
    loader = importlib.machinery.SourceFileLoader("rtlib", str(kit("bin/rtlib.py")))
    made = importlib.util.module_from_spec(importlib.util.spec_from_loader("rtlib", loader))
    sys.modules["rtlib"] = made
    loader.exec_module(made)
    return made


rtlib = of_rt()
PARTS = rtlib.PARTS  # the folders of a crate that a check reads


def crate(root, name):
    return rtlib.Crate(f"{root}/crates/{name}", str(root), {})


def compiler(command, of, *more, folder=None, sources=False):
    """What the compiler says of a crate, with its status: over the libraries below as they were built, or else as `sources`. The crate's own
    files are those of `folder`, if it is given."""
    words = [rtlib.RATTLE, command, *of.words(ONE_JOB, keeps=False, as_source=sources), *map(str, more)]
    return subprocess.run(words, cwd=folder or of.folder, stdin=subprocess.DEVNULL, stdout=subprocess.PIPE, stderr=subprocess.STDOUT, text=True, errors="replace")


def stand_in(room, fits, then):
    """In a folder, the kit's toolchain with another clang: a call whose words have `fits` among them leaves the module that it is given there,
    as module.bc, and goes on with `then`; any other is the kit's. Gives the module's place."""
    toolchain = kit("toolchain")
    (room / "bin").mkdir(parents=True)
    (room / "lib").symlink_to(toolchain / "lib")
    for tool in (toolchain / "bin").iterdir():
        if tool.name != "clang":
            (room / "bin" / tool.name).symlink_to(tool)
    keep = f'for word in "$@"; do case $word in *.bc) cp "$word" "{room}/module.bc" ;; esac; done'
    real = f'exec "{toolchain}/bin/clang" "$@"'
    clang = room / "bin/clang"
    clang.write_text(f'#!/bin/sh\ncase " $* " in *" {fits} "*) ;; *) {real} ;; esac\n{keep}\n{then or real}\n')
    clang.chmod(0o755)
    return room / "module.bc"
