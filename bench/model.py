"""x86-64 code in a model: which instructions a program goes through, said by an emulator, and the cycles that llvm-mca's model of a processor
gives them. It needs llvm-nm, llvm-objdump, llvm-mca and qemu-x86_64 (Debian's llvm and qemu-user), none of which the kit has."""
import collections
import pathlib
import re
import shutil
import subprocess

ROOT = pathlib.Path(__file__).resolve().parent.parent


def said(*command, **more):
    return subprocess.run([str(c) for c in command], check=True, stdout=subprocess.PIPE, text=True, **more).stdout


def kit(path):
    return pathlib.Path(said(ROOT / "tools/kit", path).strip())


EMULATOR = shutil.which("qemu-x86_64")
LIBRARIES = kit("toolchain/lib")


def went_through(program, functions, room):
    """The instructions of each call of these functions, in the order in which they were run, callees' included: {function: [a list for each
    call]}. Calls and returns are left out, and so is what the C library did."""
    log = room / "trace"
    said(EMULATOR, "-one-insn-per-tb", "-d", "exec,nochain", "-D", log, LIBRARIES / "ld-linux-x86-64.so.2", "--library-path", LIBRARIES, program)
    places = [int(place, 16) for place in re.findall(r"\[0+/([0-9a-f]+)/", log.read_text())]
    symbols = {name: int(at, 16) for at, name in re.findall(r"^(\w+) \w (.+)$", said("llvm-nm", program), flags=re.M)}
    listing = listed(said("llvm-objdump", "-d", "-j", ".text", "--no-show-raw-insn", program))
    base = loaded_at(places, symbols)
    lines = [listing.get(place - base, "") for place in places]
    entries = {base + symbols[name]: name for name in functions}
    calls = collections.defaultdict(list)
    for i, place in enumerate(places):
        if place in entries:
            calls[entries[place]].append(one_call(lines[i:]))
    return calls


def listed(text):
    """A program's own instructions by their places, without the calls of the C library."""
    found = re.findall(r"^\s*(\w+):\s+(.+)$", text, flags=re.M)
    return {int(at, 16): re.sub(r"\s*[<#].*", "", what).strip() for at, what in found if "@plt>" not in what}


def loaded_at(places, symbols):
    """Where the program was put: it starts there, and its main is run, once each."""
    count = collections.Counter(places)
    start, main = symbols["_start"], symbols["main"]
    [base] = [place - main for place, times in count.items() if times == 1 and (place - main) % 4096 == 0 and count[place - main + start] == 1]
    return base


def one_call(lines):
    """From a function's first instruction to its return."""
    kept, depth = [], 1
    for line in lines:
        if line.startswith("call"):
            depth += 1
        elif line.startswith("ret"):
            depth -= 1
            if depth == 0:
                return kept
        elif line and not line.startswith("nop"):
            kept.append(line)
    raise ValueError("a call without its return")


def cycles(lines, model, times=1):
    """Of these instructions, so many times in a row."""
    out = said("llvm-mca", "-mtriple=x86_64", f"-mcpu={model}", f"-iterations={times}", "-instruction-info=0", "-resource-pressure=0", input="\n".join(lines) + "\n")
    return int(re.search(r"Total Cycles:\s+(\d+)", out)[1]) / times
