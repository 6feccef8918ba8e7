"""What fell under each must-fail edit when tools/wrong last tried it, for tests/ledger: `rt ci` prints the first error of an edit alone. The file
tests/fell/CRATE has of each edit a line with its name and a sum of what it changes and of the crate's src/, specs/ and proofs/, so that what was
seen of other text, but for lines that are comments, is not taken for what holds now; under it the functions that were themselves refused, and
the theorems, by their file."""
import hashlib
import re
from collections import defaultdict
from dataclasses import dataclass, field

import edits

PARTS = ("src", "specs", "proofs")
HEAD = "# What fell under each must-fail edit, as tools/wrong saw it. Written by tools/wrong {0}; tests/ledger reads it.\n"


@dataclass
class Fell:
    sum: str = ""
    functions: set = field(default_factory=set)  # as the compiler names them
    theorems: dict = field(default_factory=lambda: defaultdict(set))  # by the file, as proofs/Same.antt


def text_sum(crate, edit):
    """A sum of an edit and of the crate that it alters, a folder."""
    made = hashlib.sha256(repr(edits.pairs_of(edit)).encode())
    for part in PARTS:
        for path in sorted((crate / part).glob("**/*")):
            if path.suffix in (".rt", ".antt"):
                lines = [line for line in path.read_text().splitlines() if not re.match(r"\s*(--|//|$)", line)]
                made.update(repr((str(path.relative_to(crate)), lines)).encode())
    return made.hexdigest()[:32]


def verdict_of(log):
    """What a check ended in: 'proved', 'not-proved', or nothing."""
    return (re.findall(r"^logic=(\S+)", log, flags=re.M) or [""])[-1]


def own_errors(log):
    """The (file, declaration) of each error that is the declaration's own: not one that only follows from another's refusal."""
    for file, name, text in re.findall(r"^(?:\./)?((?:specs|proofs|src)/\S+?):\d+:\d+: error: `([^`]+)`: (.*)$", log, flags=re.M):
        if "was not admitted" not in text:
            yield file, name


def proof_folder(file):
    """The path of the function whose proof a file is a part of, as the compiler has it behind the crate's name; nothing for a file of laws."""
    found = re.fullmatch(r"proofs/(.+)/(?:Invariants|Answers|Proof)\.antt", file)
    return found[1].replace("/", "::") if found else ""


def refused_functions(log):
    """The functions that a check refused for what they are: an error in their own proof, or no proof found where there is no file. That a callee
    is refused does not count."""
    crates = re.findall(r"^fn (\w+)::", log, flags=re.M)
    yield from {f"{crates[0]}::{proof_folder(file)}" for file, _ in own_errors(log) if proof_folder(file)} if crates else ()
    yield from re.findall(r"^fn (\S+): (?:not proved$|no proof(?!: it calls\b))", log, flags=re.M)


def seen(log, crate, edit):
    """What a check of an altered crate says fell."""
    found = Fell(text_sum(crate, edit), set(refused_functions(log)))
    for file, name in own_errors(log):
        if re.match(r"proofs/[^/]+$", file):
            found.theorems[file].add(name)
    return found


def place(root, crate):
    return root / "tests/fell" / crate


def read(root, crate):
    """What was written of a crate, by the edit's file name without its ending."""
    found, last = {}, None
    for line in place(root, crate).read_text().splitlines() if place(root, crate).exists() else ():
        if line.startswith("  "):
            file, _, names = line.strip().partition(": ")
            if file == "functions":
                last.functions = set(names.split())
            else:
                last.theorems[file] = set(names.split())
        elif line and not line.startswith("#"):
            name, _, text = line.partition(" ")
            found[name] = last = Fell(text)
    return found


def write(root, crate, of):
    lines = [HEAD.format(crate)]
    for name, fell in sorted(of.items()):
        lines.append(f"{name} {fell.sum}\n")
        rows = [("functions", fell.functions)] * bool(fell.functions) + sorted(fell.theorems.items())
        lines += [f"  {file}: {' '.join(sorted(names))}\n" for file, names in rows]
    place(root, crate).parent.mkdir(parents=True, exist_ok=True)
    place(root, crate).write_text("".join(lines))
