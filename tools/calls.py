"""The public functions of the crates, as their sources declare them: for tools/public-calls and tests/ledger."""
import re
from dataclasses import dataclass

HEAD = re.compile(r'^[ \t]*pub\s+(?:extern\s+"C"\s+)?fn\s+(\w+)', re.M)
CLAUSE = re.compile(r"\s*(requires\*?|ensures\*?|ghost)(\s+[A-Za-z_]\w*)?\s*:?\s*\{")
IMPL = re.compile(r"^impl(?:<[^>]*>)?\s+([A-Za-z_]\w*)[^{]*\{", re.M)


@dataclass
class Call:
    crate: str
    module: str  # the module's name and `::`, nothing in a crate's root
    owner: str  # the type whose method it is and `::`, if any
    name: str
    demands: int  # how many `requires`
    promises: int  # how many `ensures`
    says: bool  # whether they say something of the result, or of anything where there is none
    lent: list  # the places among the parameters of what is lent for writing

    @property
    def path(self):
        """As the compiler names it."""
        return f"{self.crate}::{self.module}{self.owner}{self.name}"


def closing(text, at, pair):
    """Where the bracket that opens at this place is closed."""
    depth = 0
    for i in range(at, len(text)):
        depth += (text[i] == pair[0]) - (text[i] == pair[1])
        if depth == 0:
            return i
    raise ValueError("unbalanced " + pair)


def owner(text, at):
    """The type whose `impl` block holds this place, with `::`, if any."""
    holders = (m.group(1) + "::" for m in IMPL.finditer(text) if m.end() <= at <= closing(text, m.end() - 1, "{}"))
    return next(holders, "")


def clauses(text, at):
    """The clauses of a contract that begins here: (word, body)."""
    while found := CLAUSE.search(text, at, text.index("{", at) + 1):
        end = closing(text, found.end() - 1, "{}")
        yield found.group(1), text[found.end():end].strip()
        at = end + 1


def names_result(body):
    """Whether an `ensures` says something of its result."""
    return re.search(r"(?<!\w)result(?!\w)", body) is not None


def module_of(path):
    """A file's module and `::`, nothing for a crate's root."""
    return "" if path.stem in ("lib", "main") else path.stem + "::"


def home(path, owner):
    """The module by which the compiler names a method: its type's, wherever in the crate the `impl` stands."""
    declared = [file for file in path.parent.glob("*.rt") if owner and re.search(r"^(?:pub(?:\([a-z]+\))? )?(?:struct|enum) %s\b" % owner[:-2], file.read_text(), flags=re.M)]
    return module_of(declared[0] if declared else path)


def calls(path):
    """The public functions of a file crates/NAME/src/*.rt."""
    crate = path.parts[path.parts.index("src") - 1]
    text = re.sub(r"//[^\n]*", lambda m: " " * len(m.group()), path.read_text())
    for head in HEAD.finditer(text):
        start = text.index("(", head.end())
        end = closing(text, start, "()")
        parameters = [p for p in re.split(r",(?![^\[(]*[\])])", text[start + 1:end]) if p.strip()]
        answers = re.match(r"\s*->", text[end + 1:]) is not None
        found = list(clauses(text, end + 1))
        promises = [body for word, body in found if word.startswith("ensures")]
        type_of = owner(text, head.start())
        yield Call(crate, home(path, type_of), type_of, head.group(1), sum(word.startswith("requires") for word, _ in found), len(promises),
                   any(map(names_result, promises)) if answers else bool(promises), [i for i, p in enumerate(parameters) if re.search(r"&\s*mut\b", p)])
