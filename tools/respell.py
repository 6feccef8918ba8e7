#!/usr/bin/env python3
"""Spells this repository's own definitions and lemmas as today's Rattle does, and turns the must-fail edits with them.

usage: tools/respell.py COMMIT      at the top, once, right after port.py; COMMIT is the last one in the older spelling

Words are in snake case, types and modules in camel case, a prime is an apostrophe; a dash joins two names of definitions
(`length-placed`) and is an underscore elsewhere. Names that the kit gives, and those of code, stay. It prints names that fall
together in a file ('clash:'), and the edits whose old text it did not find ('edit:'), which are turned by hand. The pages follow.
"""
import glob
import os
import re
import subprocess
import sys

TOK = re.compile(r"[^\s(){}\[\],;.@\"«»\\`]+")
DECL = re.compile(r"(?m)^ *(?:abbrev |unfoldable )*(?:pub )?([^\s:(){}.;,]+)(?: \{[^}]*\})* : ")
USE = re.compile(r"(?m)^ *(?:ghost |pub )*use ([^\s{};]+?)(?:\.\{([^}]*)\})?(?: as ([^\s;]+))?;?$")


def read(path):
    with open(path, encoding="utf-8") as f:
        return f.read()


def write(path, text):
    if text != read(path):
        with open(path, "w", encoding="utf-8") as f:
            f.write(text)


def own_crates():
    return {line.split(":")[0].split()[0] for line in read("crates.txt").splitlines() if line.strip() and line[0] != "#"}


def is_own(path, crates):
    parts = path.split(".")
    return parts[0] == "Rattle" and len(parts) > 1 and parts[1] in crates


def imported(text, crates):
    """Names that the kit's modules give this file, and the aliases of such modules."""
    names, aliases = set(), set()
    for path, items, alias in USE.findall(text):
        if is_own(path, crates):
            continue
        aliases.add(alias or path.split(".")[-1])
        for item in items.split(","):
            names.add(item.strip().split(" as ")[0])
    return names - {""}, aliases


def snake(word):
    word = word.replace("′", "'")
    word = re.sub(r"(?<=[a-z0-9])(?=[A-Z])", "_", word)
    return word.lower() if word[:1].islower() else word


OUTER = set("append blocks bytes_of clmul copied dot drop get_or length map number placed reverse set take xor_bytes".split())


def joined(name, definitions):
    """A dash stays between a lemma's outer call and the definition under it; elsewhere it is an underscore."""
    parts = [snake(part) for part in name.split("-")]
    if "" in parts:
        return name
    out, i = [], 0
    while i < len(parts):
        j = len(parts)
        while j > i + 1 and "_".join(parts[i:j]) not in definitions:
            j -= 1
        out.append("_".join(parts[i:j]))
        i = j
    text = out[0]
    for left, right in zip(out, out[1:]):
        text += ("-" if left in OUTER and right in definitions and len(right) > 3 else "_") + right
    return text


def mapping(files, crates):
    own, definitions, kit = set(), set(), set()
    for path in files:
        text = read(path)
        kit |= imported(text, crates)[0]
        if re.search(r"/proofs/.+/Proof\.antt$", path):
            continue
        names = set(DECL.findall(text)) | {n for m in re.findall(r"(?m)^ *(?:pub )?([^\s:(){}.;,]+(?: [^\s:(){}.;,]+)*) : ", text) for n in m.split()}
        own |= names
        if "/specs/" in path:
            definitions |= {snake(n) for n in names if "-" not in n}
    definitions |= {n for n in kit if re.fullmatch(r"[a-z][a-z0-9_]*", n)}
    aliases = {a for path in files for _, _, a in USE.findall(read(path)) if "-" in a}
    wanted = {n for n in own | aliases if n[:1].islower() and (re.search(r"[a-z0-9][A-Z]|-|′", n)) and "·" not in n and "◌" not in n}
    # a lemma that would have its function's name gets `_lem`
    names = {n: joined(n, definitions) for n in wanted}
    functions = {names[n] for n in wanted if "-" not in n}
    plain = own - wanted
    names.update((n, names[n] + "_lem") for n in wanted if "-" in n and (names[n] in functions or names[n] in plain))
    names.update((n, n + "_lem") for n in plain if n in functions)
    return names


def respelled(text, names, keep, aliases):
    def turn(m):
        word = m[0]
        if word not in names or word in keep:
            return word
        before = text[: m.start()]
        owner = re.search(r"([^\s(){}\[\],;.]+)\.$", before[-80:])
        if owner and owner[1] in aliases:
            return word
        # a module's path is not a word
        if re.search(r"(?m)^ *(?:ghost |pub )*use [^\s{};]*$", before[-400:]):
            return word
        return names[word]

    return TOK.sub(turn, text)


def in_code(text, names):
    """Camel-case names anywhere outside strings; names with a dash in clauses, ghost lines and comments."""
    out = []
    depth = 0
    for line in text.split("\n"):
        ghost = depth > 0 or re.match(r"\s*(ghost|requires|ensures)\b", line) or re.match(r"\s*//", line)
        if re.match(r"\s*(requires|ensures|ghost \w+:)", line) or depth:
            depth += line.count("{") - line.count("}")
            depth = max(depth, 0)
        def turn(m):
            word = m[0]
            if word in names and ("-" not in word or ghost):
                return names[word]
            return word
        parts = re.split(r'("(?:[^"\\]|\\.)*")', line)
        out.append("".join(p if p.startswith('"') and p.endswith('"') and len(p) > 1 else TOK.sub(turn, p) for p in parts))
    return "\n".join(out)


def clashes(path, before, names):
    seen = {}
    for word in set(TOK.findall(before)):
        new = names.get(word, word)
        seen.setdefault(new, set()).add(word)
    for new, words in sorted(seen.items()):
        if len(words) > 1:
            print(f"clash: {path}: {' '.join(sorted(words))} are all {new}")


# --- edits ---------------------------------------------------------------------------------------------------------------------------


def old_text(commit, path):
    r = subprocess.run(["git", "show", f"{commit}:{path}"], capture_output=True, text=True)
    return r.stdout if r.returncode == 0 else None


def tight(text):
    text = re.sub(r"\(([^\s(){}]+)((?: \.[^\s(){}.,]+)+)\)", lambda m: m[1] + m[2].replace(" .", "."), text)
    text = re.sub(r"(?<=[\w)']) \.(?=[\w«])", ".", text)
    return text


def words_between(old, new):
    """What port.py made of each word, learned from the lines that stand at the same place."""
    table = {}
    a = [l for l in old.split("\n") if not re.match(r"\s*(ghost |pub )*use ", l)]
    b = [l for l in new.split("\n") if not re.match(r"\s*(ghost |pub )*use ", l)]
    if len(a) == len(b):
        for x, y in zip(a, b):
            p, q = TOK.findall(x), TOK.findall(y)
            if len(p) == len(q):
                table.update((s, t) for s, t in zip(p, q) if s != t)
    return table


def turned(text, table, names):
    def turn(m):
        word = table.get(m[0], m[0])
        return names.get(word, word)

    out = TOK.sub(turn, tight(text))
    return re.sub(r"ensures(\*?)(?: (\w+))? \{ λ r\. ⌜ (.*?) ⌝ \}", lambda m: f"ensures{m[1]}{' ' + m[2] if m[2] else ''} {{ {m[3]} }}", out)


def edits(commit, names, ported):
    for path in sorted(glob.glob("crates/*/must-fail/*.edit")):
        crate = path.split("/")[1]
        file, pending, out, texts = None, None, [], {}
        for line in read(path).split("\n"):
            if line.startswith("file: "):
                file = f"crates/{crate}/{line[6:].strip()}"
                if file not in texts:
                    texts[file] = read(file)
                old = old_text(commit, file) or ""
                table = words_between(old, ported.get(file, ""))
                out.append(line)
            elif line.startswith("old: "):
                pending = line[5:]
            elif line.startswith("new: "):
                o, n = pending, line[5:]
                if texts[file].count(o) != 1:
                    o2, n2 = turned(o, table, names), turned(n, table, names)
                    if texts[file].count(o2) == 1:
                        o, n = o2, n2
                    else:
                        print(f"edit: {path}: {file.split('/', 2)[2]}: found {texts[file].count(o2)} times: {o}")
                        o, n = o2, n2
                else:
                    n = turned(n, {}, names) if file.endswith(".antt") else in_code(n, names)
                texts[file] = texts[file].replace(o, n, 1) if texts[file].count(o) == 1 else texts[file]
                out += [f"old: {o}", f"new: {n}"]
            elif line.startswith("#"):
                out.append(re.sub(r"`([^`]*)`", lambda m: "`" + TOK.sub(lambda w: names.get(w[0], w[0]), m[1]) + "`", line))
            else:
                out.append(line)
        write(path, "\n".join(out))


# --- pages ---------------------------------------------------------------------------------------------------------------------------


def landed_names(commit, antt, crates):
    """What each name that had landed is called now, by the order of the declarations in its file."""
    table = {}
    for path in antt:
        old = old_text(commit, path)
        if old is None or path.endswith("/Proof.antt"):
            continue
        a, b = DECL.findall(old), DECL.findall(read(path))
        if len(a) == len(b):
            table.update((x, y) for x, y in zip(a, b) if x != y)
    return table


def pages(commit, antt, crates):
    table = landed_names(commit, antt, crates)
    for path in ["README.md"] + sorted(glob.glob("docs/*.md") + glob.glob("crates/*/README.md")):
        write(path, re.sub(r"`([^`\n]+)`", lambda m: "`" + TOK.sub(lambda w: table.get(w[0], w[0]), m[1]) + "`", read(path)))


def main():
    if len(sys.argv) != 2:
        sys.exit(__doc__)
    crates = own_crates()
    antt = sorted(glob.glob("crates/*/specs/**/*.antt", recursive=True) + glob.glob("crates/*/proofs/**/*.antt", recursive=True))
    code = sorted(glob.glob("crates/*/src/**/*.rt", recursive=True))
    names = mapping(antt, crates)
    ported = {p: read(p) for p in antt + code}
    for path in antt:
        keep, aliases = imported(ported[path], crates)
        text = respelled(ported[path], {k: v for k, v in names.items() if k not in keep}, keep, aliases)
        clashes(path, ported[path], {k: v for k, v in names.items() if k not in keep})
        write(path, text.replace("′", "'"))
    for path in code:
        clashes(path, ported[path], names)
        write(path, in_code(ported[path], names))
    edits(sys.argv[1], names, ported)
    pages(sys.argv[1], antt, crates)
    with open("/tmp/respelled.txt", "w") as f:
        f.writelines(f"{a}\t{b}\n" for a, b in sorted(names.items()))


if __name__ == "__main__":
    main()
