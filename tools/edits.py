"""Edits of the repository's files, in the form that rt's must-fail edits have: lines `file: NAME`, `old: TEXT`, `new: TEXT`; a file holds for
the pairs behind it, and every other line is a comment. Two forms besides, for edits that rt does not read: `and: TEXT` is one more line of the new
text, and a file's name may be a pattern of several, `crates/*/src/**/*.rt`, among which the old text stands once. `every: TEXT` in place of `old: TEXT`
is replaced wherever it stands in them, if anywhere."""
import re


class BadEdit(Exception):
    """An edit that does not fit the files."""


def pairs_of(path):
    """The (file, whether everywhere, old, new) of an edit."""
    pairs, file, old = [], None, None
    for line in path.read_text().splitlines():
        word, _, text = line.partition(":")
        text = text.removeprefix(" ")
        if word == "file":
            file = text
        elif word in ("old", "every"):
            old = (word == "every", text)
        elif word == "new" and old:
            pairs.append([file, *old, text])
        elif word == "and" and pairs:
            pairs[-1][3] += "\n" + text
    return pairs


def comment_of(path):
    """The first line of an edit that is not part of it."""
    return next(line for line in path.read_text().splitlines() if not re.match("(file|old|every|new|and):", line))


def apply(path, root):
    """Makes an edit in the files under root."""
    for name, everywhere, old, new in pairs_of(path):
        texts = {file: file.read_text() for file in sorted(root.glob(name))}
        found = [file for file, text in texts.items() if old in text]
        times = sum(text.count(old) for text in texts.values())
        if times != 1 and not everywhere:
            raise BadEdit(f"{path.name}: the text '{old}' stands {times} times in {name}")
        for file in found:
            file.write_text(texts[file].replace(old, new))
