"""Lines that are no request, each near to one that is, and requests at the edge of being none."""

from values import Group, ONE, ZERO, key_bytes, line, record

LONGEST = 300_000
KEY = key_bytes(ONE)
RECORD = record(KEY, ONE, ZERO, 3)
OTHER = record(KEY)

# One right request of each form.
RIGHT = [
    "product64 0123456789abcdef fedcba9876543210",
    "bmul32 01234567 89abcdef",
    "reverse64 0123456789abcdef",
    "reverse32 01234567",
    line("add", ONE, ZERO),
    line("dot", ONE, ONE),
    line("dot32", ONE, ONE),
    line("rf", ONE, ONE),
    line("mulx", ONE),
    line("reverse", ONE),
    line("expand", ONE),
    line("check", KEY),
    line("start", ONE),
    line("blocks rf", OTHER, ONE),
    line("padded wide", OTHER, b"abc"),
    line("piece narrow", RECORD, b"abc"),
    line("finish rf", RECORD),
    line("reset", RECORD),
    line("join", OTHER, OTHER, 5),
    line("ghash", ONE, ONE),
    line("aes", ONE, ONE),
    line("seal", ONE, bytes(12), b"", b"text", 20),
    line("open", ONE, bytes(12), b"", bytes(20), 4),
    line("write 3", ONE, bytes(12), b"", 32),
    line("read", ONE, bytes(32), 4),
    line("scan", b"K"),
]


def wrong_words(request):
    """The request with each word changed in ways that make it none, or leave it at the edge."""
    words = request.split(" ")
    for at, word in enumerate(words):
        for other in ("", "-", word.upper(), word + "0", word[:-1], word + "00", word[:-2], "0x" + word, word + ":",
                      word[:-1] + "g", word[:-1] + "\xe9", "+" + word, "-" + word, word + "-", word.replace(":", ";"),
                      word.replace(":", "", 1), "0" * 30 + word, "18446744073709551615", "18446744073709551616",
                      "340282366920938463463374607431768211456", "70000", "70001", "255", "256"):
            yield " ".join(words[:at] + [other] + words[at + 1:])
        yield " ".join(words[:at] + words[at + 1:])
        yield " ".join(words[:at] + [word] + words[at:])


def wrong_spaces(request):
    yield request.replace(" ", "  ", 1)
    yield request.replace(" ", "\t", 1)
    for extra in (" ", "\t", "\r", "\0", "\x0b", "\x7f", "#"):
        yield request + extra
        yield extra + request


def long_lines():
    """At the longest line that may be a request, and one character over it."""
    head = "scan "
    yield head + "4b" * ((LONGEST - len(head)) // 2)
    yield head + "4b" * ((LONGEST - len(head)) // 2) + "4"
    yield head + "4b" * ((LONGEST - len(head)) // 2 + 1)
    count = "0" * (LONGEST - len("join ") - 2 * len(OTHER) - 2 - 1)
    yield f"join {OTHER} {OTHER} {count}7"
    yield f"join {OTHER} {OTHER} {count}07"
    yield "x" * LONGEST
    yield "x" * (3 * LONGEST)


def edges(rng):
    yield from ("", " ", "-", "?", "help", "scan", "SCAN 4b", "quit", "\xff\xfe")
    for request in RIGHT:
        yield request
        yield from wrong_words(request)
        yield from wrong_spaces(request)
    yield from long_lines()


def draw(rng):
    """A right request with one character changed, left out or put in."""
    request = rng.choice(RIGHT)
    at = rng.randrange(len(request))
    put = rng.choice(["", rng.choice(" -:?0123456789abcdefgxABCDEF\t"), chr(rng.choice([0, 9, 13, 127, 200, 255]))])
    return request[:at] + put + request[at + rng.randrange(2):]


GROUPS = [Group("bad lines", edges, draw)]
