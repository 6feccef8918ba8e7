"""The second program: what Khumbuseal computes, written again from the public documents alone.

It reads requests from standard input, a line each, and writes their answers: `python3 tests/second`.
It was written from RFC 8452, FIPS 197, SP 800-38D and document 01, and never from the library's code or
its definitions, so that a mistake would have to be made twice to go unseen."""

import sys

sys.dont_write_bytecode = True

import lines  # noqa: E402  (no bytecode is to be written beside the sources)


def main():
    for line in sys.stdin.buffer:
        sys.stdout.write(lines.answer_line(line.removesuffix(b"\n")) + "\n")


main()
