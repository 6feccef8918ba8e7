"""What `rt all` says of each crate, with the seconds that it took: with one crate at a time rt prints what it says of a crate when that ends."""
import re
import subprocess
import time


def sections(repository, *command):
    """The (crate, seconds, text) of each crate, in the order in which they ended."""
    found, name, text, last = [], None, [], time.monotonic()
    with subprocess.Popen(["rt", "all", *command, "--jobs", "1"], cwd=repository, stdout=subprocess.PIPE, stderr=subprocess.STDOUT, text=True, errors="replace") as run:
        for line in run.stdout:
            head = re.match(r"== (\w+)$", line)
            if head:
                if name:
                    found.append((name, seconds, "".join(text)))
                name, text, seconds, last = head[1], [], time.monotonic() - last, time.monotonic()
            text.append(line)
    return found + ([(name, seconds, "".join(text))] if name and name != "summary" else [])
