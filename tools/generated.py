"""What the scripts share that write tables of tests: a file is written, or compared with what is there."""
import re
import sys


def unbroken(text):
    """The text without line breaks and spaces, and without the commas that stand before a bracket where a line ends."""
    return re.sub(r"\s+", "", text).replace(",)", ")")


def deliver(text, to, source):
    """Writes the text, or with --check says whether the file has it, but for how its lines are broken. Returns the status."""
    if "--check" not in sys.argv[1:]:
        to.write_text(text, encoding="utf-8")
        return 0
    same = unbroken(to.read_text(encoding="utf-8")) == unbroken(text)
    print(f"{to.name} has {source}" if same else f"run {sys.argv[0]}")
    return 0 if same else 1
