"""Splits a paper into its sentences: one for each sentence, clause of a call, row of a table, input or output block."""
import hashlib
import re

OPENING = "Opening"


def request(text, letter):
    """The request with this letter, `a) **Title.** ..`, up to the next one, as a section with its title."""
    found = re.search(rf"^{letter}\) \*\*(.*?)\.\*\* (.*?)(?=^[a-z]\) |\Z)", text, re.M | re.S)
    if not found:
        raise ValueError(f"no request {letter})")
    return f"## {found.group(1)}\n{found.group(2)}"


def split(text):
    """Pairs of section and sentence, in the order of the text; what stands before the first section is in the opening."""
    units, block, section = [], None, OPENING
    for line in text.split("\n"):
        if line.startswith("```"):
            if block is None:
                block = []
            else:
                units.append((section, " / ".join(block)))
                block = None
            continue
        if block is not None:
            block.append(" ".join(line.split()))
            continue
        line = line.strip()
        if line.startswith("## "):
            section = line[3:]
        if not line or line.startswith("#") or re.fullmatch(r"[|\- ]+", line):
            continue
        if line.startswith("|"):
            units.append((section, line))
            continue
        line = re.sub(r"^(- |\d\. )", "", line)
        units += [(section, s.strip()) for s in re.split(r"(?<=[^.]\.)\s+", line) if s.strip()]
    return units


def fingerprint(sentence):
    """The first 16 hexadecimal digits of the SHA-256 of a sentence, with single spaces."""
    return hashlib.sha256(" ".join(sentence.split()).encode()).hexdigest()[:16]
