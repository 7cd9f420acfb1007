"""Lines, names, numbers and values, as docs/formats.md has them."""
import re

RESERVED = set("session let set give require if else repeat end read".split())
NAME = re.compile(r"[A-Za-z][A-Za-z0-9_]{0,15}")
MOST_NUMBER, LEAST_VALUE = 2**63 - 1, -(2**63)
MOST_TEXT = 64


class Fault(Exception):
    """A text is refused: with a code, and its line, or 0."""

    def __init__(self, code, line):
        super().__init__(f"line {line}: {code}" if line else code)
        self.code, self.line = code, line


def lines_of(text):
    """The lines that say something, each with its number and, as text, what stands in it; None where it has a bad byte."""
    for number, line in enumerate(text.replace(b"\r\n", b"\n").split(b"\n"), 1):
        said = line.strip(b" \t")
        if not said or said.startswith(b"#"):
            continue
        is_plain = all(it == 9 or 0x20 <= it <= 0x7E for it in line)
        yield number, said.decode("ascii") if is_plain else None


def words_of(line):
    return re.split(r"[ \t]+", line)


def is_name(word):
    return bool(NAME.fullmatch(word)) and word not in RESERVED


def number_of(word, least=0, most=MOST_NUMBER):
    """The number that a word spells, or None."""
    if not re.fullmatch(r"[0-9]{1,19}", word):
        return None
    return int(word) if least <= int(word) <= most else None


def text_of(word):
    """The text that a word with both its quotation marks spells, or None. Texts are str, and numbers are int."""
    found = re.fullmatch(r'"([ !#-~]*)"', word)
    return found[1] if found and len(found[1]) <= MOST_TEXT else None


def bytes_of(word):
    """The bytes that an even number of hexadecimal digits spells, or None."""
    return bytes.fromhex(word) if re.fullmatch(r"([0-9A-Fa-f]{2})+", word) else None


def spelled(value):
    return f'"{value}"' if isinstance(value, str) else str(value)
