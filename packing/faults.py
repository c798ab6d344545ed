"""The faults of the library's calls, as the program's own table has them."""
import json
import re

from packing.repository import content

TABLE = "crates/chip_command/src/table.rt"
#: Their numbers.
NUMBERS = (*range(1, 15), 26, 46, 47, 53, 90)
#: A text between quotation marks.
TEXT = r'"((?:[^"\\]|\\[\s\S])*)"'


def plain(text):
    """Returns what a text between quotation marks means: a backslash stands before a mark, or before the end of a line."""
    return re.sub(r"\\(\n\s*|.)", lambda it: it[1].strip(), text)


def rows():
    """Returns the name of each fault, the letters of its place, what they mean, what is wrong, and the advice, by its
    number."""
    table = content(TABLE).decode()
    found = rf"const (\w+): Place = Place \{{\s*letters: {TEXT},\s*reading: {TEXT}"
    places = {
        name: (letters, plain(reading)) for name, letters, reading in re.findall(found, table)
    }
    its = {}
    for row in re.finditer(rf"row!\((\d+) (\w+) (\w+):\s*{TEXT},\s*{TEXT}", table):
        number, name, place, meaning, advice = row.groups()
        its[int(number)] = (name, *places[place], plain(meaning), plain(advice))
    return {number: its[number] for number in NUMBERS}


def texts():
    """Returns what `chipfire explain` says of each fault, as the bytes of a JSON object by their numbers."""
    texts_by_number = {
        number: f"fault {number} {name}{letters}: {meaning}\n\n{reading}{advice}"
        for number, (name, letters, reading, meaning, advice) in rows().items()
    }
    return f"{json.dumps(texts_by_number, indent=1)}\n".encode()
