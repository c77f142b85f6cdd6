"""Writes the fields that stand as text on a page, and the keys that the model gives.

    python3 tests/model/small_fields.py

A page has a heading of two hashes with a field's name, and under it the field's records, a line each, indented by four blanks.
"""

from itertools import product
from pathlib import Path

from key import Field, Link, Loss, Play, Sensor, key_of, written

ROOT = Path(__file__).resolve().parents[2]
CASES = ROOT / "crates/key_cases"
PAGES = {ROOT / "tests/model/small-fields.md": CASES / "data", ROOT / "tests/long/README.md": ROOT / "tests/long"}

# A line is pairs of a word and its value. For the word that it begins with: the record, and whose values it takes in which order.
RECORDS = {
    "field": (Field, "field sensors hmax tmax smax f seed"),
    "sensor": (Sensor, "sensor mark timer holds"),
    "link": (Link, "link to label"),
    "loss": (Loss, "loss to at"),
    "play": (Play, "play"),
    "damage": (Sensor, "damage mark timer holds"),
}
NAMED = {"free": 0, "linear": 1, "circular": 2, "differentiated": 3, "none": 255}


def numbers(value):
    """The numbers that a value stands for: one, or each from the first to the last."""
    if value in NAMED:
        return [NAMED[value]]
    first, _, last = value.partition("..")
    return range(int(first), int(last or first) + 1)


def line_bytes(line):
    words, _, change = line.partition(" with byte ")
    words = words.split()
    kind, order = RECORDS[words[0]]
    said = dict(zip(words[::2], words[1::2], strict=True))
    if said.keys() != set(order.split()):
        raise ValueError(f"not understood: {line}")
    records = [kind(*values) for values in product(*(numbers(said[word]) for word in order.split()))]
    if kind is Link and len(records) > 1:
        records = [link for link in records if link.sender != link.receiver]
    data = bytearray(b"".join(map(written, records)))
    if change:
        at, byte = change.split(" = ")
        data[int(at)] = int(byte)
    return bytes(data)


def fields():
    """The file of each field on the pages, and its bytes."""
    for page, folder in PAGES.items():
        for section in page.read_text().split("\n## ")[1:]:
            name, *lines = section.splitlines()
            yield folder / f"{name}.field", b"".join(line_bytes(line.strip()) for line in lines if line.startswith("    "))


def main():
    for path, data in fields():
        path.write_bytes(data)
        path.with_suffix(".key").write_text(key_of(data))
    names = sorted(path.stem for path in CASES.glob("data/*.field"))
    (CASES / "stdin").write_text("".join(f"{name}\n" for name in names))
    (CASES / "stdout").write_text("".join(f"{name}: same\n" for name in names))


if __name__ == "__main__":
    main()
