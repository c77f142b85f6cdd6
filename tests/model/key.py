"""The answer key of a field file: written from docs/RULES.md and docs/FORMAT.md alone, and not from the crates.

    python3 tests/model/key.py FILE

prints it. The model of a run is flood.py; here are the file, what is wrong with one, and the lines.
"""

import sys
from functools import cached_property
from pathlib import Path
from struct import Struct
from typing import NamedTuple

from flood import (
    Circular, Differentiated, Free, Linear, Refused, Row, Run, Settings, collisions, drawn, drawn_periods, losses, slowest,
)

RECORD = 12
MOST_BYTES, MOST_LINKS, MOST_LOSSES = 48_000, 1024, 256
NO_MARK = 255


# Records. A kind has a letter and the layout of what stands behind it: B, H and I are numbers of one, two and four bytes, the highest
# byte first, and x is a byte that must be zero.


class Field(NamedTuple):
    code: int
    n: int
    hmax: int
    tmax: int
    smax: int
    f: int
    seed: int

    letter, layout = b"F", Struct(">BBBBBHI")


class Sensor(NamedTuple):
    sensor: int
    mark: int
    timer: int
    number: int

    letter, layout = b"S", Struct(">BBxHxxI")

    def row(self):
        return Row(self.timer, self.number, None if self.mark == NO_MARK else self.mark)


class Link(NamedTuple):
    sender: int
    receiver: int
    label: int

    letter, layout = b"L", Struct(">BBBxxxxxxxx")


class Loss(NamedTuple):
    sender: int
    receiver: int
    instant: int

    letter, layout = b"X", Struct(">BBxIxxxx")


class Play(NamedTuple):
    budget: int

    letter, layout = b"P", Struct(">xxxIxxxx")


KINDS = {kind.letter: kind for kind in (Field, Sensor, Link, Loss, Play)}


def read(chunk):
    kind = KINDS[chunk[:1]]
    return kind(*kind.layout.unpack(chunk[1:]))


def written(record):
    return record.letter + record.layout.pack(*record)


# Files. Each case of a refusal gives the places at which it holds, from the lowest up. It is asked only where none before it holds.


class File:
    def __init__(self, data):
        self.data = data

    @cached_property
    def chunks(self):
        return [self.data[at : at + RECORD] for at in range(0, len(self.data), RECORD)]

    @cached_property
    def records(self):
        return [read(chunk) for chunk in self.chunks]

    def places(self, *kinds):
        return [(k, record) for k, record in enumerate(self.records) if isinstance(record, kinds)]

    def all(self, kind):
        return [record for _, record in self.places(kind)]

    @property
    def field(self):
        return self.records[0]

    @property
    def numbering(self):
        smax = self.field.smax
        return [Free(), Linear(), Circular(smax), Differentiated(smax)][self.field.code]

    def refusal(self):
        """The number and the place of the first case that holds, or None."""
        cases = [
            self.bad_length, self.unknown_kind, self.not_zero, self.out_of_order, self.bad_setting,
            self.no_sensor, self.bad_link, self.too_many, self.bad_row, self.no_link,
        ]
        return next(((number, place) for number, case in enumerate(cases, 1) for place in case()), None)

    def bad_length(self):
        if len(self.data) > MOST_BYTES or len(self.data) % RECORD:
            yield 0

    def unknown_kind(self):
        for k, chunk in enumerate(self.chunks):
            if chunk[:1] not in KINDS:
                yield k

    def not_zero(self):
        for k, (chunk, record) in enumerate(zip(self.chunks, self.records)):
            if written(record) != chunk:
                yield k

    def out_of_order(self):
        if not self.records or not isinstance(self.field, Field):
            yield 0
            return
        rows_end = 1 + self.field.n
        for k in range(1, rows_end):
            row = self.records[k] if k < len(self.records) else None
            if not isinstance(row, Sensor) or row.sensor != k - 1:
                yield k
        stages = {Field: 0, Link: 1, Loss: 2, Play: 3, Sensor: 3}
        stage = 1
        for k, record in enumerate(self.records[rows_end:], rows_end):
            if stages[type(record)] < stage:
                yield k
            stage = max(stage, stages[type(record)])

    def bad_setting(self):
        code, n, hmax, tmax, smax, f, _ = self.field
        times_kept = 1 <= n <= 200 and 1 <= hmax <= 15 and 1 <= tmax <= 60 and f >= hmax * tmax + 1
        code_kept = code in (0, 1) and smax == 0 or code in (2, 3) and smax >= 2
        if not (times_kept and code_kept):
            yield 0

    def no_sensor(self):
        for k, record in self.places(Sensor, Link, Loss):
            named = [record.sensor] if isinstance(record, Sensor) else [record.sender, record.receiver]
            if max(named) >= self.field.n:
                yield k

    def bad_link(self):
        earlier = set()
        for k, (sender, receiver, label) in self.places(Link):
            if sender == receiver or receiver == 0 or label > 100 or (sender, receiver) in earlier:
                yield k
            earlier.add((sender, receiver))

    def too_many(self):
        for k, _ in self.places(Link)[MOST_LINKS:] + self.places(Loss)[MOST_LOSSES:]:  # in order, as losses stand behind links
            yield k

    def bad_row(self):
        for k, record in self.places(Sensor):
            base = record.sensor == 0
            timer_kept = 1 <= record.timer <= (self.field.f if base else self.field.tmax)
            mark_kept = record.mark == NO_MARK or not base and record.mark <= self.field.hmax
            if not (timer_kept and mark_kept and self.numbering.lawful(record.number)):
                yield k

    def no_link(self):
        linked = {(link.sender, link.receiver) for link in self.all(Link)}
        for k, loss in self.places(Loss):
            if (loss.sender, loss.receiver) not in linked:
                yield k

    # What a file that is not refused says.

    def run(self):
        """The run as it begins: seed 0 takes the slowest delay rule, and the air draws with every seed."""
        _, n, hmax, tmax, _, f, seed = self.field
        delay = drawn_periods(seed) if seed else slowest
        air = collisions(losses(set(self.all(Loss)), drawn(seed)))
        rows = [record.row() for record in self.records[1 : n + 1]]
        return Run(Settings(n, hmax, tmax, f, seed), self.numbering, delay, air, self.all(Link), rows)

    def acts(self):
        """Plays and damages, with their places. No damage is refused any more: the check has looked at it as at a row."""
        return [(k, record) for k, record in self.places(Play, Sensor) if k > self.field.n]


# Keys.


def copies(run, budget):
    """The copies of so many instants. Those in which no timer is at 1 are passed over together, so that the largest budget ends."""
    while budget := budget - run.pass_quiet(budget):
        run.open()
        while (copy := run.carry()) is not None:
            yield copy
        run.close()
        budget -= 1


def lines(file):
    if refusal := file.refusal():
        yield ("refusal", *refusal)
        return
    run = file.run()
    for k, act in file.acts():
        try:
            if isinstance(act, Play):
                yield from copies(run, act.budget)
            else:
                run.damage(act.sensor, act.row())
        except Refused as refusal:
            yield "refusal", refusal.number, k
            return


def key_of(data):
    return "".join(" ".join(map(str, line)) + "\n" for line in lines(File(data)))


if __name__ == "__main__":
    sys.stdout.write(key_of(Path(sys.argv[1]).read_bytes()))
