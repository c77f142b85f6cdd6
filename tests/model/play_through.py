#!/usr/bin/env python3
"""What the program `play_through` is to print.

    tests/model/play_through.py | cmp - crates/play_through/stdout

The model plays the same fields by the rules (flood.py). The calls and the words of their lines are written here once more.
"""

from flood import (
    Differentiated, Refused, Row, Run, Settings, Windowed, collisions, drawn, losses, slowest, staggered, storm,
)

SETTINGS = Settings(n=3, hmax=2, tmax=2, f=5, seed=0)
LINKS = [(0, 1, 100), (1, 2, 100), (2, 1, 100)]
ROWS = [Row(1, 0), Row(2, 1), Row(1, 0)]
RECORD = 12


def look(run):
    for sensor, row in enumerate(run.rows):
        mark = "no mark" if row.mark is None else f"mark {row.mark}"
        print(f"look at {sensor}: timer {row.timer}, holds {row.held}, {mark}")


def told(call, copy):
    print(f"{call}:", *copy)


def declined(call, attempt):
    try:
        attempt()
        print(f"{call}: done")
    except Refused as refusal:
        print(f"{call}: {refusal}")


def instant(run, too_soon):
    run.open()
    print("open: sender bytes", *run.bytes())
    if too_soon:
        declined("close", run.close)
    while (copy := run.carry()) is not None:
        told("carry", copy)
    print("carry: no copy is left")
    declined("close", run.close)


def play_on(run, budget):
    ending = "log short"
    while ending == "log short":
        instants, copies, ending = run.play(budget, len(LINKS))
        for copy in copies:
            told("log", copy)
        print(f"play: instants {instants}, rows {len(copies)}, {ending}")
        budget -= instants


def finish(run):
    print("finish: " + ", ".join(f"{name} {count}" for name, count in run.counts.items()))


def by_calls(run):
    print("begin: granted")
    look(run)
    for number in range(1, 10):
        instant(run, too_soon=number == 1)
    damaged = Row(2, run.rows[0].held, 1)
    for sensor in [3, 2]:
        declined(f"damage of {sensor}", lambda: run.damage(sensor, damaged))
    look(run)
    play_on(run, 12)
    look(run)


def main():
    air = collisions(losses([], drawn(0)))
    print("The worked field")
    run = Run(SETTINGS, Differentiated(2), slowest, air, LINKS, ROWS)
    by_calls(run)
    print("write: bytes", RECORD * (1 + len(ROWS) + len(LINKS)))
    print("load: the same field: true")
    finish(run)

    print("The worked field under parts made outside")
    run = Run(SETTINGS, Windowed(2), staggered, storm(5, 7, collisions(drawn(0))), LINKS, ROWS)
    by_calls(run)
    finish(run)

    print("The worked field, loaded from a file")
    run = Run(SETTINGS, Differentiated(2), slowest, air, LINKS, ROWS)
    play_on(run, 8)
    run.damage(2, Row(1, 1))
    play_on(run, 8)
    finish(run)

    print("The worked field, each call once")
    run = Run(SETTINGS, Differentiated(2), slowest, drawn(0), LINKS, ROWS)
    run.open()
    run.carry()
    run.close()
    run.damage(2, Row(1, 0))
    run.play(1, 0)
    finish(run)


main()
