"""A model of the rules: written from docs/RULES.md alone, and not from the crates.

It knows nothing of proofs, lent buffers or speed. What it answers is compared with what the programs print.
"""

from dataclasses import dataclass, replace

WORDS = 2**32
LAST_INSTANT = WORDS - 1


class Refused(Exception):
    def __init__(self, number, place, layer):
        super().__init__(number, place, layer)
        self.number, self.place, self.layer = number, place, layer

    def __str__(self):
        return f"refusal {self.number} at {self.place}, layer {self.layer}"


# Numberings: whether a number is lawful, the next one, or None, and whether a copy is fresh against a held number.


class Free:
    def lawful(self, number):
        return number == 0

    def next(self, number):
        return 0

    def fresh(self, copy, held):
        return True


class Linear:
    def lawful(self, number):
        return number < WORDS

    def next(self, number):
        return number + 1 if self.lawful(number + 1) else None

    def fresh(self, copy, held):
        return copy > held


class Ring:
    """Numbers from 0 to smax, with 0 behind smax again."""

    def __init__(self, smax):
        self.smax = smax

    def lawful(self, number):
        return number <= self.smax

    def next(self, number):
        return (number + 1) % (self.smax + 1)


class Circular(Ring):
    def fresh(self, copy, held):
        return 1 <= (copy - held) % (self.smax + 1) <= self.smax // 2


class Differentiated(Ring):
    def fresh(self, copy, held):
        return copy != held


class Windowed:
    """Numbers of 16 bits that only rise; a copy more than a window behind passes for new again."""

    def __init__(self, window):
        self.window = window

    def lawful(self, number):
        return number <= 65535

    def next(self, number):
        return number + 1 if number < 65535 else None

    def fresh(self, copy, held):
        return copy > held or held - copy > self.window


# Draws, delay rules and airs. A delay rule is a function of tmax, instant and sensor; an air is a function of an instant,
# a link (from, to, label), all links, and the set of the sensors that send.


def draw(seed, *numbers):
    x = seed
    for number in numbers:
        x = ((x ^ number) * 1664525 + 1013904223) % WORDS
    return x // 65536


def slowest(tmax, instant, sensor):
    return tmax


def staggered(tmax, instant, sensor):
    return 1 + sensor % tmax


def drawn_periods(seed):
    return lambda tmax, instant, sensor: 1 + draw(seed, instant, sensor, 0) % tmax


def drawn(seed):
    def carries(instant, link, links, sending):
        return draw(seed, instant, link[0], link[1]) % 100 < (link[2] or 100)

    return carries


def losses(listed, below):
    def carries(instant, link, links, sending):
        return below(instant, link, links, sending) and (link[0], link[1], instant) not in listed

    return carries


def drowned(link, links, sending):
    """Whether the receiver sends itself, or another sensor that sends has a link into it."""
    return link[1] in sending or any(b == link[1] and a != link[0] and a in sending for a, b, _ in links)


def collisions(below):
    def carries(instant, link, links, sending):
        return below(instant, link, links, sending) and not drowned(link, links, sending)

    return carries


def storm(first, last, below):
    def carries(instant, link, links, sending):
        return not first <= instant <= last and below(instant, link, links, sending)

    return carries


# A run.


@dataclass(frozen=True)
class Row:
    timer: int
    held: int
    mark: int | None = None


@dataclass(frozen=True)
class Settings:
    n: int
    hmax: int
    tmax: int
    f: int
    seed: int


class Run:
    """A granted run. Lists of lawful rows and links are taken on trust."""

    def __init__(self, settings, numbering, delay, air, links, rows):
        self.settings, self.numbering, self.delay, self.air = settings, numbering, delay, air
        self.links, self.rows = links, list(rows)
        self.instant = 0
        self.messages = None  # of the open instant: sender to (hop, number)
        self.counts = dict.fromkeys(["instants", "floods", "copies", "lost", "refused", "accepted"], 0)

    def open_row(self, sensor):
        """The row of a sensor as the next instant opens, and what it sends then, or None."""
        row, settings = self.rows[sensor], self.settings
        if row.timer > 1:
            return replace(row, timer=row.timer - 1), None
        if sensor == 0:
            number = self.numbering.next(row.held)
            if number is None:
                raise Refused(13, 0, "run")
            return replace(row, timer=settings.f, held=number), (settings.hmax, number)
        period = self.delay(settings.tmax, self.instant + 1, sensor)
        message = None if row.mark is None else (row.mark, row.held)
        return replace(row, timer=period, mark=None), message

    def opened(self):
        """All rows as the next instant opens, and who sends what then."""
        if self.instant == LAST_INSTANT:
            raise Refused(12, 0, "run")
        pairs = [self.open_row(sensor) for sensor in range(self.settings.n)]
        messages = {sensor: message for sensor, (_, message) in enumerate(pairs) if message is not None}
        return [row for row, _ in pairs], messages

    def open(self):
        self.rows, self.messages = self.opened()
        self.instant += 1
        self.left = [link for link in self.links if link[0] in self.messages]
        self.counts["instants"] += 1
        self.counts["floods"] += 0 in self.messages

    def pass_quiet(self, most):
        """Plays so many instants at most in which no timer is at 1 and no copy goes, in one step; answers how many they are."""
        instants = min(most, LAST_INSTANT - self.instant, min(row.timer for row in self.rows) - 1)
        if instants:
            self.rows = [replace(row, timer=row.timer - instants) for row in self.rows]
            self.instant += instants
            self.counts["instants"] += instants
        return instants

    def bytes(self):
        return [int(sensor in self.messages) for sensor in range(self.settings.n)]

    def carry(self):
        """The next copy as (instant, from, to, hop, number, verdict), or None."""
        if not self.left:
            return None
        link = self.left.pop(0)
        hop, number = self.messages[link[0]]
        verdict = "lost"
        if self.air(self.instant, link, self.links, set(self.messages)):
            verdict = self.hear(link[1], hop, number)
        self.counts["copies"] += 1
        self.counts["accepted" if verdict == "forwards" else verdict] += 1
        return self.instant, link[0], link[1], hop, number, verdict

    def hear(self, sensor, hop, number):
        row = self.rows[sensor]
        if not self.numbering.fresh(number, row.held):
            return "refused"
        forwards = hop >= 2 and row.mark is None
        self.rows[sensor] = replace(row, held=number, mark=hop - 1 if forwards else row.mark)
        return "forwards" if forwards else "accepted"

    def close(self):
        if self.left:
            raise Refused(14, 0, "run")
        self.messages = None

    def damage(self, sensor, row):
        if sensor >= self.settings.n:
            raise Refused(6, sensor, "field")
        self.rows[sensor] = row

    def play(self, budget, room):
        """The instants played, the copies, and why it ended."""
        copies = []
        for instants in range(budget):
            try:
                _, messages = self.opened()
            except Refused as refusal:
                return instants, copies, str(refusal)
            coming = sum(link[0] in messages for link in self.links)
            if coming > room - len(copies):
                return instants, copies, "log short"
            self.open()
            copies += [self.carry() for _ in range(coming)]
            self.close()
        return budget, copies, "budget spent"
