#!/usr/bin/env python3
"""How many orders a flight takes until it has no room: the tables of docs/CAPACITY.md.

usage: tools/capacity.py [--program PROGRAM]             prints the tables
       tools/capacity.py [--program PROGRAM] --check     tells whether the page has them as they come out
       tools/capacity.py [--program PROGRAM] --time      how long a rehearsal of a thousand records takes here

Each number is read off the lines of the program rehearse (crates/rehearse/out/rehearse, if PROGRAM is not given), run on records that
are written here. Which index is carried next is chosen with the model of model.py, which knows how many frames wait; every line of the
program has to be the model's.
"""
import os
import subprocess
import sys
import time
from itertools import zip_longest

import model
import records

TOP = os.path.dirname(os.path.dirname(os.path.abspath(__file__)))
PAGE = os.path.join(TOP, "docs", "CAPACITY.md")
SIZES = range(2, 9)
WITH_F = range(4, 9)  # how many craft there are where one may go astray
SERVICES = "entries", "log"
WORD = bytes.fromhex("01012c000e100c01")


class Program:
    """The program whose lines are read."""

    path = os.path.join(TOP, "crates", "rehearse", "out", "rehearse")
    runs = 0

    @classmethod
    def lines(cls, written):
        cls.runs += 1
        done = subprocess.run([cls.path], input=b"".join(written), stdout=subprocess.PIPE, check=True)
        return done.stdout.decode().splitlines()


def most_astray(n):
    return (n - 1) // 3


def all_linked(n):
    return records.complete(n)


def one_missing(n):
    """All links but the one between craft 0 and 1."""
    return [row & ~(0b11 ^ 1 << craft) if craft < 2 else row for craft, row in enumerate(all_linked(n))]


def draws(seed):
    """The upper sixteen bits of a linear congruential generator of 32 bits."""
    while True:
        seed = (seed * 1664525 + 1013904223) % 2 ** 32
        yield seed >> 16


def charts_by_chance(n, count):
    """Charts of n craft that the relay opens on, with each link left out by one chance in eight, and at least one."""
    numbers = draws(n)
    while count:
        rows = all_linked(n)
        for a in range(n):
            for b in range(a):
                if next(numbers) % 8 == 0:
                    rows[a] &= ~(1 << b)
                    rows[b] &= ~(1 << a)
        if rows != all_linked(n) and opens("relay", rows):
            count -= 1
            yield rows


# --- which frame is carried next, by its index ---

def oldest(flight):
    return 0


def newest(flight):
    return len(flight.waiting) - 1


def unlucky(flight):
    """The newest frame that is not the last of its put, and that its craft may pass on: so a put log fills, and hardly a place in it
    gets free."""
    for index in reversed(range(len(flight.waiting))):
        sender, craft, frame, put = flight.waiting[index]
        path = flight.path_of(sender, craft, frame)
        if flight.put_left[put] > 1 and path is not None and flight.rows[craft] & ~(path | 1 << frame[0]):
            return index
    return 0


def by_chance(seed):
    numbers = draws(seed)
    return lambda flight: next(numbers) % len(flight.waiting)


# of each way to carry, what makes its picks: one for each time that it is tried
PICKS = {
    "oldest first": [lambda: oldest],
    "newest first": [lambda: newest],
    "unlucky": [lambda: unlucky],
    "by chance, 20 times": [lambda seed=seed: by_chance(seed) for seed in range(1, 21)],
}


# --- rehearsals ---

class Rehearsal:
    """Records as they are written, and the model's flight that tells what waits after them."""

    def __init__(self, pile, f, rows):
        self.records = [records.open_record(pile, f, rows)]
        self.flight = model.opened(self.records[0])
        self.lines = ["1 done"]

    def call(self, record):
        """Writes a record; whether there is room for it."""
        self.records.append(record)
        line, *bookings = self.flight.call(record)
        self.lines += [f"{len(self.records)} {line}", *bookings]
        return line != "refused 8"

    def order(self, craft, number=0):
        return self.call(records.order_record(craft, number, WORD))

    def make_up(self, craft, told):
        """The craft sends craft 0 an Echo of a word that nobody ordered."""
        echo = records.frame(model.ECHO, craft, 0, 0, 0, told.to_bytes(8, "big"))
        return self.call(records.meddle_record(craft, 0, echo))

    def carry_to_rest(self, pick):
        """Carries until nothing waits, or until there is no room; whether nothing waits."""
        while self.flight.waiting:
            if not self.call(records.carry_record(pick(self.flight))):
                return False
        return True

    def told(self):
        """What the program's lines tell. They have to be the model's."""
        waiting = len(self.flight.waiting)
        if waiting:  # there is no room: a carry of the last frame is refused by 8, and one of the next index by 7
            self.call(records.carry_record(waiting - 1))
            self.call(records.carry_record(waiting))
        lines = Program.lines(self.records)
        for line, due in zip_longest(lines, self.lines):
            if line != due:
                sys.exit(f"capacity.py: the program's line is {line!r}, and the model's {due!r}")
        return Told(self.records, lines)


class Told:
    """What a program's lines tell: the orders, meddles and carries that were accepted, the carries since the last order, and how many
    frames wait at the end."""

    last_order_waits = True  # whether what waits at the end is of the last order

    def __init__(self, written, lines):
        self.orders = self.meddles = self.carries = self.last_carries = self.waiting = 0
        answers = [line.split(" ", 1)[1] for line in lines if not line.startswith("book")]
        for record, answer in zip(written[1:], answers[1:]):
            kind = record[2]
            if kind == records.CARRY and answer == "refused 8":
                self.waiting = 1 + 256 * record[3] + record[4]
            elif answer.startswith("refused"):
                continue
            elif kind == records.CARRY:
                self.carries += 1
                self.last_carries += 1
            elif kind == records.ORDER:
                self.orders += 1
                self.last_carries = 0
            else:
                self.meddles += 1

    @property
    def orders_at_rest(self):
        """How many orders came to rest, where each was carried before what came next."""
        return self.orders - (self.waiting > 0 and self.last_order_waits)


def all_orders(n):
    return [(craft, number) for number in range(4) for craft in range(n)]


def one_by_one(pile, f, rows, pick, made_up=0):
    """Every order that there can be, each carried to rest before the next, until there is no room. Ahead of each the last craft sends
    so many made-up notes, each carried to rest."""
    rehearsal = Rehearsal(pile, f, rows)
    sent = 0
    for craft, number in all_orders(len(rows)):
        for _ in range(made_up):
            sent += 1
            if not (rehearsal.make_up(len(rows) - 1, sent) and rehearsal.carry_to_rest(pick)):
                told = rehearsal.told()
                told.last_order_waits = False
                return told
        if not (rehearsal.order(craft, number) and rehearsal.carry_to_rest(pick)):
            break
    return rehearsal.told()


def one_order(pile, f, rows, pick, origin=0):
    rehearsal = Rehearsal(pile, f, rows)
    rehearsal.order(origin)
    rehearsal.carry_to_rest(pick)
    return rehearsal.told()


def at_once(pile, f, rows):
    """The most orders that come to rest, oldest first, where all are made before the first carry."""
    orders = all_orders(len(rows))
    for count in range(1, len(orders) + 1):
        rehearsal = Rehearsal(pile, f, rows)
        ordered = [rehearsal.order(craft, number) for craft, number in orders[:count]]
        room = all(ordered) and rehearsal.carry_to_rest(oldest)
        rehearsal.told()
        if not room:
            return count - 1
    return len(orders)


def made_up_alone(pile, f, rows, carried):
    """How many made-up notes the last craft can send, with no order at all."""
    rehearsal = Rehearsal(pile, f, rows)
    sent = 1
    while rehearsal.make_up(len(rows) - 1, sent) and (not carried or rehearsal.carry_to_rest(oldest)):
        sent += 1
    return rehearsal.told().meddles


# --- tables ---

CHARTS = [("direct", "all linked", all_linked), ("relay", "all linked", all_linked), ("relay", "0 and 1 not linked", one_missing)]


def opens(carrier, rows):
    """Whether the program opens the carrier on the chart."""
    pile = records.CARRIERS[carrier] + records.SERVICES["log"]
    return Program.lines([records.open_record(pile, most_astray(len(rows)), rows)]) == ["1 done"]


def by_size(cell, sizes):
    """A line for each carrier, chart and link service, with a cell for each number of craft; one line for both services where they
    have the same."""
    for carrier, chart_name, chart in CHARTS:
        passed = [opens(carrier, chart(n)) for n in sizes]
        lines = {}
        for service in SERVICES:
            pile = records.CARRIERS[carrier] + records.SERVICES[service]
            lines[service] = [str(cell(pile, most_astray(n), chart(n))) if due else "–" for n, due in zip(sizes, passed)]
        if lines["entries"] == lines["log"]:
            lines = {"both": lines["log"]}
        for service, cells in lines.items():
            yield [carrier, chart_name, service, *cells]


def table(title, columns, lines):
    rows = [f"| {' | '.join(row)} |" for row in (columns, *lines)]
    return "\n".join([f"**{title}**", "", rows[0], "|---" * len(columns) + "|", *rows[1:]])


def heads(sizes):
    return ["carrier", "chart", "service", *(f"N = {n}" for n in sizes)]


def sized(title, cell, sizes=SIZES):
    return table(title, heads(sizes), by_size(cell, sizes))


def span(numbers):
    least, most = min(numbers), max(numbers)
    return str(least) if least == most else f"{least} to {most}"


def orders_at_rest(picks, made_up=0):
    return lambda *opening: span([one_by_one(*opening, pick(), made_up).orders_at_rest for pick in picks])


def on_charts_by_chance(count):
    """A line for each link service: the orders that come to rest on so many charts, oldest first."""
    sizes = range(5, 9)
    for service in SERVICES:
        pile = records.CARRIERS["relay"] + records.SERVICES[service]
        yield [service, *(span([one_by_one(pile, most_astray(n), rows, oldest).orders_at_rest for rows in charts_by_chance(n, count)])
                          for n in sizes)]


def carries_of_an_order(pile, f, rows):
    return span([one_order(pile, f, rows, oldest, origin).carries for origin in range(len(rows))])


def the_next_order(*opening):
    told = one_by_one(*opening, oldest)
    return f"{told.last_carries}, {told.waiting}" if told.waiting else "none"


def orders_beside_made_up():
    for name, picks, counts in [(name, picks, (1, 5, 20) if name == "oldest first" else (5,)) for name, picks in PICKS.items()]:
        for count in counts:
            for line in by_size(orders_at_rest(picks, count), WITH_F):
                yield [str(count), name, *line]


def relay_orders():
    """One order over the relay, for each way to carry: after how many carries it rests, or stops for want of room."""
    for n in WITH_F:
        for chart_name, chart in (("all linked", all_linked), ("0 and 1 not linked", one_missing)):
            if not opens("relay", chart(n)):
                continue
            for service in SERVICES:
                line = [str(n), chart_name, service]
                for picks in PICKS.values():
                    pile = records.CARRIERS["relay"] + records.SERVICES[service]
                    told = [one_order(pile, most_astray(n), chart(n), pick()) for pick in picks]
                    rests = [one.carries for one in told if not one.waiting]
                    stops = [one.carries for one in told if one.waiting]
                    ends = [f"rests: {span(rests)}"] if rests else []
                    ends += [f"**stops: {span(stops)}**"] if stops else []
                    line.append(", ".join(ends))
                yield line


def tables():
    for name, picks in PICKS.items():
        yield sized(f"Orders that come to rest, one by one, {name}", orders_at_rest(picks))
        if name == "oldest first":
            yield table("Orders that come to rest, one by one, oldest first, over the relay, on 20 charts with links left out by chance",
                        ["service", *(f"N = {n}" for n in range(5, 9))], on_charts_by_chance(20))
            yield sized("The order after those: carries until it stops, and frames that wait then", the_next_order)
            yield sized("Carries that bring one order to rest, oldest first, over all origins", carries_of_an_order)
    yield sized("Orders that come to rest, oldest first, where all are made before the first carry", at_once)
    yield table("One order over the relay, in carries", ["N", "chart", "service", *PICKS], relay_orders())
    yield table("Orders that come to rest, one by one, with made-up notes ahead of each", ["made up", "frames", *heads(WITH_F)],
                orders_beside_made_up())
    yield sized("Made-up notes that there is room for, with no order, each carried to rest",
                lambda *opening: made_up_alone(*opening, True), WITH_F)
    yield sized("Made-up notes that there is room for, with no order, none carried",
                lambda *opening: made_up_alone(*opening, False), WITH_F)


def timed():
    """A thousand records: eight craft, all linked, over the relay and the log, two orders one after the other, oldest first."""
    rehearsal = Rehearsal(records.CARRIERS["relay"] + records.SERVICES["log"], 2, all_linked(8))
    for craft in (0, 1):
        rehearsal.order(craft)
        while rehearsal.flight.waiting and len(rehearsal.records) < 1000:
            rehearsal.call(records.carry_record(0))
    taken = []
    for _ in range(20):
        start = time.perf_counter()
        Program.lines(rehearsal.records)
        taken.append(1000 * (time.perf_counter() - start))
    print(f"{len(rehearsal.records)} records: {min(taken):.1f} to {max(taken):.1f} ms, the program's start and end included")


def main(arguments):
    if arguments[:1] == ["--program"] and len(arguments) > 1:
        Program.path = os.path.abspath(arguments[1])
        arguments = arguments[2:]
    if arguments not in ([], ["--check"], ["--time"]):
        sys.exit(__doc__)
    if not os.access(Program.path, os.X_OK):
        sys.exit(f"capacity.py: no program {Program.path}; build it: cd crates/rehearse && rt run < /dev/null")
    if arguments == ["--time"]:
        timed()
    elif arguments == ["--check"]:
        with open(PAGE, encoding="utf-8") as file:
            page = file.read()
        missing = [one.split("\n", 1)[0] for one in tables() if one not in page]
        sys.exit("\n".join(["the page has other numbers:", *missing]) if missing else None)
    else:
        for one in tables():
            print(one, end="\n\n", flush=True)
        print(f"{Program.runs} runs of the program", file=sys.stderr)


if __name__ == "__main__":
    main(sys.argv[1:])
