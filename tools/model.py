#!/usr/bin/env python3
"""A flight by the rules of docs/PROTOCOL.md, in another language: what a rehearsal prints, line by line.

usage: tools/model.py FILE.bin     prints the lines of a rehearsal whose opening is accepted and whose records are all whole

It knows how many frames wait and what is spare, which no line tells. tools/capacity.py picks its carries by that, and takes its
numbers from the program's own lines. The model does not judge openings, versions or lengths.
"""
import sys

import records

SEND, ECHO, READY = 1, 2, 3
ROWS = 120          # of a shelf
PUTS = 128          # of a put log
ENTRIES = 1008      # of an entry list
FEWEST_SPARE = 3    # below it a flight accepts no order, carry or meddle


def is_hit(family, f):
    """Whether some set of at most f craft has a member in common with every set of the family."""
    if not family:
        return True
    first = family[0]
    if f == 0 or first == 0:
        return False
    return any(is_hit([held for held in family if not held >> craft & 1], f - 1)
               for craft in range(8) if first >> craft & 1)


class Votes:
    """What one craft keeps on one order."""

    def __init__(self):
        self.echoes, self.readies, self.delivered = {}, {}, None


class Flight:
    """A flight over the pile of that number, and the lines that its calls give, the count aside."""

    def __init__(self, pile, f, rows):
        self.n, self.f, self.rows = len(rows), f, rows
        self.relays = pile in (3, 4)
        self.logs = pile in (2, 4)
        self.waiting = []                                # (from, to, frame, put); a frame is (author, note, set)
        self.put_left = {}                               # of each put, how many entries still wait
        self.puts = 0
        self.shelves = [{} for _ in rows]                # of each craft: (author, note) and the sets held for them
        self.used = [0] * self.n                         # rows of each shelf that are taken
        self.votes = {}
        self.ordered, self.astray = set(), set()

    # what is held and put

    def spare(self):
        links = PUTS - len(self.put_left) if self.logs else (ENTRIES - len(self.waiting)) // 7
        return min(links, ROWS - max(self.used))

    def put(self, sender, to, frame):
        to = [craft for craft in range(self.n) if to >> craft & 1]
        if to:
            self.puts += 1
            self.put_left[self.puts] = len(to)
            self.waiting += [(sender, craft, frame, self.puts) for craft in to]

    def hold(self, craft, key, family):
        self.used[craft] += len(family) - len(self.shelves[craft].get(key, ()))
        self.shelves[craft][key] = family

    def say(self, author, note):
        if (author, note) not in self.shelves[author]:
            self.hold(author, (author, note), [0])
            self.put(author, self.rows[author], (author, note, 0))

    # what a craft does with a frame

    def is_sound(self, author, note):
        step, origin, number, _ = note
        return origin < self.n and number <= 3 and (step != SEND or origin == author)

    def hears_directly(self, sender, craft, frame):
        author, note, through = frame
        if author != sender or through or not self.is_sound(author, note) or (author, note) in self.shelves[craft]:
            return False
        self.hold(craft, (author, note), [0])
        return True

    def path_of(self, sender, craft, frame):
        """The set that a craft holds of a frame, or nothing where the frame is dropped."""
        author, note, through = frame
        if author == craft or author >= self.n or not self.is_sound(author, note) or through >> self.n:
            return None
        if any(through >> label & 1 for label in (craft, sender, author)) or sender == author and through:
            return None
        path = through if sender == author else through | 1 << sender
        if any(held & path == held for held in self.shelves[craft].get((author, note), ())):
            return None
        return path

    def hears_by_relay(self, sender, craft, frame):
        author, note, _ = frame
        path = self.path_of(sender, craft, frame)
        if path is None:
            return False
        family = [held for held in self.shelves[craft].get((author, note), ()) if held & path != path] + [path]
        heard = not is_hit(family, self.f)
        going = 0 if heard else path
        told = going | 1 << author
        for held in family:
            if held & (held - 1) == 0:                   # one craft alone, or the empty set
                told |= held
        self.hold(craft, (author, note), [0] if heard else family)
        self.put(craft, self.rows[craft] & ~told, (author, note, going))
        return heard

    def hear(self, craft, author, note):
        """The votes of a craft that hears a note, and what is delivered to it."""
        step, origin, number, word = note
        mine = self.votes.setdefault((craft, origin, number), Votes())
        quorum = (self.n + self.f + 2) // 2
        ready = False
        if step == SEND and craft not in mine.echoes:
            mine.echoes[craft] = word
            self.say(craft, (ECHO, origin, number, word))
            ready = list(mine.echoes.values()).count(word) >= quorum
        elif step == ECHO:
            mine.echoes.setdefault(author, word)
            ready = list(mine.echoes.values()).count(word) >= quorum
        elif step == READY:
            mine.readies.setdefault(author, word)
            ready = list(mine.readies.values()).count(word) > self.f
        now = step == READY
        if ready and craft not in mine.readies:
            mine.readies[craft] = word
            self.say(craft, (READY, origin, number, word))
            now = True
        if now and mine.delivered is None and list(mine.readies.values()).count(word) > 2 * self.f:
            mine.delivered = word
            return [f"book {craft:x} {origin:x} {number:x} {word.hex()}"]
        return []

    # the calls

    def order(self, craft, number, word):
        if craft >= self.n:
            return ["refused 1"]
        if number > 3:
            return ["refused 5"]
        if not records.is_matter(word):
            return ["refused 11"]
        if (craft, number) in self.ordered:
            return ["refused 6"]
        if self.spare() < FEWEST_SPARE:
            return ["refused 8"]
        self.ordered.add((craft, number))
        note = SEND, craft, number, word
        self.say(craft, note)
        return ["done"] + self.hear(craft, craft, note)

    def carry(self, index):
        if index >= len(self.waiting):
            return ["refused 7"]
        if self.spare() < FEWEST_SPARE:
            return ["refused 8"]
        sender, craft, frame, put = self.waiting.pop(index)
        self.put_left[put] -= 1
        if not self.put_left[put]:
            del self.put_left[put]
        hears = self.hears_by_relay if self.relays else self.hears_directly
        if not hears(sender, craft, frame):
            return ["quiet"]
        author, note, _ = frame
        return [f"heard {craft} {author} {note[0]}"] + self.hear(craft, author, note)

    def meddle(self, craft, to, frame):
        if craft >= self.n or to >= self.n:
            return ["refused 1"]
        if not self.rows[craft] >> to & 1:
            return ["refused 9"]
        if len(self.astray - {craft}) >= self.f:
            return ["refused 10"]
        if self.spare() < FEWEST_SPARE:
            return ["refused 8"]
        self.astray.add(craft)
        self.put(craft, 1 << to, frame)
        return ["done"]

    def call(self, record):
        """The call of a record, which is whole."""
        if record[2] == records.ORDER:
            return self.order(record[3], record[4], record[5:])
        if record[2] == records.CARRY:
            return self.carry(256 * record[3] + record[4])
        step, author, origin, number, through = record[7:12]
        return self.meddle(record[3], record[4], (author, (step, origin, number, record[12:]), through))


def opened(record):
    return Flight(record[3], record[5], list(record[6:]))


def lines_of(data):
    first, *later = records.pieces(data)
    flight = opened(first)
    lines = ["1 done"]
    for count, record in enumerate(later, 2):
        line, *bookings = flight.call(record)
        lines += [f"{count} {line}", *bookings]
    return lines


if __name__ == "__main__":
    if len(sys.argv) != 2:
        sys.exit(__doc__)
    with open(sys.argv[1], "rb") as file:
        print("\n".join(lines_of(file.read())))
