#!/usr/bin/env python3
"""Turns a rehearsal that is written in words into records, and records into words.

usage: tools/records.py FILE > FILE.bin          words into records (FILE may be -, standard input)
       tools/records.py --words FILE.bin         records into words, one record a line
       tools/records.py --self-test

One record stands on a line. A '#' begins a comment, and a line may be empty. docs/FORMATS.md has the words under "Records in words",
and the bytes of each record under "Records".

    open relay entries 5 1 : 2 3 4, 2 3 4, 0 1 3 4, 0 1 2 4, 0 1 2 3
    order 0 0 observation 300 3600 12 1
    carry 0
    meddle 4 2 echo 1 0 0 {} 01012c000e100c01

Whatever the bytes are, the words that come of them give the same bytes again: what no words say stands as 'bytes 05 01 09 ..'.
"""
import os
import random
import re
import sys

OPEN, ORDER, CARRY, MEDDLE = 1, 2, 3, 4
VERSION = 1
FRAME_LENGTH, FRAME_VERSION = 15, 1
CARRIERS = {"direct": 0, "relay": 2}
SERVICES = {"entries": 1, "log": 2}
PILES = {CARRIERS[c] + SERVICES[s]: f"{c} {s}" for c in CARRIERS for s in SERVICES}
STEPS = {"send": 1, "echo": 2, "ready": 3}
# of each kind of matter: its number, and of each field the name, how many bytes it has, and the least and greatest value
MATTER = {
    "observation": (1, [("target", 2, 1, 65535), ("start", 3, 0, 86399), ("length", 1, 1, 255), ("mode", 1, 0, 3)]),
    "keep-out": (2, [("zone", 2, 1, 65535), ("first second", 3, 0, 86399), ("minutes", 2, 1, 1440)]),
}
TOKEN = re.compile(r"\{[^{}]*\}|[:,]|[^\s{}:,]+")
NUMBER = re.compile(r"[0-9]+")
WORD = re.compile(r"[0-9A-Fa-f]{16}")
PAIR = re.compile(r"[0-9A-Fa-f]{2}")


class BadWords(Exception):
    """A line that says no record, with why."""


def complete(n):
    """The rows of a chart of n craft that are all linked."""
    return [(1 << n) - 1 & ~(1 << craft) for craft in range(n)]


def frame(step, author, origin, number, members, content):
    return bytes([FRAME_LENGTH, FRAME_VERSION, step, author, origin, number, members]) + content


def open_record(pile, f, rows):
    return bytes([6 + len(rows), VERSION, OPEN, pile, len(rows), f, *rows])


def order_record(craft, number, word):
    return bytes([13, VERSION, ORDER, craft, number]) + word


def carry_record(index):
    return bytes([5, VERSION, CARRY]) + index.to_bytes(2, "big")


def meddle_record(craft, to, frame_bytes):
    return bytes([20, VERSION, MEDDLE, craft, to]) + frame_bytes


# --- from words ---

class Line:
    """The words of one line, taken one after the other."""

    def __init__(self, text):
        left = TOKEN.sub("", text).strip()
        if left:
            raise BadWords(f"'{left[0]}' has no partner: a set of craft is written as {{0 2}}")
        self.words = TOKEN.findall(text)
        self.at = 0

    def peek(self):
        return self.words[self.at] if self.at < len(self.words) else None

    def take(self, what):
        word = self.peek()
        if word is None:
            raise BadWords(f"the line ends where {what} is due")
        self.at += 1
        return word

    def choice(self, what, choices):
        word = self.take(what)
        if word not in choices:
            raise BadWords(f"'{word}' is no {what}; one of: {', '.join(choices)}")
        return word

    def number(self, what, least=0, greatest=255):
        word = self.take(what)
        if not NUMBER.fullmatch(word):
            raise BadWords(f"'{word}' is no number, where {what} is due")
        value = int(word)
        if not least <= value <= greatest:
            raise BadWords(f"{what} is {value}; it can be {least} to {greatest}")
        return value

    def literal(self, sign):
        word = self.take(f"'{sign}'")
        if word != sign:
            raise BadWords(f"'{word}' stands where '{sign}' is due")

    def end(self):
        if self.peek() is not None:
            raise BadWords(f"'{self.peek()}' is one word too many")

    def set_of_craft(self, what):
        word = self.take(what)
        if not word.startswith("{"):
            raise BadWords(f"'{word}' is no set of craft, as {{}} or {{0 2}}, where {what} is due")
        return members(word[1:-1].replace(",", " ").split())

    def word(self, what):
        """The eight bytes of a matter in words, or of sixteen hexadecimal digits."""
        first = self.take(what)
        if first in MATTER:
            number, fields = MATTER[first]
            parts = [self.number(f"the {first}'s {name}", least, greatest).to_bytes(size, "big")
                     for name, size, least, greatest in fields]
            return bytes([number]) + b"".join(parts)
        if not WORD.fullmatch(first):
            raise BadWords(f"'{first}' is no {what}: sixteen hexadecimal digits, or the words of {' or '.join(MATTER)}")
        return bytes.fromhex(first)


def members(labels):
    mask = 0
    for label in labels:
        if not re.fullmatch("[0-7]", label):
            raise BadWords(f"'{label}' is in no set of craft: labels are 0 to 7")
        if mask >> int(label) & 1:
            raise BadWords(f"craft {label} stands twice in a set")
        mask |= 1 << int(label)
    return mask


def opening(line):
    pile = CARRIERS[line.choice("carrier", CARRIERS)] + SERVICES[line.choice("link service", SERVICES)]
    linked = line.peek() == "complete"
    if linked:
        line.take("complete")
    n = line.number("N", 0, 8 if linked else 249)
    f = line.number("f")
    if linked:
        return open_record(pile, f, complete(n))
    line.literal(":")
    rows = [[]]
    while (word := line.peek()) is not None:
        line.take("a label")
        if word == ",":
            rows.append([])
        else:
            rows[-1].append(word)
    if n == 0 and rows == [[]]:
        rows = []
    if len(rows) != n:
        raise BadWords(f"N is {n}, and {len(rows)} rows stand there; commas part them, and '-' is a row of nobody")
    for row in rows:
        if not row:
            raise BadWords("a row is empty; '-' is a row of nobody")
    return open_record(pile, f, [0 if row == ["-"] else members(row) for row in rows])


def order(line):
    craft = line.number("the craft")
    number = line.number("the number")
    return order_record(craft, number, line.word("word"))


def carry(line):
    record = carry_record(line.number("the index", 0, 65535))
    if line.peek() == "times":
        line.take("times")
        return record * line.number("how many times", 1, 65535)
    return record


def meddle(line):
    craft = line.number("the craft")
    to = line.number("the neighbour")
    step = STEPS[line.choice("step", STEPS)]
    author, origin, number = (line.number(what) for what in ("the author", "the origin", "the number"))
    through = line.set_of_craft("the frame's set")
    return meddle_record(craft, to, frame(step, author, origin, number, through, line.word("content")))


def any_bytes(line):
    pairs = []
    while line.peek() is not None:
        pair = line.take("a byte")
        if not PAIR.fullmatch(pair):
            raise BadWords(f"'{pair}' is no byte of two hexadecimal digits")
        pairs.append(pair)
    if not pairs:
        raise BadWords("no byte stands after 'bytes'")
    return bytes.fromhex("".join(pairs))


RECORDS = {"open": opening, "order": order, "carry": carry, "meddle": meddle, "bytes": any_bytes}


def records_of(text):
    """The records of a text. Where a line says none: BadWords, with the line's number."""
    out = bytearray()
    for count, written in enumerate(text.splitlines(), 1):
        try:
            line = Line(written.split("#", 1)[0])
            if line.peek() is None:
                continue
            out += RECORDS[line.choice("record", RECORDS)](line)
            line.end()
        except BadWords as bad:
            raise BadWords(f"line {count}: {bad}") from None
    return bytes(out)


# --- into words ---

def labels(mask):
    return " ".join(str(label) for label in range(8) if mask >> label & 1)


def words_of_word(word):
    for name, (number, fields) in MATTER.items():
        if word[0] == number:
            at, values = 1, []
            for _, size, least, greatest in fields:
                values.append(int.from_bytes(word[at:at + size], "big"))
                at += size
                if not least <= values[-1] <= greatest:
                    return word.hex()
            return " ".join([name, *map(str, values)])
    return word.hex()


def is_matter(word):
    return words_of_word(word) != word.hex()


def words_of_record(record):
    """A record in words, or nothing where no words give just these bytes."""
    length, version, kind, *body = record
    if version != VERSION:
        return None
    if kind == OPEN and len(body) >= 3 and body[0] in PILES and length == 6 + body[1]:
        pile, n, f, *rows = body
        if 0 < n <= 8 and rows == complete(n):
            return f"open {PILES[pile]} complete {n} {f}"
        return f"open {PILES[pile]} {n} {f} : {', '.join(labels(row) or '-' for row in rows)}".rstrip()
    if kind == ORDER and length == 13:
        return f"order {body[0]} {body[1]} {words_of_word(record[5:])}"
    if kind == CARRY and length == 5:
        return f"carry {256 * body[0] + body[1]}"
    if kind == MEDDLE and length == 20:
        craft, to, frame_length, frame_version, step, author, origin, number, through, *_ = body
        names = {value: name for name, value in STEPS.items()}
        if (frame_length, frame_version) == (FRAME_LENGTH, FRAME_VERSION) and step in names:
            content = words_of_word(record[12:])
            return f"meddle {craft} {to} {names[step]} {author} {origin} {number} {{{labels(through)}}} {content}"
    return None


def pieces(data):
    """The records of an input, one after the other; bytes that are not one whole record come as the last piece."""
    while data:
        length = data[0]
        if length < 3 or length > len(data):
            length = len(data)
        yield data[:length]
        data = data[length:]


def words_of(data):
    lines = []
    for piece in pieces(data):
        whole = 3 <= piece[0] == len(piece)
        lines.append(whole and words_of_record(piece) or f"bytes {piece.hex(' ')}")
    return "".join(f"{line}\n" for line in lines)


# --- self test ---

SAME = [  # words and bytes that give each other
    ("open direct entries complete 2 0", "08 01 01 01 02 00 02 01"),
    ("open relay log complete 8 2", "0e 01 01 04 08 02 fe fd fb f7 ef df bf 7f"),
    ("open relay entries 5 1 : 2 3 4, 2 3 4, 0 1 3 4, 0 1 2 4, 0 1 2 3", "0b 01 01 03 05 01 1c 1c 1b 17 0f"),
    ("open direct log 2 255 : -, 0 7", "08 01 01 02 02 ff 00 81"),
    ("open direct log 0 0 :", "06 01 01 02 00 00"),
    ("order 0 0 observation 300 3600 12 1", "0d 01 02 00 00 01 01 2c 00 0e 10 0c 01"),
    ("order 2 1 keep-out 7 0 30", "0d 01 02 02 01 02 00 07 00 00 00 00 1e"),
    ("order 200 255 ffffffffffffffff", "0d 01 02 c8 ff ff ff ff ff ff ff ff ff"),
    ("order 0 0 0101000151800c01", "0d 01 02 00 00 01 01 00 01 51 80 0c 01"),
    ("carry 0", "05 01 03 00 00"),
    ("carry 65535", "05 01 03 ff ff"),
    ("meddle 3 1 send 3 3 0 {} observation 300 3600 12 1",
     "14 01 04 03 01 0f 01 01 03 03 00 00 01 01 2c 00 0e 10 0c 01"),
    ("meddle 255 9 ready 0 1 2 {0 2 7} 0000000000000000",
     "14 01 04 ff 09 0f 01 03 00 01 02 85 00 00 00 00 00 00 00 00"),
    ("bytes 04 01 09 00", "04 01 09 00"),              # a kind that no record has
    ("bytes 05 02 03 00 00", "05 02 03 00 00"),        # another version
    ("bytes 06 01 03 00 00 00", "06 01 03 00 00 00"),  # a carry that is too long
    ("bytes 08 01 01 05 02 00 02 01", "08 01 01 05 02 00 02 01"),  # a pile that no number means
    ("bytes 07 01 01 01 02 00 02", "07 01 01 01 02 00 02"),        # a row short
    ("bytes 04 01 01 01", "04 01 01 01"),
    ("bytes 03 01 02", "03 01 02"),
    ("bytes 14 01 04 03 01 0f 01 04 03 03 00 00 01 01 2c 00 0e 10 0c 01",  # a step that no number means
     "14 01 04 03 01 0f 01 04 03 03 00 00 01 01 2c 00 0e 10 0c 01"),
    ("carry 1\nbytes 05 01 03", "05 01 03 00 01 05 01 03"),        # bytes that are cut off
    ("carry 1\nbytes 02 01 05 01 03 00 00", "05 01 03 00 01 02 01 05 01 03 00 00"),
    ("bytes 00", "00"),
    ("", ""),
]
ALSO = [  # other words for bytes
    ("# nothing\n\n  carry 1 # the second that waits\n", "05 01 03 00 01"),
    ("carry 0 times 3", "05 01 03 00 00 05 01 03 00 00 05 01 03 00 00"),
    ("order 0 0 01012C000E100C01", "0d 01 02 00 00 01 01 2c 00 0e 10 0c 01"),
    ("open direct entries 2 0 : 1, 0", "08 01 01 01 02 00 02 01"),
    ("open direct entries 2 0:1,0", "08 01 01 01 02 00 02 01"),
    ("open direct entries complete 0 0", "06 01 01 01 00 00"),
    ("meddle 3 1 echo 3 0 0 {0, 1} 0000000000000000", "14 01 04 03 01 0f 01 02 03 00 00 03 00 00 00 00 00 00 00 00"),
]
BAD = [  # words that say no record, and a part of what is told
    ("carry 0\nlift 1", "line 2: 'lift' is no record"),
    ("carry", "line 1: the line ends where the index is due"),
    ("carry -1", "'-1' is no number"),
    ("carry 65536", "the index is 65536; it can be 0 to 65535"),
    ("carry 1 2", "'2' is one word too many"),
    ("carry 0 times 0", "how many times is 0"),
    ("order 0 0 01012c", "'01012c' is no word"),
    ("order 0 0 observation 300 86400 12 1", "the observation's start is 86400; it can be 0 to 86399"),
    ("order 0 256 0000000000000000", "the number is 256"),
    ("open radio log complete 4 1", "'radio' is no carrier; one of: direct, relay"),
    ("open relay pipe complete 4 1", "'pipe' is no link service"),
    ("open relay log complete 9 1", "N is 9; it can be 0 to 8"),
    ("open relay log 3 0 : 1 2, 0 2", "N is 3, and 2 rows stand there"),
    ("open relay log 3 0 1 2, 0 2, 0 1", "'1' stands where ':' is due"),
    ("open relay log 2 0 : 1,", "a row is empty"),
    ("open relay log 2 0 : 1, 8", "'8' is in no set of craft"),
    ("open relay log 2 0 : 1 1, 0", "craft 1 stands twice"),
    ("meddle 3 1 shout 3 3 0 {} 0000000000000000", "'shout' is no step"),
    ("meddle 3 1 send 3 3 0 0000000000000000 {}", "is no set of craft"),
    ("meddle 3 1 send 3 3 0 {0 0000000000000000", "'{' has no partner"),
    ("bytes", "no byte stands after 'bytes'"),
    ("bytes 5 1", "'5' is no byte of two hexadecimal digits"),
]


def some_record(rand):
    """Bytes that are mostly a record."""
    pick = lambda: rand.choice([0, 1, 2, 3, 4, 7, 8, 255, rand.randrange(256)])
    word = rand.choice([bytes.fromhex("01012c000e100c01"), bytes.fromhex("020007000000001e"), rand.randbytes(8)])
    n = rand.randrange(10)
    record = rand.choice([
        lambda: open_record(rand.randrange(6), pick(), rand.choice([complete(min(n, 8)), [pick() for _ in range(n)]])),
        lambda: order_record(pick(), pick(), word),
        lambda: carry_record(rand.randrange(65536)),
        lambda: meddle_record(pick(), pick(), frame(rand.randrange(5), pick(), pick(), pick(), pick(), word)),
        lambda: bytes([rand.randrange(12)]) + rand.randbytes(rand.randrange(12)),
    ])()
    if rand.randrange(8) == 0:
        at = rand.randrange(len(record))
        record = record[:at] + bytes([pick()]) + record[at + 1:]
    return record


def self_test():
    for words, pairs in SAME:
        data = bytes.fromhex(pairs)
        assert records_of(words) == data, words
        assert words_of(data) == (f"{words}\n" if words else ""), words_of(data)
    for words, pairs in ALSO:
        assert records_of(words) == bytes.fromhex(pairs), words
    for words, part in BAD:
        try:
            records_of(words)
        except BadWords as bad:
            assert part in str(bad), (words, str(bad))
        else:
            raise AssertionError(f"taken: {words}")
    rand = random.Random(1)
    for _ in range(20000):
        data = b"".join(some_record(rand) for _ in range(rand.randrange(6)))
        assert records_of(words_of(data)) == data, data.hex()
    examples = os.path.join(os.path.dirname(os.path.abspath(__file__)), os.pardir, "examples")
    named = sorted(name for name in os.listdir(examples) if name.endswith(".txt")) if os.path.isdir(examples) else []
    for name in named:
        with open(os.path.join(examples, name), encoding="utf-8") as words:
            data = records_of(words.read())
        with open(os.path.join(examples, f"{name[:-4]}.bin"), "rb") as stored:
            assert stored.read() == data, f"{name} gives other bytes than its .bin"
    print(f"records.py: {len(SAME)} records both ways, {len(ALSO)} in other words, {len(BAD)} bad lines, "
          f"20000 inputs there and back, {len(named)} examples")


def main(arguments):
    if arguments == ["--self-test"]:
        self_test()
        return
    into_words = arguments[:1] == ["--words"]
    files = arguments[1:] if into_words else arguments
    if len(files) != 1 or files[0].startswith("--"):
        sys.exit(__doc__)
    try:
        if files[0] == "-":
            data = sys.stdin.buffer.read()
        else:
            with open(files[0], "rb") as file:
                data = file.read()
    except OSError as error:
        sys.exit(f"records.py: {error}")
    if into_words:
        sys.stdout.write(words_of(data))
        return
    try:
        sys.stdout.buffer.write(records_of(data.decode("utf-8")))
    except UnicodeDecodeError:
        sys.exit(f"records.py: {files[0]}: no text; is it records? Then --words turns it into words")
    except BadWords as bad:
        sys.exit(f"{files[0]}: {bad}")


if __name__ == "__main__":
    main(sys.argv[1:])
