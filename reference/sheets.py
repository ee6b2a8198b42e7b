#!/usr/bin/env python3
"""A second, naive telling of the line formats and of the program `cuesheet`.

It was written from the project's documents alone, to be compared with the
real programs. Speed does not matter here; being easy to check does.

    python3 reference/sheets.py [FOLDER]

writes two files into FOLDER (default: crates/vectors beside this folder):
`stdin`, a run of frames, and `stdout`, what must be written for them. The
files are the same on every run. How many frames of each kind were written is
printed.

A frame is a header of 9 bytes and byte 10 (a letter, a blank, the length of
the payload at the right end of 7 columns), then exactly that many bytes.

    S  an input of cuesheet         -> what cuesheet writes, then `--`
    C  a line before the log        -> `parting`, `cue NUMBER LETTER CART`
                                       or `column N`
    L  a line of the log            -> `log SECOND LETTER CART` or `column N`
    W  three numbers, blanks        -> entry line of the three, total line of
       between them, byte 10           the first two, refusal line of the
                                       last two
"""

import os
import sys

# ---------------------------------------------------------------------------
# Limits
# ---------------------------------------------------------------------------

MOST_INPUT = 32768      # bytes of input of a program
MOST_SECOND = 86399     # last second of a day
MOST_LENGTH = 32        # events of one cue
MOST_CUES = 128         # cues of a draft
MOST_EVENTS = 1024      # events of all cues together
MOST_MATERIAL = 2048    # events of the material

BLANK = 32
NEWLINE = 10
KINDS = b"SJMNV"


# ---------------------------------------------------------------------------
# Reading
# ---------------------------------------------------------------------------

def read_number(field):
    """The value of a number field, or None if it is not readable.

    Blanks, possibly none; then digits, at least one, up to the last column.
    A first digit 0 is readable only as the single digit 0.
    """
    start = 0
    while start < len(field) and field[start] == BLANK:
        start += 1
    digits = field[start:]
    if len(digits) == 0:
        return None
    for byte in digits:
        if not 48 <= byte <= 57:
            return None
    if digits[0] == 48 and len(digits) > 1:
        return None
    value = 0
    for byte in digits:
        value = value * 10 + (byte - 48)
    return value


def columns_of(line):
    """The columns of a line, or None if the line lacks its byte 10."""
    if len(line) == 0 or line[-1] != NEWLINE:
        return None
    return line[:-1]


def read_fields(columns, first_width, first_limit):
    """The five fields that a cue line and a log line have alike: a number of
    `first_width` columns, a blank, a kind, a blank, a cart of 6 columns.

    Answers ("values", number, kind, cart), or ("column", n) where n is the
    column, counted from 1, at which the leftmost unreadable field starts.
    """
    at = first_width                    # offset of the first blank
    number = read_number(columns[:at])
    if number is None:
        return ("column", 1)
    if first_limit is not None and number > first_limit:
        return ("column", 1)
    if columns[at] != BLANK:
        return ("column", at + 1)
    kind = columns[at + 1]
    if kind not in KINDS:
        return ("column", at + 2)
    if columns[at + 2] != BLANK:
        return ("column", at + 3)
    cart = read_number(columns[at + 3:at + 9])
    if cart is None:
        return ("column", at + 4)
    return ("values", number, chr(kind), cart)


def read_line_before_log(line):
    """Reads a line up to and including the first parting line.

    Answers ("parting",), ("cue", number, letter, cart) or ("column", n).
    """
    columns = columns_of(line)
    if columns is None:
        return ("column", 0)
    if len(columns) == 0:
        return ("parting",)
    if len(columns) != 13:
        return ("column", 0)
    answer = read_fields(columns, 4, None)
    if answer[0] == "values":
        return ("cue",) + answer[1:]
    return answer


def read_log_line(line):
    """Reads a line behind the first parting line.

    Answers ("log", second, letter, cart) or ("column", n).
    """
    columns = columns_of(line)
    if columns is None or len(columns) != 14:
        return ("column", 0)
    answer = read_fields(columns, 5, MOST_SECOND)
    if answer[0] == "values":
        return ("log",) + answer[1:]
    return answer


def lines_of(data):
    """Cuts an input into lines. Every line keeps its byte 10; the last one
    has none if the input does not end with it. Behind the last byte 10 there
    is no further line, and the empty input has no line."""
    lines = []
    line = b""
    for byte in data:
        line += bytes([byte])
        if byte == NEWLINE:
            lines.append(line)
            line = b""
    if line != b"":
        lines.append(line)
    return lines


# ---------------------------------------------------------------------------
# Writing
# ---------------------------------------------------------------------------

def write_number(number, width):
    """A number at the right end of its field; `*` in every column of the
    field if the number has more digits than that."""
    digits = str(number)
    if len(digits) > width:
        return "*" * width
    return " " * (width - len(digits)) + digits


def entry_line(place, cue, length):
    return (write_number(place, 7) + " " + write_number(cue, 4) + " "
            + write_number(length, 2) + "\n").encode("ascii")


def total_line(first, second):
    return (write_number(first, 7) + " "
            + write_number(second, 7) + "\n").encode("ascii")


def refusal_line(refusal, line):
    return (write_number(refusal, 2) + " "
            + write_number(line, 7) + "\n").encode("ascii")


# ---------------------------------------------------------------------------
# Draft
# ---------------------------------------------------------------------------

class Draft:
    """Material (events as pairs of kind and cart; the second does not count)
    and the cues added so far (pairs of place and length)."""

    def __init__(self, events):
        self.material = list(events[:MOST_MATERIAL])
        self.cues = []

    def events(self, cue):
        place, length = cue
        return self.material[place:place + length]

    def add(self, place, length):
        """0 if the cue was added, otherwise the number of the refusal."""
        if length == 0:
            return 1
        if length > MOST_LENGTH:
            return 2
        if place + length > len(self.material):
            return 3
        together = sum(cue[1] for cue in self.cues)
        if len(self.cues) >= MOST_CUES or together + length > MOST_EVENTS:
            return 4
        for cue in self.cues:
            if self.events(cue) == self.events((place, length)):
                return 5
        self.cues.append((place, length))
        return 0


# ---------------------------------------------------------------------------
# The program cuesheet
# ---------------------------------------------------------------------------

def cuesheet(data):
    """All that cuesheet writes for the input `data`; bytes in, bytes out."""
    if len(data) > MOST_INPUT:
        return refusal_line(15, 0)

    # First round: how far do the cue lines go, and what is there at their
    # end? `stop` is None for the parting line, else (refusal, line number).
    lines = lines_of(data)
    read = []                           # (line number, cue number, event)
    stop = (13, len(lines) + 1)         # stays if no parting line is found
    for place, line in enumerate(lines):
        line_number = place + 1
        answer = read_line_before_log(line)
        if answer[0] == "column":
            stop = (13, line_number)
            break
        if answer[0] == "parting":
            stop = None
            break
        _, number, letter, cart = answer
        if len(read) == 0:
            allowed = [0]
        else:
            allowed = [read[-1][1], read[-1][1] + 1]
        if number not in allowed:
            stop = (14, line_number)
            break
        read.append((line_number, number, (letter, cart)))

    # Second round: the cues, one after the other. Each is added before
    # whatever stopped the cue lines is looked at.
    draft = Draft([event for _, _, event in read])
    written = b""
    place = 0
    while place < len(read):
        number = read[place][1]
        length = 0
        while place + length < len(read) and read[place + length][1] == number:
            length += 1
        refusal = draft.add(place, length)
        if refusal != 0:
            last_line = read[place + length - 1][0]
            return written + refusal_line(refusal, last_line)
        written += entry_line(place, number, length)
        place += length

    # What stopped the cue lines.
    if stop is not None:
        return written + refusal_line(stop[0], stop[1])
    return written + total_line(len(draft.material), len(draft.cues))


# ---------------------------------------------------------------------------
# Frames
# ---------------------------------------------------------------------------

def frame(letter, payload):
    header = letter + " " + write_number(len(payload), 7) + "\n"
    assert len(header) == 10 and "*" not in header
    return header.encode("ascii") + payload


def expected(letter, payload):
    """What must be written for a frame."""
    if letter == "S":
        return cuesheet(payload) + b"--\n"
    if letter == "C":
        answer = read_line_before_log(payload)
    elif letter == "L":
        answer = read_log_line(payload)
    elif letter == "W":
        a, b, c = [int(word) for word in payload[:-1].split(b" ")]
        return entry_line(a, b, c) + total_line(a, b) + refusal_line(b, c)
    else:
        raise ValueError(letter)
    return (" ".join(str(part) for part in answer) + "\n").encode("ascii")


# ---------------------------------------------------------------------------
# Making cases
# ---------------------------------------------------------------------------

class Dice:
    """Numbers that look random and are the same on every run, on every
    machine and with every version of the language."""

    def __init__(self, seed):
        self.state = seed

    def below(self, limit):
        """A number from 0 to limit - 1."""
        self.state = (self.state * 6364136223846793005
                      + 1442695040888963407) % 2**64
        return (self.state >> 33) % limit

    def between(self, low, high):
        """A number from low to high, both included."""
        return low + self.below(high - low + 1)

    def pick(self, choices):
        return choices[self.below(len(choices))]


def cue_line(number, kind, cart):
    line = ("%4d %s %6d\n" % (number, kind, cart)).encode("ascii")
    assert len(line) == 14
    return line


def log_line(second, kind, cart):
    line = ("%5d %s %6d\n" % (second, kind, cart)).encode("ascii")
    assert len(line) == 15
    return line


def sheet(cues, first=0):
    """The cue lines of a list of cues; a cue is a list of (kind, cart), or a
    text such as "J10 S20"."""
    data = b""
    for place, cue in enumerate(cues):
        if isinstance(cue, str):
            cue = [(word[0], int(word[1:])) for word in cue.split()]
        for kind, cart in cue:
            data += cue_line(first + place, kind, cart)
    return data


def run(first_cart, length, kind="M"):
    """A cue of `length` different events."""
    return [(kind, first_cart + i) for i in range(length)]


# Bytes that are likely to be taken for something else.
ODD_BYTES = (b" 0123456789SJMNVsjmnvXATUI-+.,*/:;@[`{_\t\r\x0b\x0c\x00\x01\x1f"
             b"\x7f\x80\x8a\xa0\xb0\xd3\xff")


def replaced(line, offset, byte):
    return line[:offset] + bytes([byte]) + line[offset + 1:]


def all_fields(width, letters):
    """Every field of that width over the given bytes."""
    fields = [b""]
    for _ in range(width):
        fields = [f + bytes([x]) for f in fields for x in letters]
    return fields


class Cases:
    def __init__(self):
        self.list = []
        self.seen = set()

    def put(self, letter, payload):
        """Takes a case, but no case twice."""
        if letter in "CL":
            # A line has byte 10 at its end or nowhere.
            assert NEWLINE not in payload[:-1]
        if (letter, payload) not in self.seen:
            self.seen.add((letter, payload))
            self.list.append((letter, payload))


# --- sheets by hand ---------------------------------------------------------

def sheets_by_hand(cases):
    def put(data):
        cases.put("S", data)

    part = b"\n"

    # The samples of the documents.
    sample = sheet(["J10 S20", "S20", "S20 J10"])
    sample_log = (log_line(100, "J", 10) + log_line(130, "S", 20)
                  + log_line(160, "J", 10) + log_line(190, "S", 20)
                  + log_line(220, "M", 5))
    put(sample + part)
    put(sample + part + sample_log)
    put(sheet(["J10", "S20", "J10"]) + part)

    # Empty input, parting line alone, no parting line.
    put(b"")
    put(part)
    put(part + part)
    put(part + part + part)
    put(part + sample)
    put(part + sample_log)
    put(sheet(["J10"]))
    put(sheet(["J10 S20"]))
    put(sheet(["J10", "S20"]))
    put(sample)

    # Last line without byte 10.
    one = cue_line(0, "J", 10)
    put(one[:-1])
    put(one + one[:-1])                             # same cue
    put(one + cue_line(1, "S", 20)[:-1])            # next cue
    put(one + cue_line(5, "S", 20)[:-1])            # 13 comes before 14
    put(sample[:-1])
    put(sample + b" ")
    put(sample + b"\r")
    put(sample + b"x")
    put(b" ")
    put(b"x")
    put(b"\x00")
    put(b"\xff")
    put(b"\r")
    put(b"\r\n")
    for cut in range(1, 14):
        put(one + cue_line(1, "S", 20)[:cut])

    # Behind the parting line anything is allowed.
    for behind in [b"\r\n", b" ", b"x", b"\x00", b"\xff" * 40, b"   0 J     10",
                   b"   7 J     10\n", b"99999 q 000000\n", b"a\nb\n\n\n\nc",
                   bytes(range(256)), b"\n" * 30, b"\t\t\t\n",
                   sheet([run(1, 40)]), sheet(["J10"]) + part]:
        put(sample + part + behind)
        put(part + behind)
        put(sheet(["J10", "J10"]) + part + behind)

    # Byte 13 in front of byte 10.
    put(sample.replace(b"\n", b"\r\n") + b"\r\n")
    put(sample + b"\r\n")
    put(one + b"   1 S     20\r\n" + part)
    put(one + b"   1 S     2\r\n" + part)           # 13 columns with byte 13

    # Other wrong lengths.
    put(one + log_line(100, "J", 10) + part)
    put(log_line(100, "J", 10) + part)
    put(one + b" \n" + part)
    put(one + b"             \n" + part)
    put(one + b"   1 S     20 \n" + part)
    put(one + b"   1 S    20\n" + part)
    put(b"x" * 300 + b"\n" + part)
    put(one + b"\x00" * 269 + b"\n" + part)         # 269 is 13 more than 256

    # Every bad column, as the first line and later.
    for bad in [b"0000 S     20\n", b"   a S     20\n", b"     S     20\n",
                b"1    S     20\n", b" 1 1 S     20\n", b"  -1 S     20\n",
                b"  +1 S     20\n", b"  01 S     20\n", b"\t  1 S     20\n",
                b"\xff\xff\xff1 S     20\n", b"1234567890123\n",
                b"   1-S     20\n", b"   1\tS     20\n", b"   1\x00S     20\n",
                b"   1 s     20\n", b"   1 X     20\n", b"   1       20\n",
                b"   1 \xd3     20\n", b"   1 S.    20\n",
                b"   1 S\x00    20\n", b"   1 S       \n",
                b"   1 S 20    \n", b"   1 S    2 0\n",
                b"   1 S    020\n", b"   1 S 000000\n", b"   1 S     2a\n",
                b"   1 S    2\xb20\n", b"   1 S    -20\n",
                b"   1 S     2\r\n"]:
        assert read_line_before_log(bad)[0] == "column"
        put(bad + part)
        put(one + bad + part)
        put(one + bad + cue_line(1, "S", 20) + part)
        # The cue in front is refused itself: its refusal is written.
        put(sheet(["J10", "J10"]) + bad + part)
        # The bad line stands where cue 0 is repeated by later lines.
        put(sheet(["J10", "S20", "J10"]) + bad + cue_line(2, "J", 10) + part)

    # Cue numbers.
    for first in [1, 2, 9, 10, 127, 128, 255, 256, 999, 1000, 1234, 9999]:
        put(cue_line(first, "J", 10) + part)
        put(cue_line(first, "J", 10))
        put(cue_line(first, "J", 10)[:-1])
        put(one + cue_line(first, "S", 20) + part)
        put(one + one + cue_line(first, "S", 20) + part)
        put(sheet(["J10", "S20"]) + cue_line(first, "M", 5) + part)
        put(sheet(["J10", "S20", "J10"]) + cue_line(first, "M", 5) + part)
    put(sheet(["J10", "S20"]) + one + part)                     # goes back
    put(sheet(["J10", "S20", "M5"]) + cue_line(1, "V", 1) + part)
    put(sheet(["J10", "S20", "M5"]) + cue_line(0, "V", 1) + part)
    put(sheet(["J10", "S20", "M5"]) + cue_line(0, "V", 1) + b"x\n" + part)
    put(sheet(["J10", "S20", "M5"]) + b"x\n" + cue_line(0, "V", 1) + part)
    put(cue_line(1, "J", 10) + cue_line(0, "J", 10) + part)
    put(cue_line(1, "J", 10) + b"x\n" + part)
    put(b"x\n" + cue_line(1, "J", 10) + part)
    put(sheet(["J10", "S20"], first=255) + part)
    put(sheet(["J10", "J10"]) + one + part)         # 5 wins over 14
    put(sheet(["J10", "J10"]) + cue_line(3, "S", 20) + part)
    put(sheet(["J10", "J10"]) + cue_line(3, "S", 20))
    put(sheet(["J10", "J10"]))                      # 5 wins over 13 at the end
    put(sheet(["J10", "J10"])[:-1])                 # here line 2 is refused
    put(sheet(["J10", "J10"]) + b"   1 S     20")   # 5 wins over this 13

    # Same cues and cues that are nearly the same.
    for cues in [
            ["J10", "J10"], ["J10 S20", "J10 S20"], ["J10", "S20", "S20"],
            ["J10 S20 M5", "S20", "J10 S20 M5"],
            ["J10", "J10", "J10"], ["J10 J10", "J10 J10"],
            ["J10 J10", "J10"], ["J10", "J10 J10", "J10 J10 J10"],
            ["J10", "S10", "M10", "N10", "V10"],
            ["J10", "S10", "M10", "N10", "V10", "M10"],
            ["J10", "J11", "J110", "J1", "J0"],
            ["J0", "S0", "J0"], ["J999999", "S999999", "J999999"],
            ["J999999", "J99999", "J999990"],
            ["J10 S20", "S20 J10"], ["J10 S20", "S10 J20"],
            ["J10 S20 M5", "J10 S20", "S20 M5", "J10", "S20", "M5"],
            ["M5", "S20", "J10", "S20 M5", "J10 S20", "J10 S20 M5"],
            ["J10 S20 M5", "J10 S20 M6"], ["J10 S20 M5", "J11 S20 M5"],
            ["J10 S20 M5", "J10 S21 M5"], ["J10 S20 M5", "J10 S20 N5"],
            ["J10 S20 M5", "J10 N20 M5"], ["J10 S20 M5", "V10 S20 M5"],
            ["J10 S20", "S20", "S20 J10", "J10 S20"],
            ["J10 S20", "S20", "S20 J10", "S20"],
            ["J10 S20", "S20", "S20 J10", "S20 J10"],
            ["J65536", "J0"], ["J65546", "J10"], ["J256", "J0"],
            ["J131082", "J10"], ["S20 J10 S20", "S20 J10", "J10 S20", "S20"]]:
        put(sheet(cues) + part)
        put(sheet(cues))
        put(sheet(cues) + b"?\n" + part)
        put(sheet(cues) + cue_line(9998, "N", 3) + part)

    # 31, 32 and 33 events of a cue.
    for length in [31, 32, 33, 34, 64]:
        put(sheet([run(1, length)]) + part)
    for length in [32, 33]:
        put(sheet([run(1, length)]))
        put(sheet([run(1, length)]) + b"bad\n" + part)
        put(sheet([run(1, length)]) + cue_line(2, "J", 1) + part)
        put(sheet([run(1, length)]) + cue_line(1, "J", 1) + part)
        put(sheet([run(1, length)]) + cue_line(0, "J", 1)[:-1])
        put(sheet(["J10", run(1, length), "J10"]) + part)
        put(sheet(["J10", "S20 J10", run(1, length)]) + part)
        put(sheet([[("M", 7)] * length]) + part)
    put(sheet([run(1, 32), run(1, 32)]) + part)
    put(sheet([run(1, 32), run(1, 31)]) + part)
    put(sheet([run(1, 32), run(2, 32)]) + part)
    put(sheet([run(1, 32), run(1, 33)]) + part)     # 2
    put(sheet([run(1, 31) + [("S", 1)], run(1, 31) + [("S", 2)]]) + part)
    put(sheet([run(1, 256)]) + part)                # 256 events are not 0

    # 127, 128 and 129 cues.
    singles = [[("S", 1000 + i)] for i in range(128)]
    put(sheet(singles[:127]) + part)
    put(sheet(singles) + part)
    put(sheet(singles))
    put(sheet(singles) + cue_line(129, "V", 1) + part)          # 14
    put(sheet(singles) + cue_line(126, "V", 1) + part)          # 14
    put(sheet(singles) + cue_line(127, "V", 1) + part)          # cue 127 longer
    put(sheet(singles + ["V1"]) + part)                         # 4
    put(sheet(singles + ["V1"]))                                # 4, not 13
    put(sheet(singles + ["V1 V2 V3", "V4"]) + part)             # 4, third line
    put(sheet(singles + ["V1"]) + b"bad\n" + part)              # 4, not 13
    put(sheet(singles + ["V1"]) + cue_line(130, "V", 2) + part)  # 4, not 14
    put(sheet(singles + ["S1000"]) + part)                      # 4, not 5
    put(sheet(singles + [run(1, 33)]) + part)                   # 2, not 4
    put(sheet(singles[:127] + ["S1000"]) + part)                # 5
    put(sheet(singles[:127] + ["S1126"]) + part)                # 5

    # 1,024 and 1,025 events of all cues together.
    full = [run(100 * i, 32) for i in range(32)]
    put(sheet(full) + part)                                     # 1,024
    put(sheet(full + ["V1"]) + b"bad\n" + part)                 # 4, not 13
    put(sheet(full + [run(0, 33)]) + part)                      # 2, not 4
    put(sheet(full + [run(0, 32)]) + part)                      # 4, not 5
    nearly = full[:31] + [run(5000, 31)]                        # 1,023
    put(sheet(nearly + ["V1"]) + part)                          # 1,024
    put(sheet(nearly + ["V1 V2"]) + part)                       # 1,025
    eights = [run(100 * i, 8) for i in range(128)]
    put(sheet(eights) + part)                                   # both limits
    put(sheet(eights[:127] + [run(90000, 9)]) + part)           # 1,025

    # Size of the input.
    filler = sample + part
    put(filler + b"z" * (MOST_INPUT - len(filler)))             # 32,768
    put(filler + b"z" * (MOST_INPUT + 1 - len(filler)))         # 32,769
    long_cue = b"".join(cue_line(0, "M", i) for i in range(2340))
    put(long_cue + b"   0 M  ")                     # 32,768; 2 in line 2,340
    put(b"bad\n" + b"z" * 65536)                    # over 65,536; 15, not 13


# --- lines by hand ----------------------------------------------------------

def lines_by_hand(cases):
    cue = b"   7 J     10\n"
    log = b"  100 J     10\n"
    assert read_line_before_log(cue) == ("cue", 7, "J", 10)
    assert read_log_line(log) == ("log", 100, "J", 10)

    # Examples of the documents, and the parting line.
    for line in [b"   0 J    010\n", b"   0 X    010\n", b"   0-J     10\n",
                 b"   0 J    10\n", b"86400 J     10\n", b"  100 j     10\n",
                 b"\n", b"", b" ", b" \n", b"\r", b"\r\n", b"\x00", b"\x00\n",
                 b"\xff\n", cue, log, cue[:-1], log[:-1],
                 cue[:-1] + b"\r\n", log[:-1] + b"\r\n",
                 cue[:-2] + b"\r\n", log[:-2] + b"\r\n",
                 b"   1 S     2\r\n", b"  100 S     2\r\n"]:
        cases.put("C", line)
        cases.put("L", line)

    # Every length from 0 to 30 and some beyond, with byte 10 and without
    # (256, 269 and 270 are 0, 13 and 14 with 256 added).
    for length in list(range(31)) + [256, 269, 270]:
        for filler in [b" ", b"1", b"\x00"]:
            for end in [b"\n", b""]:
                cases.put("C", filler * length + end)
                cases.put("L", filler * length + end)
        for letter, line in [("C", cue), ("L", log)]:
            cut = line[:-1][:length]
            cut += b" " * (length - len(cut))
            cases.put(letter, cut + b"\n")
            cases.put(letter, cut)

    for letter, line, width in [("C", cue, 4), ("L", log, 5)]:
        # Every byte in the two blanks and in the kind.
        for offset in [width, width + 1, width + 2]:
            for byte in range(256):
                if byte != NEWLINE:
                    cases.put(letter, replaced(line, offset, byte))
        # Odd bytes in every column.
        for offset in range(len(line) - 1):
            for byte in ODD_BYTES:
                cases.put(letter, replaced(line, offset, byte))
        # Every choice of unreadable fields.
        for choice in range(32):
            fields = [line[:width], b" ", b"J", b" ", line[width + 3:-1]]
            wrong = [b"0" * width, b"_", b"j", b"\t", b"    1 "]
            for bit in range(5):
                if choice >> bit & 1:
                    fields[bit] = wrong[bit]
            cases.put(letter, b"".join(fields) + b"\n")
            cases.put(letter, b"".join(fields))
        # Number fields: every mix of blank, 0 and 8.
        for field in all_fields(width, b" 08"):
            cases.put(letter, field + line[width:])
        for field in all_fields(6, b" 08"):
            cases.put(letter, line[:width + 3] + field + b"\n")
        # Kinds with the smallest and the largest values.
        for kind in KINDS:
            for cart in [b"     0", b"     9", b"    10", b" 99999", b"100000",
                         b"999999", b"065536", b" 65536"]:
                cases.put(letter, line[:width + 1] + bytes([kind]) + b" "
                          + cart + b"\n")

    for number in ["   0", "   9", "  10", "  99", " 100", " 999", "1000",
                   "9999", "0010", "  00", "10  ", " 1 2", "    ", "  -1",
                   "  +1", "1e3 ", " 1e3", "0x10", " .5 ", "1,00", "1_00",
                   "\t  1", "   \t", "0   ", " 0  ", "   0"]:
        cases.put("C", number.encode("ascii") + cue[4:])
        cases.put("L", b" " + number.encode("ascii") + log[5:])
    for second in ["    0", "86398", "86399", "86400", "86401", "86409",
                   "86410", "86499", "86500", "87000", "90000", "99999",
                   "79999", "80000", "85999", "86000", "86390", "86300",
                   "65535", "65536", "65537", "10000", " 9999", " 8640",
                   "08639", "00000", "    -", "-0001", "1 000", "0    "]:
        cases.put("L", second.encode("ascii") + log[5:])
        # A second too great together with another unreadable field.
        cases.put("L", second.encode("ascii") + b" j     10\n")
        cases.put("L", second.encode("ascii") + b" J    010\n")


# --- written numbers by hand --------------------------------------------------

def numbers_by_hand(cases):
    edges = [0, 1, 9, 10, 11, 99, 100, 101, 127, 128, 255, 256, 999, 1000,
             1001, 9999, 10000, 10001, 65535, 65536, 99999, 100000, 999999,
             1000000, 1000001, 9999999, 10000000, 10000001, 99999999,
             2**31, 2**32 - 1, 2**32, 2**53, 2**63 - 1, 2**63,
             10**18, 10**19 - 1, 10**19, 2**64 - 2, 2**64 - 1]
    put = lambda a, b, c: cases.put("W", ("%d %d %d\n" % (a, b, c)).encode())
    put(10000000, 7, 100)
    for edge in edges:
        put(edge, 3, 4)
        put(5, edge, 6)
        put(7, 8, edge)
        put(edge, edge, edge)
    for a in [0, 9999999, 10000000]:
        for b in [0, 99, 100, 9999, 10000, 9999999, 10000000]:
            for c in [0, 99, 100, 9999999, 10000000]:
                put(a, b, c)


# --- random cases -----------------------------------------------------------

def random_event(dice, carts):
    return (dice.pick("SJMNV"), dice.pick(carts))


def random_sheet(dice):
    """A sheet that is mostly valid; with few different events, so that same
    cues happen by themselves."""
    few = dice.below(2) == 0
    carts = [5, 10] if few else [0, 7, 20, 310, 4711, 65536, 999999]
    cues = []
    for _ in range(dice.between(0, 6)):
        cue = [random_event(dice, carts) for _ in range(dice.between(1, 4))]
        if few:
            cue = [(dice.pick("SJ"), cart) for _, cart in cue]
        if few or cue not in cues:
            cues.append(cue)
    data = sheet(cues)
    choice = dice.below(8)
    if choice != 0:
        data += b"\n"
        second = dice.below(50000)
        for _ in range(dice.between(0, 4)):
            data += log_line(second, *random_event(dice, carts))
            second += dice.between(1, 400)
    return data


def mutated_sheet(dice, data, empty_lines=False):
    """One change to an input; with empty_lines also an empty line more."""
    lines = lines_of(data)
    if len(lines) == 0:
        return dice.pick([b"", b"\n", b"x", b"\n\n"])
    choice = dice.below(11 if empty_lines else 10)
    at = dice.below(len(data))
    if choice == 0:                             # one bit of a byte
        return replaced(data, at, data[at] ^ (1 << dice.below(8)))
    if choice == 1:                             # any byte
        return replaced(data, at, dice.below(256))
    if choice == 2:                             # an odd byte
        return replaced(data, at, dice.pick(ODD_BYTES))
    if choice == 3:                             # a byte more
        return data[:at] + bytes([dice.pick(ODD_BYTES + b"\n")]) + data[at:]
    if choice == 4:                             # a byte less
        return data[:at] + data[at + 1:]
    if choice == 5:                             # cut off
        return data[:at]
    one = dice.below(len(lines))
    two = dice.below(len(lines))
    if choice == 6:                             # a line less
        del lines[one]
    elif choice == 7:                           # two lines change places
        lines[one], lines[two] = lines[two], lines[one]
    elif choice == 8:                           # a line twice
        lines.insert(two, lines[one])
    elif choice == 9 and empty_lines:           # an empty line more
        lines.insert(one, b"\n")
    else:                                       # another cue number
        lines[one] = b"%4d" % dice.below(5) + lines[one][4:]
    return b"".join(lines)


def mutated_line(dice, line):
    """One change to a line; byte 10 stays at the end or goes."""
    columns = line.rstrip(b"\n")
    end = line[len(columns):]
    choice = dice.below(8)
    if len(columns) == 0 or choice == 0:
        return columns + dice.pick([b"", b"\n"])
    at = dice.below(len(columns))
    if choice == 1:
        byte = columns[at] ^ (1 << dice.below(8))
        columns = replaced(columns, at, byte if byte != NEWLINE else 0)
    elif choice == 2:
        byte = dice.below(256)
        columns = replaced(columns, at, byte if byte != NEWLINE else 255)
    elif choice in (3, 4):
        columns = replaced(columns, at, dice.pick(ODD_BYTES))
    elif choice == 5:
        columns = columns[:at] + bytes([dice.pick(ODD_BYTES)]) + columns[at:]
    elif choice == 6:
        columns = columns[:at] + columns[at + 1:]
    else:                                       # two columns change places
        two = dice.below(len(columns))
        a, b = columns[at], columns[two]
        columns = replaced(replaced(columns, at, b), two, a)
    return columns + end


def number_of_digits(dice, most):
    """A number with a random count of digits, at most `most` of them."""
    digits = dice.between(1, most)
    low = 0 if digits == 1 else 10 ** (digits - 1)
    value = low
    for place in range(digits):
        value += dice.below(10 if place < digits - 1 else 9) * 10 ** place
    return value


def random_cases(cases, dice):
    for count in range(500):
        data = random_sheet(dice)
        for _ in range(dice.below(4)):
            data = mutated_sheet(dice, data)
        cases.put("S", data)
    for count in range(400):
        line = cue_line(number_of_digits(dice, 4), dice.pick("SJMNV"),
                        number_of_digits(dice, 6))
        for _ in range(dice.below(4)):
            line = mutated_line(dice, line)
        cases.put("C", line)
    for count in range(400):
        second = dice.pick([dice.below(86400), dice.between(86390, 86410),
                            number_of_digits(dice, 5)])
        line = log_line(second, dice.pick("SJMNV"), number_of_digits(dice, 6))
        for _ in range(dice.below(4)):
            line = mutated_line(dice, line)
        cases.put("L", line)
    for count in range(150):
        words = []
        for most in [dice.pick([8, 20]), dice.pick([5, 9, 20]),
                     dice.pick([3, 9, 20])]:
            words.append(str(min(number_of_digits(dice, most), 2**64 - 1)))
        cases.put("W", (" ".join(words) + "\n").encode("ascii"))


def all_cases():
    cases = Cases()
    sheets_by_hand(cases)
    lines_by_hand(cases)
    numbers_by_hand(cases)
    random_cases(cases, Dice(20))
    return cases.list


def main(arguments):
    if len(arguments) > 1:
        print("use: sheets.py [FOLDER]", file=sys.stderr)
        return 2
    if arguments:
        folder = arguments[0]
    else:
        here = os.path.dirname(os.path.abspath(__file__))
        folder = os.path.join(os.path.dirname(here), "crates", "vectors")
    os.makedirs(folder, exist_ok=True)

    stdin = []
    stdout = []
    count = {"S": 0, "C": 0, "L": 0, "W": 0}
    for letter, payload in all_cases():
        stdin.append(frame(letter, payload))
        stdout.append(expected(letter, payload))
        count[letter] += 1
    for name, parts in [("stdin", stdin), ("stdout", stdout)]:
        with open(os.path.join(folder, name), "wb") as file:
            file.write(b"".join(parts))
    for letter in "SCLW":
        print("%s %d" % (letter, count[letter]))
    return 0


if __name__ == "__main__":
    sys.exit(main(sys.argv[1:]))
