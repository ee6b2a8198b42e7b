#!/usr/bin/env python3
"""A second, naive telling of the programs `airings` and `notes`.

It was written from the project's documents alone, to be compared with the
real programs. Speed does not matter here; being easy to check does. The line
readers and writers are those of sheets.py.

    python3 reference/reports.py [FOLDER]

writes two files into FOLDER (default: crates/report_vectors beside this
folder): `stdin`, a run of frames, and `stdout`, what must be written for
them. The files are the same on every run. How many frames of each kind were
written is printed.

A frame is a header of 9 bytes and byte 10 (a letter, a blank, the length of
the payload at the right end of 7 columns), then exactly that many bytes.

    A  an input of airings          -> what airings writes, then `--`
    N  an input of notes            -> what notes writes, then `--`

    python3 reference/reports.py --wrong

writes no file. It runs deliberately wrong versions of the two programs on
the same frames and prints those that no frame tells from the right ones.
"""

import os
import sys
import types

sys.dont_write_bytecode = True          # leave no files beside this one
sys.path.insert(0, os.path.dirname(os.path.abspath(__file__)))

from sheets import (Dice, NEWLINE, cue_line, entry_line, frame, log_line,
                    mutated_sheet, read_line_before_log, read_log_line,
                    refusal_line, replaced, total_line)

# ---------------------------------------------------------------------------
# Limits
# ---------------------------------------------------------------------------

MOST_INPUT = 32768      # bytes of input of a program
MOST_LENGTH = 32        # events of one cue
MOST_CUES = 128         # cues of a draft
MOST_EVENTS = 1024      # events of all cues together


# ---------------------------------------------------------------------------
# Events and cues
# ---------------------------------------------------------------------------

def same_events(x, y):
    """As-run events are pairs of kind and cart; the second does not count."""
    return x == y


def same_bytes(x, y):
    """Equal, or a capital letter and its small letter."""
    if 65 <= x <= 90 and y == x + 32:
        return True
    if 65 <= y <= 90 and x == y + 32:
        return True
    return x == y


def same_lists(same, xs, ys):
    """Event by event the same."""
    return len(xs) == len(ys) and all(same(x, y) for x, y in zip(xs, ys))


class Draft:
    """The cues added so far, each a list of events."""

    def __init__(self, same):
        self.same = same
        self.cues = []

    def add(self, cue):
        """0 if the cue was added, otherwise the number of the refusal."""
        assert len(cue) > 0             # so there is no refusal 1
        if len(cue) > MOST_LENGTH:
            return 2
        together = sum(len(old) for old in self.cues)
        if len(self.cues) >= MOST_CUES or together + len(cue) > MOST_EVENTS:
            return 4
        for old in self.cues:
            if same_lists(self.same, old, cue):
                return 5
        self.cues.append(cue)
        return 0

    def ending(self, text, place):
        """The cues that end at this place of the text, the longest first:
        pairs of number and length."""
        found = []
        for number, cue in enumerate(self.cues):
            start = place + 1 - len(cue)
            if start < 0:
                continue
            if same_lists(self.same, text[start:place + 1], cue):
                found.append((number, len(cue)))
        return sorted(found, key=lambda pair: -pair[1])


# ---------------------------------------------------------------------------
# The programs
# ---------------------------------------------------------------------------

def lines_of(data):
    """Cuts an input into lines. Every line keeps its byte 10; the last one
    has none if the input does not end with it. Behind the last byte 10 there
    is no further line, and the empty input has no line."""
    lines = []
    start = 0
    for place, byte in enumerate(data):
        if byte == NEWLINE:
            lines.append(data[start:place + 1])
            start = place + 1
    if start < len(data):
        lines.append(data[start:])
    return lines


def listing(draft, text, stop):
    """The entry lines of the text and then the refusal line of `stop`, a
    refusal and its line number. Where `stop` is None, the total line."""
    entries = []
    for place in range(len(text)):
        found = draft.ending(text, place)
        entries += [(place, number, length) for number, length in found]
    written = b"".join(entry_line(*entry) for entry in entries)
    if stop is not None:
        return written + refusal_line(*stop)
    return written + total_line(len(text), len(entries))


def read_cue_lines(lines):
    """The cues up to the parting line or up to the first line refused with
    13 or 14: a list of pairs, the last line of a cue and its events. Then
    that refusal and its line number, or None at the parting line."""
    cues = []
    last = None                         # the number in the line before
    for line_number, line in enumerate(lines, 1):
        answer = read_line_before_log(line)
        if answer[0] == "column":
            return cues, (13, line_number)
        if answer[0] == "parting":
            return cues, None
        _, number, letter, cart = answer
        allowed = [0] if last is None else [last, last + 1]
        if number not in allowed:
            return cues, (14, line_number)
        if number == last:
            events = cues.pop()[1] + [(letter, cart)]
        else:
            events = [(letter, cart)]
        cues.append((line_number, events))
        last = number
    return cues, (13, len(lines) + 1)


def airings(data):
    """All that airings writes for the input `data`; bytes in, bytes out."""
    if len(data) > MOST_INPUT:
        return refusal_line(15, 0)
    lines = lines_of(data)
    # Each cue is added before what stopped the cue lines is looked at.
    cues, stop = read_cue_lines(lines)
    draft = Draft(same_events)
    for last_line, events in cues:
        refusal = draft.add(events)
        if refusal != 0:
            return refusal_line(refusal, last_line)
    if stop is not None:
        return refusal_line(*stop)
    # The log, up to its end or to the first line refused.
    parting = lines.index(b"\n") + 1    # number of the parting line
    text = []
    for line_number, line in enumerate(lines[parting:], parting + 1):
        answer = read_log_line(line)
        if answer[0] == "column":
            return listing(draft, text, (13, line_number))
        _, second, letter, cart = answer
        text.append((letter, cart))
    return listing(draft, text, None)


def notes(data):
    """All that notes writes for the input `data`; bytes in, bytes out."""
    if len(data) > MOST_INPUT:
        return refusal_line(15, 0)
    lines = lines_of(data)
    draft = Draft(same_bytes)
    for line_number, line in enumerate(lines, 1):
        if line[-1] != NEWLINE:
            return refusal_line(13, line_number)
        if len(line) == 1:
            text = b"".join(lines[line_number:])
            return listing(draft, text, None)
        refusal = draft.add(line[:-1])
        if refusal != 0:
            return refusal_line(refusal, line_number)
    return refusal_line(13, len(lines) + 1)


# ---------------------------------------------------------------------------
# Frames
# ---------------------------------------------------------------------------

PROGRAMS = {"A": airings, "N": notes}


class Frames:
    """Frames with what must be written for them, in order, none twice."""

    def __init__(self):
        self.answers = {}

    def put(self, letter, data, last=None):
        """Takes a frame. `last` is the last line of the answer, where it was
        worked out by hand; the program must agree."""
        if (letter, data) not in self.answers:
            answer = PROGRAMS[letter](data)
            # Entry lines, then one total line or one refusal line.
            lines = lines_of(answer)
            assert all(len(line) == 16 for line in lines[:-1])
            assert len(lines[-1]) in (11, 16)
            self.answers[letter, data] = answer
        if last is not None:
            assert lines_of(self.answers[letter, data])[-1] == last, data[:99]


# --- parts of inputs ----------------------------------------------------------

PART = b"\n"


def events_of(events):
    """A list of (kind, cart), or a text such as "J10 S20"."""
    if isinstance(events, str):
        return [(word[0], int(word[1:])) for word in events.split()]
    return events


def sheet(cues, first=0):
    """The cue lines of a list of cues."""
    return b"".join(cue_line(first + place, kind, cart)
                    for place, cue in enumerate(cues)
                    for kind, cart in events_of(cue))


def log(events, second=100, step=7):
    """The log lines of events."""
    return b"".join(log_line((second + step * place) % 86400, kind, cart)
                    for place, (kind, cart) in enumerate(events_of(events)))


def run(first_cart, length, kind="M"):
    """A list of `length` different events."""
    return [(kind, first_cart + i) for i in range(length)]


def words(*cues):
    """The lines of cues of notes."""
    return b"".join(cue + b"\n" for cue in cues)


EXAMPLE = (b"   0 J     10\n"
           b"   0 S     20\n"
           b"   1 S     20\n"
           b"   2 S     20\n"
           b"   2 J     10\n"
           b"\n"
           b"  100 J     10\n"
           b"  130 S     20\n"
           b"  160 J     10\n"
           b"  190 S     20\n"
           b"  220 M      5\n")
EXAMPLE_ANSWER = (b"      1    0  2\n"
                  b"      1    1  1\n"
                  b"      2    2  2\n"
                  b"      3    0  2\n"
                  b"      3    1  1\n"
                  b"      5       5\n")
NOTES_EXAMPLE = b"she\nHE\n\nAshe\n"
NOTES_ANSWER = (b"      3    0  3\n"
                b"      3    1  2\n"
                b"      5       2\n")


def self_check():
    """The worked examples of the documents."""
    assert airings(EXAMPLE) == EXAMPLE_ANSWER
    assert notes(NOTES_EXAMPLE) == NOTES_ANSWER
    assert notes(b"aaba\n\naaabaabacabc") == (b"      4    0  4\n"
                                              b"      7    0  4\n"
                                              b"     12       2\n")
    assert notes(b"AXT\n@\n\naxt`") == (b"      2    0  3\n"
                                        b"      4       1\n")
    for program in [airings, notes]:
        assert program(b"") == b"13       1\n"
        assert program(b"z" * 32769) == b"15       0\n"


# --- airings by hand ----------------------------------------------------------

# Cue lines that are refused with 13, whatever the line before them is.
BAD_CUE_LINES = [
    b"0000 S     20\n", b"   a S     20\n", b"     S     20\n",
    b"1    S     20\n", b" 1 1 S     20\n", b"  -1 S     20\n",
    b"  +1 S     20\n", b"  01 S     20\n", b"\t  1 S     20\n",
    b"\xff\xff\xff1 S     20\n", b"\x00\x00\x001 S     20\n",
    b"1234567890123\n", b"   1-S     20\n", b"   1\tS     20\n",
    b"   1\x00S     20\n", b"   1 s     20\n", b"   1 X     20\n",
    b"   1       20\n", b"   1 \xd3     20\n", b"   1 \x00     20\n",
    b"   1 S.    20\n", b"   1 S\x00    20\n", b"   1 S\t    20\n",
    b"   1 S       \n", b"   1 S 20    \n", b"   1 S    2 0\n",
    b"   1 S    020\n", b"   1 S 000000\n", b"   1 S     2a\n",
    b"   1 S    2\xb20\n", b"   1 S    -20\n", b"   1 S\t\t\t\t20\n",
    b"   1 S     2\r\n", b"   1 S     20\r\n", b"   1 S     20 \n",
    b"   1 S    20\n", b" \n", b"\r\n", b"\x00\n", b"\xff\n", b"\t\n",
    b"             \n", b"  100 S     20\n", b"86399 S     20\n",
    b"z" * 300 + b"\n", b"\x00" * 269 + b"\n"]

# Log lines that are refused with 13.
BAD_LOG_LINES = [
    b"86400 S     20\n", b"86401 S     20\n", b"87000 S     20\n",
    b"99999 S     20\n", b"00100 S     20\n", b"    a S     20\n",
    b"      S     20\n", b"100   S     20\n", b" 1 00 S     20\n",
    b"   -1 S     20\n", b"   +1 S     20\n", b"   01 S     20\n",
    b"\t\t100 S     20\n", b"\xff\xff100 S     20\n",
    b"\x00\x00100 S     20\n", b"12345678901234\n", b"  100-S     20\n",
    b"  100\tS     20\n", b"  100\x00S     20\n", b"  100 s     20\n",
    b"  100 X     20\n", b"  100       20\n", b"  100 \xd3     20\n",
    b"  100 \x00     20\n", b"  100 S.    20\n", b"  100 S\x00    20\n",
    b"  100 S\t    20\n", b"  100 S       \n", b"  100 S 20    \n",
    b"  100 S    2 0\n", b"  100 S    020\n", b"  100 S 000000\n",
    b"  100 S     2a\n", b"  100 S    2\xb20\n", b"  100 S    -20\n",
    b"  100 S\t\t\t\t20\n", b"  100 S     2\r\n", b"  100 S     20\r\n",
    b"  100 S     20 \n", b"  100 S    20\n", b"\n", b" \n", b"\r\n",
    b"\x00\n", b"\xff\n", b"\t\n", b"              \n", b"   0 S     20\n",
    b"   1 S     20\n", b"z" * 300 + b"\n", b"\x00" * 270 + b"\n"]


def bad_mixes(line, width):
    """The line with every choice of unreadable fields but the empty one."""
    wrong = [b"0" * width, b"_", b"j", b"\t", b"    1 "]
    for choice in range(1, 32):
        fields = [line[:width], b" ", b"J", b" ", line[width + 3:-1]]
        for bit in range(5):
            if choice >> bit & 1:
                fields[bit] = wrong[bit]
        yield b"".join(fields) + b"\n"


def repeats(most, event="J7"):
    """The cues of 1, 2, up to `most` times one event."""
    return [" ".join([event] * length) for length in range(1, most + 1)]


def airings_lines(put):
    one = cue_line(0, "J", 10)
    two = sheet(["J10", "S20"])
    twice = sheet(["J10", "J10"])               # refused with 5 in line 2
    events = log("J10 S20 J10")

    # Nothing, or only parts.
    put(EXAMPLE)
    put(b"", refusal_line(13, 1))
    put(PART, total_line(0, 0))
    put(PART + PART, refusal_line(13, 2))
    put(PART + events, total_line(3, 0))
    put(two + PART, total_line(0, 0))
    put(two, refusal_line(13, 3))
    put(two + PART + PART, refusal_line(13, 4))
    put(two + PART + PART + events, refusal_line(13, 4))
    put(two + PART + events + PART, refusal_line(13, 7))
    put(two + PART + events + PART + events, refusal_line(13, 7))
    put(two + PART + events + PART + PART, refusal_line(13, 7))
    put(events, refusal_line(13, 1))
    put(two + events, refusal_line(13, 3))
    put(PART + two, refusal_line(13, 2))
    put(two + PART + two, refusal_line(13, 4))
    put(two + PART + events + two, refusal_line(13, 7))
    put(PART + two + PART + events, refusal_line(13, 2))

    # Every beginning of an input, and one byte changed or left out.
    small = sheet(["J10 S20", "S20"]) + PART + events
    for data in [EXAMPLE, small]:
        for cut in range(len(data)):
            put(data[:cut])
    for at in range(len(small)):
        put(small[:at] + small[at + 1:])
        for byte in b"\n\x00\xff \t\r09S":
            put(replaced(small, at, byte))
        put(small[:at] + b"\n" + small[at:])

    # Byte 13 in front of byte 10, tabs for blanks.
    put(EXAMPLE.replace(b"\n", b"\r\n"), refusal_line(13, 1))
    put(two + b"\r\n" + events, refusal_line(13, 3))
    put(two + PART + events.replace(b"\n", b"\r\n"), refusal_line(13, 4))
    put(two + PART + events + b"\r\n", refusal_line(13, 7))
    put(two + PART + events + b"\r", refusal_line(13, 7))
    put(EXAMPLE.replace(b" ", b"\t"), refusal_line(13, 1))
    put(two + PART + events.replace(b" ", b"\t"), refusal_line(13, 4))

    # Unreadable cue lines.
    for bad in BAD_CUE_LINES + list(bad_mixes(cue_line(1, "J", 10), 4)):
        put(bad + PART + events, refusal_line(13, 1))
        put(one + bad + PART + events, refusal_line(13, 2))
        put(two + two[14:] + bad + two[14:] + PART, refusal_line(13, 4))
        # The cue in front is refused itself: its refusal is written.
        put(twice + bad + PART + events, refusal_line(5, 2))
        put(one + bad[:-1], refusal_line(13, 2))
        put(twice + bad[:-1], refusal_line(5, 2))

    # Unreadable log lines; what was sighted before them stays.
    for bad in BAD_LOG_LINES + list(bad_mixes(log_line(100, "J", 10), 5)):
        put(PART + bad, refusal_line(13, 2))
        put(two + PART + bad + events, refusal_line(13, 4))
        put(two + PART + events + bad + events, refusal_line(13, 7))
        put(two + PART + events + bad + bad, refusal_line(13, 7))
        if len(bad) > 1:
            put(two + PART + events + bad[:-1], refusal_line(13, 7))

    # The last log line without its byte 10.
    for count in range(1, 6):
        data = sheet(["J10 S20", "S20", "S20 J10"]) + PART
        data += log("J10 S20 J10 S20 M5")[:15 * count]
        put(data[:-1], refusal_line(13, 6 + count))
        for end in [b" ", b"0", b"\r", b"\x00", b"\xff"]:
            put(data + end, refusal_line(13, 7 + count))

    # Seconds: their order does not matter, nor whether they are the same.
    for seconds in [(0, 86399, 0), (86399, 86399, 86399), (5, 4, 3),
                    (86398, 9, 10000), (9999, 10000, 86390)]:
        put(two + PART + b"".join(log_line(second, "J", 10)
                                  for second in seconds), total_line(3, 3))
    put(two + PART + log_line(86399, "S", 20), total_line(1, 1))
    put(two + PART + b"86400 S     20\n", refusal_line(13, 4))


def airings_numbers(put):
    one = cue_line(0, "J", 10)
    events = log("J10 S20 J10")
    three = sheet(["J10", "S20", "M5"])
    for number in [1, 2, 3, 9, 10, 127, 128, 255, 256, 999, 1000, 1234, 9999]:
        line = cue_line(number, "N", 3)
        put(line + PART + events, refusal_line(14, 1))
        put(line, refusal_line(14, 1))
        put(line[:-1], refusal_line(13, 1))
        put(line + b"x\n", refusal_line(14, 1))
        # 13 is looked at before 14.
        put(b"%4d N    03\n" % number + PART, refusal_line(13, 1))
        put(b"%4d n      3\n" % number + PART, refusal_line(13, 1))
        put(one + line + PART + events,
            total_line(3, 2) if number == 1 else refusal_line(14, 2))
        put(one + one + line + PART + events)
        put(three + line + PART + events)
        put(three + line)
        # The cue in front is refused: its refusal is written.
        put(sheet(["J10", "S20", "J10"]) + line + PART + events)
        put(sheet([run(1, 33)]) + line + PART + events, refusal_line(2, 33))
    put(three + cue_line(0, "V", 1) + PART, refusal_line(14, 4))
    put(three + cue_line(1, "V", 1) + PART, refusal_line(14, 4))
    put(three + cue_line(2, "V", 1) + PART, total_line(0, 0))
    put(three + cue_line(0, "V", 1) + b"x\n" + PART, refusal_line(14, 4))
    put(three + b"x\n" + cue_line(0, "V", 1) + PART, refusal_line(13, 4))
    put(sheet(["J10", "J10"]) + one + PART, refusal_line(5, 2))
    put(sheet(["J10", "J10"]), refusal_line(5, 2))
    put(sheet(["J10", "J10"])[:-1], refusal_line(13, 2))
    put(sheet(["J10", "J10"]) + b"   1 S     20", refusal_line(5, 2))
    put(sheet(["J10", "J10"]) + PART + b"x\n", refusal_line(5, 2))
    put(sheet(["J10", "S20"], first=9998) + PART, refusal_line(14, 1))
    # Two cues are refused: the first of them counts.
    put(sheet(["J10", "J10", run(1, 33)]) + PART, refusal_line(5, 2))
    put(sheet([run(1, 33), "J10", "J10"]) + PART, refusal_line(2, 33))
    put(sheet(["J10 S20", "J10 S20", "J10 S20"]) + PART, refusal_line(5, 4))


def airings_cues(put):
    # Same cues, nearly the same cues, cues that are parts of one another.
    for cues in [
            ["J10", "J10"], ["J10 S20", "J10 S20"], ["J10", "S20", "S20"],
            ["J10 S20 M5", "S20", "J10 S20 M5"], ["J10 J10", "J10 J10"],
            ["J10 J10", "J10"], ["J10", "J10 J10", "J10 J10 J10"],
            ["J10", "S10", "M10", "N10", "V10"],
            ["J10", "S10", "M10", "N10", "V10", "M10"],
            ["J10", "J11", "J110", "J1", "J0"], ["J0", "S0", "J0"],
            ["J999999", "S999999", "J999999"],
            ["J999999", "J99999", "J999990"],
            ["J10 S20", "S20 J10"], ["J10 S20", "S10 J20"],
            ["J10 S20 M5", "J10 S20", "S20 M5", "J10", "S20", "M5"],
            ["M5", "S20", "J10", "S20 M5", "J10 S20", "J10 S20 M5"],
            ["J10 S20 M5", "J10 S20 M6"], ["J10 S20 M5", "J11 S20 M5"],
            ["J10 S20 M5", "J10 S20 N5"], ["J10 S20 M5", "V10 S20 M5"],
            ["J10 S20", "S20", "S20 J10", "S20 J10"],
            ["J65536", "J0"], ["J65546", "J10"], ["J256", "J0"],
            ["S20 J10 S20", "S20 J10", "J10 S20", "S20"],
            ["J10 J10 S20 J10"], ["J10 S20 J10 S20", "S20 J10 S20 M5"],
            ["J10 S20 M5 V1", "S20 M5 V2", "M5 V3", "V1", "V2", "V3"],
            ["J10 J10 J10 J10 S20", "J10 J10 J10", "J10 S20", "J10"]]:
        pieces = [event for cue in cues for event in events_of(cue)]
        others = events_of("J10 J10 J10 S20 J10 J10 S20 J10 S20 M5 V3 M6 V1")
        for events in [pieces, others, pieces[::-1] + pieces]:
            put(sheet(cues) + PART + log(events))
        put(sheet(cues))
        put(sheet(cues) + b"?\n" + PART)
        put(sheet(cues) + cue_line(9998, "N", 3) + PART)
    # A cue of which the log has only the end, or which is cut in two.
    for events in ["J10 S20", "S20 M5", "M5", "S20", "J10 S20 N1 M5",
                   "J10 J10 S20 M5", "J10 S20 J10 S20 M5 M5"]:
        put(sheet(["J10 S20 M5", "N7 J10 S20 M5"]) + PART + log(events))
    # Kinds and the greatest cart.
    edges = [(kind, cart) for kind in "SJMNV" for cart in (0, 999999)]
    put(sheet([[event] for event in edges] + [edges]) + PART + log(edges * 2),
        total_line(20, 22))


def airings_limits(put):
    # 32 and 33 events of a cue.
    for length in [31, 32, 33, 34, 64, 256, 288]:
        cue = run(1, length)
        last = total_line(length + 2, 2)
        if length > 32:
            last = refusal_line(2, length)
        put(sheet([cue, "S20"]) + PART + log("J1") + log(cue) + log("S20"),
            last)
        put(sheet([[("M", 7)] * length]) + PART + log([("M", 7)] * 70))
        put(sheet([cue]))
        put(sheet([cue]) + b"bad\n" + PART)
        put(sheet([cue]) + cue_line(2, "J", 1) + PART)
        put(sheet([cue]) + cue_line(0, "J", 1)[:-1])
        put(sheet(["J10", cue, "J10"]) + PART)
        put(sheet(["J10", "S20 J10", cue]) + PART + log(cue + cue))
    put(sheet([run(1, 32), run(1, 32)]) + PART, refusal_line(5, 64))
    put(sheet([run(1, 32), run(1, 33)]) + PART, refusal_line(2, 65))
    put(sheet([run(1, 32), run(1, 31), run(2, 31), run(2, 32)]) + PART
        + log(run(0, 40)), total_line(40, 4))

    # 128 and 129 cues.
    singles = [[("S", 1000 + i)] for i in range(128)]
    all_singles = log([cue[0] for cue in singles])
    put(sheet(singles[:127]) + PART + all_singles, total_line(128, 127))
    put(sheet(singles) + PART + all_singles, total_line(128, 128))
    put(sheet(singles), refusal_line(13, 129))
    put(sheet(singles) + cue_line(129, "V", 1) + PART, refusal_line(14, 129))
    put(sheet(singles) + cue_line(127, "V", 1) + PART, total_line(0, 0))
    put(sheet(singles + ["V1"]) + PART + all_singles, refusal_line(4, 129))
    put(sheet(singles + ["V1"]), refusal_line(4, 129))
    put(sheet(singles + ["V1"])[:-1], refusal_line(13, 129))
    put(sheet(singles + ["V1 V2 V3", "V4"]) + PART, refusal_line(4, 131))
    put(sheet(singles + ["V1"]) + b"bad\n" + PART, refusal_line(4, 129))
    put(sheet(singles + ["V1"]) + cue_line(130, "V", 2), refusal_line(4, 129))
    put(sheet(singles + ["S1000"]) + PART, refusal_line(4, 129))
    put(sheet(singles + [run(1, 33)]) + PART, refusal_line(2, 161))
    put(sheet(singles[:127] + ["S1000"]) + PART, refusal_line(5, 128))
    put(sheet(singles[:127] + ["S1126"]) + PART, refusal_line(5, 128))

    # 1,024 and 1,025 events of all cues together.
    full = [run(100 * i, 32) for i in range(32)]
    together = [event for cue in full for event in cue]
    put(sheet(full) + PART + log(together), total_line(1024, 32))
    put(sheet(full + ["V1"]) + PART, refusal_line(4, 1025))
    put(sheet(full + ["V1"]) + b"bad\n" + PART, refusal_line(4, 1025))
    put(sheet(full + [run(0, 33)]) + PART, refusal_line(2, 1057))
    put(sheet(full + [run(0, 32)]) + PART, refusal_line(4, 1056))
    nearly = full[:31] + [run(5000, 31)]
    put(sheet(nearly + ["V1"]) + PART + log("V1 V1"), total_line(2, 2))
    put(sheet(nearly + ["V1 V2"]) + PART, refusal_line(4, 1025))
    put(sheet(nearly + [run(5000, 31)]) + PART, refusal_line(4, 1054))
    eights = [run(100 * i, 8) for i in range(128)]
    put(sheet(eights) + PART + log(run(12700, 8)), total_line(8, 1))
    put(sheet(eights[:127] + [run(90000, 9)]) + PART, refusal_line(4, 1025))

    # Size of the input: 8 cue lines and 2,177 log lines are 32,768 bytes.
    day = events_of("J10 S20 M5 M6 M7 N3 V1")
    for cues, log_lines in [(["M7", "M6"] + ["J10 S20 M5 M6 M7 N3 V1"], 2176),
                            (["J10 S20", "S20", "V1 J10 S20", "V1", "J10"],
                             2177),
                            (["J10 J10 J10", "S20 S20 S20 S20"], 2178)]:
        data = sheet(cues) + PART + log((day * 400)[:log_lines], 0, 39)
        put(data, refusal_line(15, 0) if log_lines > 2177 else None)
        put(data[:-1], refusal_line(13, 2186))
        assert len(data) == 32768 + log_lines - 2177
    data = sheet(["J10 J10 J10 J10", "S20 S20 S20 M5"]) + PART
    data += log((day * 400)[:2177], 0, 39)
    assert len(data) == 32768
    put(data, total_line(2177, 0))
    put(data + b"\n", refusal_line(15, 0))
    put(data[:-15] + b"x" * 15, refusal_line(13, 2186))
    for size, last in [(32768, None), (32769, refusal_line(15, 0))]:
        put(b"z" * size, last or refusal_line(13, 1))
        put(b"\n" * size, last or refusal_line(13, 2))
        put(EXAMPLE + b"z" * (size - len(EXAMPLE)),
            last or refusal_line(13, 12))
    put(b"bad\n" + b"z" * 70000, refusal_line(15, 0))
    long_cue = b"".join(cue_line(0, "M", i) for i in range(2340))
    put(long_cue + b"   0 M  ", refusal_line(2, 2340))
    put(long_cue + b"   0 M   ", refusal_line(15, 0))
    put(cue_line(0, "J", 10) + long_cue.replace(b"   0 ", b"   1 ")[:2100 * 14]
        + PART, refusal_line(2, 2101))


def airings_runs(put):
    # Up to 32 sightings at one event; long lists of entries.
    lone = events_of("J7")
    for most, count in [(1, 31), (1, 32), (1, 33), (1, 224), (1, 225),
                        (1, 256), (1, 480), (1, 481), (1, 512), (1, 513),
                        (1, 1000), (2, 300), (3, 171), (5, 110), (31, 40),
                        (32, 15), (32, 16), (32, 17), (32, 31), (32, 32),
                        (32, 33), (32, 48), (32, 200)]:
        found = sum(min(place, most) for place in range(1, count + 1))
        put(sheet(repeats(most)) + PART + log(lone * count),
            total_line(count, found))
    repeated = repeats(32)
    broken = (lone * 40 + events_of("M5")) * 3 + lone * 70
    put(sheet(repeated[::-1]) + PART + log(broken))
    put(sheet(repeated[1::2] + repeated[::2]) + PART + log(broken))
    # A refusal behind many entries.
    for bad in [b"\n", b"86400 J      7\n", b"  100 J      7", b"x"]:
        put(sheet(repeated) + PART + log(lone * 50) + bad + log(lone),
            refusal_line(13, 528 + 1 + 51))
        put(sheet(["J7"]) + PART + log(lone * 600) + bad + log(lone),
            refusal_line(13, 602 + 1))
    # Runs that overlap one another.
    for cue in ["J7 J7 S8 J7", "J7 S8 J7", "J7 S8 J7 S8", "J7 J7", "S8 S8 S8"]:
        for events in ["J7 J7 S8 J7 J7 S8 J7 J7 S8 J7", "S8 S8 S8 S8 S8 S8",
                       "J7 S8 J7 S8 J7 S8 J7 S8 J7", "J7 J7 J7 S8 J7 J7 J7"]:
            put(sheet([cue]) + PART + log(events))
            put(sheet([cue, "J7", "S8 J7"]) + PART + log(events))


def airings_by_hand(frames):
    def put(data, last=None):
        frames.put("A", data, last)
    for part in [airings_lines, airings_numbers, airings_cues, airings_limits,
                 airings_runs]:
        part(put)


# --- notes by hand ------------------------------------------------------------

def notes_lines(put):
    put(NOTES_EXAMPLE)
    put(b"", refusal_line(13, 1))
    put(b"\n", total_line(0, 0))
    put(b"\n\n", total_line(1, 0))
    put(b"\n\n\n", total_line(2, 0))
    put(b"\nshe\n", total_line(4, 0))
    put(b"she\n\n", total_line(0, 0))
    put(b"she\n\n\n", total_line(1, 0))
    put(b"she\n", refusal_line(13, 2))
    put(b"she", refusal_line(13, 1))
    put(b"she\nhe", refusal_line(13, 2))
    put(b"she\nhe\n", refusal_line(13, 3))
    put(b"she\nshe", refusal_line(13, 2))
    put(b"she\nshe\n", refusal_line(5, 2))
    put(b"she\nSHE\nhe", refusal_line(5, 2))
    put(b"she\nshe\n\nshe\n", refusal_line(5, 2))
    put(b"she\nhe\nsHe\n\nshe\n", refusal_line(5, 3))
    for cut in range(len(NOTES_EXAMPLE)):
        put(NOTES_EXAMPLE[:cut])
    for at in range(len(NOTES_EXAMPLE) + 1):
        for byte in b"\n\x00\xff \r\thHeESs@`":
            put(replaced(NOTES_EXAMPLE, at, byte))
            put(NOTES_EXAMPLE[:at] + bytes([byte]) + NOTES_EXAMPLE[at:])
    # Byte 10 is part of the text and parts what stands on its two sides.
    for text in [b"sh\ne", b"s\nhe\n", b"she\nshe", b"\n\nshe\n\n", b"she\n\n",
                 b"\n" * 40, b"she" * 5, b"shshehe", b"hehehe\nhe", b"he\n\n"
                 b"she\n\nhe\n", b"she\r\nhe\r\n", b"\x00she\xff", b"e", b"h"]:
        put(b"she\nhe\n\n" + text)
        put(b"\n" + text, total_line(len(text), 0))
    # Byte 13 and blanks are bytes like others, also in cues.
    put(b"she\r\nhe\r\n\r\nAshe\r\n", refusal_line(13, 5))
    put(b"she\r\nhe\r\n\r\nshe\r\n", refusal_line(5, 4))
    put(b"she\r\nhe\r\n\r\n\nshe\r\n", total_line(5, 3))
    put(b"\r\n\nshe\r\nhe\r\n", total_line(9, 2))
    put(b" \n  \n\na b  c   d\n", total_line(11, 9))
    put(b"\t\nb\t\n\na\tb\tc\n", total_line(6, 3))
    put(b"she \n she\nshe\n\nshe she she\n", total_line(12, 7))
    put(b"   0 J     10\n\n   0 J     10\n", total_line(14, 1))
    put(EXAMPLE)
    # Bytes 0 and 255 anywhere.
    put(b"\x00\n\n\x00\x00\n", total_line(3, 2))
    put(b"\x00\x00\n\x00\n\xff\n\n\x00\x00\xff\x00", total_line(4, 5))
    put(b"a\x00b\na\n\na\x00b", total_line(3, 2))
    put(b"\xff\xfe\n\xfe\xff\n\n\xff\xfe\xff", total_line(3, 2))
    put(b"\xc3\xa9\n\xc3\x89\n\n\xc3\xa9 \xc3\x89", total_line(5, 2))


def notes_bytes(put):
    every = bytes(range(256))
    for byte in range(256):
        if byte == NEWLINE:
            continue
        cue = bytes([byte])
        # Which bytes of the text are the same as this one.
        found = 2 if chr(byte).isalpha() and byte < 128 else 1
        put(cue + b"\n\n" + every, total_line(256, found))
        # Which single bytes are the same cue.
        for other in [byte ^ 32, byte ^ 128, byte ^ 160, byte ^ 1,
                      (byte + 32) % 256, (byte + 31) % 256, (byte + 33) % 256]:
            if other != NEWLINE:
                put(cue + b"\n" + bytes([other]) + b"\n\n" + cue)
    for start in [0, 11, 91, 123, 128]:
        most = 80 if start < 91 else 32 if start == 91 else 128
        some = bytes(byte for byte in every[start:start + most]
                     if byte != NEWLINE and not 97 <= byte <= 122)
        put(words(*[bytes([byte]) for byte in some]) + b"\n" + every)
    # Longer cues, in capital and small letters.
    for cue in [b"Hello", b"hELLO", b"[az]", b"{AZ}", b"@az`", b"`AZ@"]:
        for text in [b"hello HELLO Hello hELLO", b"[AZ] {az} {AZ} [az] [az}",
                     b"@az` `az@ @AZ` `AZ` @AZ@", b"{az] hell\no"]:
            put(cue + b"\n\n" + text)
    put(b"Ab\naB\n\nab\n", refusal_line(5, 2))
    put(b"[b\n{b\n\n[b\n", total_line(3, 1))
    put(b"@b\n`b\n\n@B`B", total_line(4, 2))


def notes_cues(put):
    for cues in [[b"a", b"aa", b"aaa"], [b"aaa", b"aa", b"a"], [b"aaba"],
                 [b"ab", b"ba", b"a", b"b"], [b"abab", b"bab", b"ab"],
                 [b"abcd", b"bc", b"c", b"d"], [b"aaaab", b"aaab", b"aab"],
                 [b"abcabba"], [b"she", b"he", b"hers", b"his"],
                 [b"aab", b"ab", b"b", b"bb", b"ba", b"aba"]]:
        for text in [b"aaabaabacabc", b"aAaAaA", b"abababab\nab", b"abcd bc",
                     b"ABCABBABCABBA", b"ushers his hers", b"aaaabaaab",
                     b"bbbb", b"", b"x", b"\n"]:
            put(words(*cues) + b"\n" + text)
        put(words(*cues, cues[0].upper()) + b"\n" + cues[0],
            refusal_line(5, len(cues) + 1))


def notes_limits(put):
    # 32 and 33 bytes of a line.
    for length in [31, 32, 33, 34, 64, 256, 288, 2049]:
        cue = (b"the quick brown fox jumps over the lazy dog " * 50)[:length]
        over = length > 32
        put(words(cue, b"fox") + b"\n" + cue.upper(),
            refusal_line(2, 1) if over else total_line(length, 2))
        put(cue, refusal_line(13, 1))
        put(words(b"fox", cue) + b"fox",
            refusal_line(2, 2) if over else refusal_line(13, 3))
        put(words(b"fox", cue) + b"fox\n\nfox",
            refusal_line(2, 2) if over else refusal_line(5, 3))
        put(words(b"fox") + cue, refusal_line(13, 2))
        put(b"a" * length + b"\n\n" + b"A" * 70)
    put(b"z" * 9000 + b"\n\nz", refusal_line(2, 1))
    put(words(b"a" * 32, b"A" * 32) + b"\n", refusal_line(5, 2))
    put(words(b"a" * 32, b"A" * 33) + b"\n", refusal_line(2, 2))

    # 128 and 129 lines.
    pairs = [bytes([x, y]) for x in b"abcdefghijklm" for y in b"0123456789"]
    text = b"".join(pairs[:129])
    put(words(*pairs[:127]) + b"\n" + text, total_line(258, 127))
    put(words(*pairs[:128]) + b"\n" + text, total_line(258, 128))
    put(words(*pairs[:128]), refusal_line(13, 129))
    put(words(*pairs[:129]) + b"\n" + text, refusal_line(4, 129))
    put(words(*pairs[:129]), refusal_line(4, 129))
    put(words(*pairs[:129])[:-1], refusal_line(13, 129))
    put(words(*pairs[:129]) + b"z", refusal_line(4, 129))
    put(words(*pairs[:128], b"A0") + b"\n", refusal_line(4, 129))
    put(words(*pairs[:128], b"z" * 33) + b"\n", refusal_line(2, 129))
    put(words(*pairs[:127], b"A0") + b"\n", refusal_line(5, 128))
    put(words(*pairs[:127], b"z" * 33) + b"\n", refusal_line(2, 128))

    # 1,024 and 1,025 bytes of all lines together.
    full = [bytes([97 + i % 26]) * 31 + bytes([48 + i]) for i in range(32)]
    text = b" ".join(full)
    put(words(*full) + b"\n" + text, total_line(len(text), 32))
    put(words(*full, b"!") + b"\n" + text, refusal_line(4, 33))
    put(words(*full, full[0]) + b"\n" + text, refusal_line(4, 33))
    put(words(*full, b"z" * 33) + b"\n" + text, refusal_line(2, 33))
    nearly = full[:31] + [b"z" * 31]
    put(words(*nearly, b"!") + b"\n" + text + b"!", total_line(1056, 33))
    put(words(*nearly, b"!!") + b"\n" + text, refusal_line(4, 33))
    put(words(*nearly, b"Z" * 31) + b"\n" + text, refusal_line(4, 33))
    eights = [b"%08d" % (7 * i) for i in range(128)]
    put(words(*eights) + b"\n" + b"".join(eights))
    put(words(*eights[:127], b"%09d" % 1) + b"\n", refusal_line(4, 128))

    # Size of the input.
    front = words(b"dog", b"the quick", b"E", b"y dog t") + b"\n"
    text = front + b"It is the quick dog.\n" * 1600
    for size, last in [(32767, None), (32768, None),
                       (32769, refusal_line(15, 0))]:
        put(text[:size], last)
        put(b"\n" + b"\x00\xff" * (size // 2 - 1) + b"\n" * (1 + size % 2),
            last or total_line(size - 1, 0))
    for size, last in [(32768, None), (32769, refusal_line(15, 0))]:
        put(b"z" * size, last or refusal_line(13, 1))
        put(b"\n" * size, last or total_line(size - 1, 0))
        put(b"z\nZ\n" + b"z" * (size - 4), last or refusal_line(5, 2))
    put(b"\n" + b"z" * 70000, refusal_line(15, 0))


def notes_runs(put):
    repeated = [b"a" * length for length in range(1, 33)]
    for most, count in [(1, 31), (1, 32), (1, 33), (1, 223), (1, 224),
                        (1, 225), (1, 255), (1, 256), (1, 257), (1, 479),
                        (1, 480), (1, 481), (1, 511), (1, 512), (1, 513),
                        (1, 1024), (1, 1025), (2, 241), (3, 161), (7, 75),
                        (31, 33), (32, 7), (32, 8), (32, 15), (32, 16),
                        (32, 17), (32, 31), (32, 32), (32, 33), (32, 200)]:
        found = sum(min(place, most) for place in range(1, count + 1))
        put(words(*repeated[:most]) + b"\n" + b"aA" * (count // 2)
            + b"a" * (count % 2), total_line(count, found))
    broken = (b"A" * 40 + b"\n") * 3 + b"a" * 70
    put(words(*repeated[::-1]) + b"\n" + broken)
    put(words(*repeated[1::2], *repeated[::2]) + b"\n" + broken)
    put(words(*repeated) + b"\n" + b"b".join(repeated))


def notes_by_hand(frames):
    def put(data, last=None):
        frames.put("N", data, last)
    for part in [notes_lines, notes_bytes, notes_cues, notes_limits,
                 notes_runs]:
        part(put)


# --- random inputs ------------------------------------------------------------

def random_lists(dice, choices, most_cues, most_length, most_text, cared):
    """Cues and a text over few events; the text holds cues and parts of
    them. Where `cared`, no two cues are equal."""
    cues = []
    for _ in range(dice.between(0, most_cues)):
        cue = [dice.pick(choices)
               for _ in range(dice.between(1, most_length))]
        if cues and dice.below(3) == 0:         # a part of an earlier cue
            old = dice.pick(cues)
            cue = old[dice.below(len(old)):] + cue[:dice.between(0, 1)]
        if not cared or cue not in cues:
            cues.append(cue)
    text = []
    most_text = dice.between(0, most_text)
    while len(text) < most_text:
        if cues and dice.below(2) == 0:
            cue = dice.pick(cues)
            text += cue[:dice.between(1, len(cue))]
        else:
            text.append(dice.pick(choices))
    return cues, text


def random_airings(dice, most_cues=6, most_length=5, most_text=30):
    carts = dice.pick([[7], [7, 8], [0, 65536], [5, 20, 310, 999999]])
    kinds = dice.pick(["JS", "JSM", "SJMNV"])
    choices = [(kind, cart) for kind in kinds for cart in carts]
    cues, text = random_lists(dice, choices, most_cues, most_length, most_text,
                              dice.below(4) != 0)
    data = sheet(cues)
    if dice.below(12) == 0:
        return data
    return data + PART + log(text, dice.below(86400), dice.below(90))


def random_notes(dice, most_cues=6, most_length=5, most_text=50):
    letters = dice.pick([b"a", b"ab", b"aAbB", b"@A`a", b"Zz[{", b"\x00\xffa",
                         b"abc ", b"\r a", b"\xc1\xe1Aa"])
    cues, text = random_lists(dice, list(letters), most_cues, most_length,
                              most_text, dice.below(4) != 0)
    text = [byte if dice.below(12) else NEWLINE for byte in text]
    text = [byte ^ 32 if chr(byte).isascii() and chr(byte).isalpha()
            and dice.below(4) == 0 else byte for byte in text]
    data = words(*[bytes(cue) for cue in cues])
    if dice.below(12) == 0:
        return data
    return data + PART + bytes(text)


def random_frames(frames, dice):
    for letter, make in [("A", random_airings), ("N", random_notes)]:
        for count in range(700):
            data = make(dice)
            frames.put(letter, data)
            if count < 500:
                for _ in range(dice.between(1, 3)):
                    data = mutated_sheet(dice, data, empty_lines=True)
                frames.put(letter, data)
        for _ in range(25):
            data = make(dice, 60, 12, 500)
            frames.put(letter, data)
            frames.put(letter, mutated_sheet(dice, data, empty_lines=True))


def all_frames():
    frames = Frames()
    airings_by_hand(frames)
    notes_by_hand(frames)
    random_frames(frames, Dice(2077))
    return frames.answers


# ---------------------------------------------------------------------------
# Wrong versions
# ---------------------------------------------------------------------------

# A wrong version is a change of the text above, or of the text of sheets.py:
# what it does wrong, the old text, the new text.

FOLLOW = """    for place in range(len(text)):
        found = draft.ending(text, place)
"""
FOLLOW_LIVE = """    live = 0
    for place in range(len(text)):
        longer = any(same_lists(draft.same, text[place - live:place + 1],
                                cue[:live + 1]) for cue in draft.cues)
        begins = any(draft.same(cue[0], text[place]) for cue in draft.cues)
        live = live + 1 if longer else %s
        found = [pair for pair in draft.ending(text, place)
                 if pair[1] <= live]
"""
FOUND = "for number, length in found]"
ADD_ALL = "for last_line, events in cues:"
READ_CUE = "answer = read_line_before_log(line)\n"
READ_LOG = "answer = read_log_line(line)\n"
TEXT = "text = b\"\".join(lines[line_number:])"
NOTES_CUE = "draft.add(line[:-1])"
SAME_EVENTS = "does not count.\"\"\"\n    return x == y"
SAME_BYTES = "        return True\n    return x == y"

WRONG_PROGRAMS = [
    # What is listed, and in which order.
    ("place counted from 1", "(place, number,", "(place + 1, number,"),
    ("place of the first event", "(place, number,",
     "(place + 1 - length, number,"),
    ("cue counted from 1", "(place, number,", "(place, number + 1,"),
    ("length one too great", "number, length) for", "number, length + 1) for"),
    ("shortest first", "-pair[1]", "pair[1]"),
    ("lowest cue first", "-pair[1]", "pair[0]"),
    ("highest cue first", "-pair[1]", "-pair[0]"),
    ("only the longest", FOLLOW, FOLLOW.rstrip() + "[:1]\n"),
    ("only the shortest", FOLLOW, FOLLOW.rstrip() + "[-1:]\n"),
    ("31 sightings at most", FOLLOW, FOLLOW.rstrip() + "[:31]\n"),
    ("512 entries at most", "for entry in entries)", "for entry in "
     "entries[:512])"),
    ("text emptied after a sighting", FOUND, FOUND[:-1]
     + " if not entries or place - length >= entries[-1][0]]"),
    ("no run overlaps a run of its cue", FOUND, FOUND[:-1] + " if not any("
     "e[1] == number and e[0] > place - length for e in entries)]"),
    ("no link: empty after a mismatch", FOLLOW, FOLLOW_LIVE % "0"),
    ("no link: the last event only", FOLLOW, FOLLOW_LIVE % "int(begins)"),
    ("entries dropped before a late refusal",
     "return written + refusal_line(*stop)", "return refusal_line(*stop)"),
    ("total line behind a refusal line", "refusal_line(*stop)\n    return "
     "written", "refusal_line(*stop) + total_line(0, 0)\n    return written"),
    ("total counts places", "len(entries))", "len({e[0] for e in entries}))"),
    ("total counts cues", "len(entries))", "len({e[1] for e in entries}))"),
    ("totals in the other order", "total_line(len(text), len(entries))",
     "total_line(len(entries), len(text))"),
    # Refusals of add.
    ("cues of 31 events", "MOST_LENGTH = 32", "MOST_LENGTH = 31"),
    ("cues of 33 events", "MOST_LENGTH = 32", "MOST_LENGTH = 33"),
    ("127 cues", "MOST_CUES = 128", "MOST_CUES = 127"),
    ("129 cues", "MOST_CUES = 128", "MOST_CUES = 129"),
    ("1,023 events", "MOST_EVENTS = 1024", "MOST_EVENTS = 1023"),
    ("1,025 events", "MOST_EVENTS = 1024", "MOST_EVENTS = 1025"),
    ("4 before 2", "if len(cue) > MOST_LENGTH:", "if len(cue) > MOST_LENGTH "
     "and len(self.cues) < 128 and sum(map(len, self.cues)) < 992:"),
    ("5 before 4", "if len(self.cues) >= MOST_CUES or", "if cue not in "
     "self.cues and len(self.cues) >= MOST_CUES or cue not in self.cues and"),
    ("any number of cues", "len(self.cues) >= MOST_CUES or", ""),
    ("same cues accepted", "return 5", "pass"),
    ("compared with the cue before only", "for old in self.cues:",
     "for old in self.cues[-1:]:"),
    ("compared with the first cue only", "for old in self.cues:",
     "for old in self.cues[:1]:"),
    ("compared up to the shorter length", "len(xs) == len(ys) and ", ""),
    # Sameness.
    ("kinds only", SAME_EVENTS, SAME_EVENTS.replace("x == y", "x[0] == y[0]")),
    ("carts only", SAME_EVENTS, SAME_EVENTS.replace("x == y", "x[1] == y[1]")),
    ("carts in 16 bits", SAME_EVENTS, SAME_EVENTS.replace(
        "x == y", "x[0] == y[0] and (x[1] - y[1]) % 65536 == 0")),
    ("no folding", "65 <=", "99 <="),
    ("64 folded", "65 <=", "64 <="),
    ("65 not folded", "65 <=", "66 <="),
    ("90 not folded", "<= 90", "<= 89"),
    ("91 folded", "<= 90", "<= 91"),
    ("folded one way", "65 <= x", "99 <= x"),
    ("folded the other way", "65 <= y", "99 <= y"),
    ("letters above 192 folded", SAME_BYTES, SAME_BYTES
     + " or min(x, y) >= 192 and x | 32 == y | 32"),
    ("7 bits", SAME_BYTES, SAME_BYTES + " or x % 128 == y % 128"),
    # Size.
    ("32,767 bytes", "MOST_INPUT = 32768", "MOST_INPUT = 32767"),
    ("32,769 bytes", "MOST_INPUT = 32768", "MOST_INPUT = 32769"),
    ("15 at line 1", "refusal_line(15, 0)", "refusal_line(15, 1)"),
    # Lines of airings.
    ("13 in cue lines one line early", "(13, line_number)\n        if answer",
     "(13, line_number - 1)\n        if answer"),
    ("14 one line late", "(14, line_number)", "(14, line_number + 1)"),
    ("missing parting line at the last line", "cues, (13, len(lines) + 1)",
     "cues, (13, len(lines))"),
    ("cue refused at the next line", "refusal, last_line)",
     "refusal, last_line + 1)"),
    ("cue refused at its first line", "refusal, last_line)",
     "refusal, last_line + 1 - len(events))"),
    ("cue before a 13 not added", ADD_ALL, ADD_ALL[:-1]
     + "[:-1] if stop and stop[0] == 13 and stop[1] <= len(lines) else cues:"),
    ("cue before a 14 not added", ADD_ALL, ADD_ALL[:-1]
     + "[:-1] if stop and stop[0] == 14 else cues:"),
    ("cue before a missing parting line not added", ADD_ALL, ADD_ALL[:-1]
     + "[:-1] if stop and stop[1] > len(lines) else cues:"),
    ("cue before the parting line not added", ADD_ALL, ADD_ALL[:-1]
     + "[:-1] if stop is None else cues:"),
    ("14 before 13", READ_CUE, READ_CUE + "        if len(line) == 14 and not "
     "line[:4] in [b'%4d' % 0] + [b'%4d' % i for i in (last or 0, (last or 0) "
     "+ 1)] and line[:4].strip().isdigit():\n"
     "            return cues, (14, line_number)\n"),
    ("first number 0 or 1", "[0] if last", "[0, 1] if last"),
    ("first number 1", "[0] if last", "[1] if last"),
    ("numbers with gaps", "[last, last + 1]", "range(last, 10000)"),
    ("numbers going back", "[last, last + 1]", "range(last + 2)"),
    ("each line a cue", "if number == last:", "if False:"),
    ("log lines counted from 1", "lines[parting:], parting + 1)",
     "lines[parting:], 1)"),
    ("parting line not counted", "lines[parting:], parting + 1)",
     "lines[parting:], parting)"),
    ("13 in the log one line late", "lines[parting:], parting + 1)",
     "lines[parting:], parting + 2)"),
    ("event before a bad log line dropped", "listing(draft, text, (13",
     "listing(draft, text[:-1], (13"),
    ("bad log lines skipped", "return listing(draft, text, (13, line_number))",
     "continue"),
    ("empty line ends the log", READ_LOG, READ_LOG
     + "        if line == b'\\n':\n            break\n"),
    ("empty line in the log skipped", READ_LOG, READ_LOG
     + "        if line == b'\\n':\n            continue\n"),
    ("last empty line parts", "parting = lines.index(b\"\\n\") + 1",
     "parting = len(lines) - lines[::-1].index(b\"\\n\")"),
    ("log without events refused", "None)\n\n\ndef notes",
     "None if text else (13, len(lines) + 1))\n\n\ndef notes"),
    ("seconds must not fall", READ_LOG, READ_LOG
     + "        if line[:5] < lines[line_number - 2][:5]:\n"
     + "            return listing(draft, text, (13, line_number))\n"),
    ("last cue line without byte 10", READ_CUE, READ_CUE.replace(
        "(line)", "(line.rstrip(b'\\n') + b'\\n')")),
    ("last log line without byte 10", READ_LOG, READ_LOG.replace(
        "(line)", "(line.rstrip(b'\\n') + b'\\n')")),
    ("byte 13 cut from cue lines", READ_CUE, READ_CUE.replace(
        "(line)", "(line.replace(b'\\r\\n', b'\\n'))")),
    ("byte 13 cut from log lines", READ_LOG, READ_LOG.replace(
        "(line)", "(line.replace(b'\\r\\n', b'\\n'))")),
    ("tabs in cue lines", READ_CUE, READ_CUE.replace(
        "(line)", "(line.replace(b'\\t', b' '))")),
    ("tabs in log lines", READ_LOG, READ_LOG.replace(
        "(line)", "(line.replace(b'\\t', b' '))")),
    # Lines of notes.
    ("byte 10 not part of the text", TEXT, TEXT + ".replace(b'\\n', b'')"),
    ("last byte 10 not part of the text", TEXT, TEXT
     + ".removesuffix(b'\\n')"),
    ("parting line part of the text", TEXT, TEXT.replace(
        "line_number:", "line_number - 1:")),
    ("text ends at an empty line", TEXT, TEXT + ".split(b'\\n\\n')[0]"),
    ("text ends at byte 0", TEXT, TEXT + ".split(b'\\0')[0]"),
    ("byte 13 not part of the text", TEXT, TEXT + ".replace(b'\\r', b'')"),
    ("byte 13 cut from cues", NOTES_CUE,
     "draft.add(line[:-1].rstrip(b'\\r') or b'\\r')"),
    ("blanks cut from cues", NOTES_CUE,
     "draft.add(line[:-1].strip(b' ') or b' ')"),
    ("byte 10 part of cues", NOTES_CUE, "draft.add(line)"),
    ("cues end at byte 0", NOTES_CUE,
     "draft.add(line[:-1].split(b'\\0')[0] or b'\\0')"),
    ("byte 13 alone parts", "if len(line) == 1:",
     "if line in (b'\\n', b'\\r\\n'):"),
    ("blanks alone part", "if len(line) == 1:",
     "if line.strip(b' ') == b'\\n':"),
    ("last line without byte 10 taken", "if line[-1] != NEWLINE:\n            "
     "return refusal_line(13, line_number)", "if line[-1] != NEWLINE:\n"
     "            line += b'\\n'"),
    ("last line without byte 10 one line late", "return refusal_line(13, line_"
     "number)", "return refusal_line(13, line_number + 1)"),
    ("notes: missing parting line at the last line",
     "return refusal_line(13, len(lines) + 1)",
     "return refusal_line(13, len(lines))"),
    ("notes: cue refused at the next line", "(refusal, line_number)",
     "(refusal, line_number + 1)"),
    ("notes: bytes above 127 refused", "if line[-1] != NEWLINE:",
     "if line[-1] != NEWLINE or max(line) > 127:"),
]

WRONG_LINES = [
    ("second 86,400", "MOST_SECOND = 86399", "MOST_SECOND = 86400"),
    ("second 86,398", "MOST_SECOND = 86399", "MOST_SECOND = 86398"),
    ("any second", "read_fields(columns, 5, MOST_SECOND)",
     "read_fields(columns, 5, None)"),
    ("small kinds", "b\"SJMNV\"", "b\"SJMNVsjmnv\""),
    ("no kind V", "b\"SJMNV\"", "b\"SJMN\""),
    ("zeros in front", "len(digits) > 1:", "False:"),
    ("0 unreadable", "and len(digits) > 1:", ":"),
    ("empty number field is 0", "len(digits) == 0:\n        return None",
     "len(digits) == 0:\n        return 0"),
    ("first blank of cue lines free", "if columns[at] != BLANK:",
     "if at == 5 and columns[at] != BLANK:"),
    ("first blank of log lines free", "if columns[at] != BLANK:",
     "if at == 4 and columns[at] != BLANK:"),
    ("second blank of cue lines free", "if columns[at + 2] != BLANK:",
     "if at == 5 and columns[at + 2] != BLANK:"),
    ("second blank of log lines free", "if columns[at + 2] != BLANK:",
     "if at == 4 and columns[at + 2] != BLANK:"),
    ("cart 999,999 unreadable", "if cart is None:",
     "if cart is None or cart == 999999:"),
    ("longer cue lines", "if len(columns) != 13:", "if len(columns) < 13:"),
    ("longer log lines", "len(columns) != 14:", "len(columns) < 14:"),
]


def changed(name, old, new):
    """One of the two files as a module, with a change in its programs."""
    path = os.path.join(os.path.dirname(os.path.abspath(__file__)),
                        name + ".py")
    with open(path) as file:
        text = file.read()
    if name == "reports":
        text = text.split("\n# Frames\n")[0]
    assert old in text, old
    module = types.ModuleType(name)
    module.__file__ = path
    exec(text.replace(old, new), module.__dict__)
    return module


def differs(module, letter, data, answer):
    program = module.airings if letter == "A" else module.notes
    try:
        return program(data) != answer
    except (AssertionError, IndexError, ValueError):
        return True


def wrong():
    """Runs the wrong versions, the short frames first."""
    frames = sorted(all_frames().items(), key=lambda item: len(item[0][1]))
    right = sys.modules["sheets"]
    left = []
    same = changed("reports", "", "")
    assert not any(differs(same, *key, answer) for key, answer in frames)
    for change in WRONG_PROGRAMS + WRONG_LINES:
        if change in WRONG_LINES:
            sys.modules["sheets"] = changed("sheets", *change[1:])
            module = changed("reports", "", "")
            sys.modules["sheets"] = right
        else:
            module = changed("reports", *change[1:])
        if not any(differs(module, *key, answer) for key, answer in frames):
            left.append(change[0])
    print("%d wrong versions, %d not told apart"
          % (len(WRONG_PROGRAMS + WRONG_LINES), len(left)))
    for name in left:
        print("not told apart: " + name)
    return 1 if left else 0


# ---------------------------------------------------------------------------

def main(arguments):
    self_check()
    if arguments == ["--wrong"]:
        return wrong()
    if len(arguments) > 1 or arguments and arguments[0].startswith("-"):
        print("use: reports.py [FOLDER | --wrong]", file=sys.stderr)
        return 2
    if arguments:
        folder = arguments[0]
    else:
        here = os.path.dirname(os.path.abspath(__file__))
        folder = os.path.join(os.path.dirname(here), "crates",
                              "report_vectors")
    os.makedirs(folder, exist_ok=True)
    answers = all_frames()
    stdin = [frame(letter, data) for letter, data in answers]
    stdout = [answer + b"--\n" for answer in answers.values()]
    for name, parts in [("stdin", stdin), ("stdout", stdout)]:
        with open(os.path.join(folder, name), "wb") as file:
            file.write(b"".join(parts))
    for letter in "AN":
        print("%s %d" % (letter, sum(key[0] == letter for key in answers)))
    return 0


if __name__ == "__main__":
    sys.exit(main(sys.argv[1:]))
