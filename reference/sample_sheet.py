#!/usr/bin/env python3
"""Makes the two samples: a morning's cue sheet with the log of its day, and a
small sheet with a mistake.

    python3 reference/sample_sheet.py [FOLDER]

writes sheet-morning.txt and sheet-refused.txt into FOLDER (default: samples
beside this folder). The files are the same on every run.
"""

import os
import sys

sys.dont_write_bytecode = True          # leave no files beside this one
sys.path.insert(0, os.path.dirname(os.path.abspath(__file__)))

from sample_day import (JINGLES, LOG_EVENTS, MUSIC, NEWS, SPOTS, VOICE,
                        input_of, make_cues, make_seconds)
from sheets import Dice, MOST_INPUT, cuesheet, lines_of, read_log_line


def make_log_events(dice, cues):
    """Runs of cues with other events between them."""
    events = []
    while len(events) < LOG_EVENTS:
        chance = dice.below(10)
        if chance < 4:
            events += dice.pick(cues)
        elif chance < 5:
            # A cue that breaks off, as happens on air.
            cue = dice.pick(cues)
            events += cue[:dice.between(1, len(cue))]
        else:
            for _ in range(dice.between(1, 3)):
                events.append(dice.pick(dice.pick([MUSIC, MUSIC, SPOTS, NEWS,
                                                   VOICE, JINGLES])))
    return events[:LOG_EVENTS]


def morning():
    dice = Dice(1930)
    cues = make_cues(dice)
    events = make_log_events(dice, cues)
    seconds = make_seconds(dice, events)
    data = input_of(cues, events, seconds)

    # The sample must be granted as a whole.
    assert len(data) <= MOST_INPUT
    assert len(lines_of(cuesheet(data))) == len(cues) + 1
    assert len(lines_of(cuesheet(data))[-1]) == 16      # a total line
    behind = lines_of(data[data.index(b"\n\n") + 2:])
    assert len(behind) == LOG_EVENTS
    assert all(read_log_line(line)[0] == "log" for line in behind)
    return data


def refused():
    """Line 6 has the letter P, which is no kind."""
    data = (b"   0 J     10\n"
            b"   0 S   2000\n"
            b"   0 S   2003\n"
            b"   1 J     12\n"
            b"   1 N    500\n"
            b"   2 P   2006\n"
            b"   2 J     10\n"
            b"\n"
            b"21600 J     10\n"
            b"21608 S   2000\n"
            b"21638 S   2003\n"
            b"21665 M 100137\n")
    assert cuesheet(data) == (b"      0    0  3\n"
                              b"      3    1  2\n"
                              b"13       6\n")
    return data


def main(arguments):
    if len(arguments) > 1:
        print("use: sample_day.py [FOLDER]", file=sys.stderr)
        return 2
    if arguments:
        folder = arguments[0]
    else:
        here = os.path.dirname(os.path.abspath(__file__))
        folder = os.path.join(os.path.dirname(here), "samples")
    os.makedirs(folder, exist_ok=True)
    for name, data in [("sheet-morning.txt", morning()),
                       ("sheet-refused.txt", refused())]:
        with open(os.path.join(folder, name), "wb") as file:
            file.write(data)
        print("%s %d bytes, %d lines" % (name, len(data), len(lines_of(data))))
    return 0


if __name__ == "__main__":
    sys.exit(main(sys.argv[1:]))
