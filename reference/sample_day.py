#!/usr/bin/env python3
"""Makes the samples: a cue sheet with the log of a day, a small one that is
refused late in its log, and a presenter's notes with words to look for.

    python3 reference/sample_day.py [FOLDER]

writes day.txt, day-refused.txt and notes.txt into FOLDER/samples (default:
the folder above this one). The day is also what the program airings is run
on, and the notes what the program notes is run on: `stdin` and `stdout` in
FOLDER/crates/airings and FOLDER/crates/notes. The files are the same on every
run.
"""

import os
import sys

sys.dont_write_bytecode = True          # leave no files beside this one
sys.path.insert(0, os.path.dirname(os.path.abspath(__file__)))

from reports import MOST_INPUT, airings, lines_of, notes
from sheets import Dice, MOST_SECOND, cue_line, log_line

LOG_EVENTS = 2000
CUES = 40

# What a station plays. Carts of one kind lie together, as on a real shelf.
JINGLES = [("J", cart) for cart in (10, 11, 12, 15, 20, 21, 30, 40)]
SPOTS = [("S", 2000 + cart) for cart in range(0, 90, 3)]
MUSIC = [("M", 100000 + 137 * cart) for cart in range(160)]
NEWS = [("N", 500 + cart) for cart in range(24)]
VOICE = [("V", 70 + cart) for cart in range(12)]

# How long an event of a kind takes, in seconds, roughly. A log of a day has
# 2,000 events here, so the pieces of music are short ones.
SECONDS = {"J": (4, 12), "S": (15, 40), "M": (60, 140), "N": (20, 90),
           "V": (10, 45)}


def fixed_cues():
    """Cues as someone would write them: openers, breaks, and parts of them.
    Some are a part, a beginning or an end of others."""
    j, s, v, n = JINGLES, SPOTS, VOICE, NEWS
    return [
        [j[0], n[0], j[1]],                             # news with both jingles
        [n[0], j[1]],                                   # its end
        [j[0]],                                         # the opener alone
        [j[2], s[0], s[1], s[2], j[3]],                 # a break of three spots
        [s[0], s[1], s[2]],                             # the same, no jingles
        [s[1], s[2]],
        [s[2], j[3]],
        [j[2], s[0], s[1]],
        [j[2], s[0], s[0], s[1], j[3]],                 # a spot twice
        [s[0], s[0]],
        [j[4], j[4]],
        [j[4], j[4], j[4]],
        [j[0], v[0], j[0], v[1], j[0], v[0], j[0]],     # greetings
        [j[0], v[0], j[0]],
        [v[1], j[0], v[0]],
        [v[0]],
        [j[5], s[3], s[4], s[5], s[6], s[7], s[8], j[5]],   # the long break
        [s[5], s[6], s[7]],
        [s[7], s[8], j[5]],
        [MUSIC[0], j[6], MUSIC[1]],
        [j[6], MUSIC[1]],
        [MUSIC[7]],
    ]


def make_cues(dice):
    """The fixed cues and further ones by chance, no two of them the same."""
    cues = fixed_cues()
    while len(cues) < CUES:
        length = dice.pick([1, 2, 2, 3, 3, 4, 5, 6, 7, 8])
        if dice.below(3) == 0:
            # A part of a cue that is there already, and one event more.
            old = dice.pick(cues)
            start = dice.below(len(old))
            cue = old[start:start + 4] + [dice.pick(SPOTS + JINGLES)]
        else:
            cue = [dice.pick(dice.pick([JINGLES, SPOTS, SPOTS, NEWS, VOICE,
                                        MUSIC]))
                   for _ in range(length)]
        if cue not in cues:
            cues.append(cue)
    return cues


def make_log_events(dice, cues):
    """Runs of cues with other events between them."""
    events = []
    while len(events) < LOG_EVENTS:
        chance = dice.below(20)
        if chance < 5:
            cue = dice.pick(cues)
            events += cue
            if len(cue) > 1 and cue[0] == cue[-1] and dice.below(2) == 0:
                # A second run that shares an event with the first.
                events += cue[1:]
        elif chance < 7:
            # A cue that breaks off, as happens on air.
            cue = dice.pick(cues)
            events += cue[:dice.between(1, len(cue))]
        else:
            for _ in range(dice.between(1, 4)):
                events.append(dice.pick(dice.pick([MUSIC, MUSIC, MUSIC, SPOTS,
                                                   NEWS, VOICE])))
    return events[:LOG_EVENTS]


def make_seconds(dice, events):
    """Rising seconds, the first 0 and the last 86,399: the events get their
    rough lengths, and these are stretched or shrunk to fill the day."""
    starts = [0]
    for kind, _ in events[:-1]:
        starts.append(starts[-1] + dice.between(*SECONDS[kind]))
    seconds = [start * MOST_SECOND // starts[-1] for start in starts]
    assert all(a < b for a, b in zip(seconds, seconds[1:]))
    assert seconds[0] == 0 and seconds[-1] == MOST_SECOND
    return seconds


def input_of(cues, events, seconds):
    """The cue sheet, the parting line and the log."""
    data = b""
    for number, cue in enumerate(cues):
        for kind, cart in cue:
            data += cue_line(number, kind, cart)
    data += b"\n"
    for second, (kind, cart) in zip(seconds, events):
        data += log_line(second, kind, cart)
    return data


def day():
    dice = Dice(1930)
    cues = make_cues(dice)
    events = make_log_events(dice, cues)
    seconds = make_seconds(dice, events)
    data = input_of(cues, events, seconds)

    # The sample must be granted as a whole, and every cue is in the log.
    answer = lines_of(airings(data))
    assert len(data) <= MOST_INPUT
    assert len(answer[-1]) == 16                        # a total line
    assert int(answer[-1][:7]) == LOG_EVENTS
    assert len({line[8:12] for line in answer[:-1]}) == len(cues)
    return data


def day_refused():
    """The last events of a day. The log goes on behind midnight, so line 20
    has a second that no day has."""
    data = (b"   0 J     10\n"
            b"   0 N    500\n"
            b"   0 J     11\n"
            b"   1 N    500\n"
            b"   1 J     11\n"
            b"   2 J     12\n"
            b"   2 S   2000\n"
            b"   2 S   2003\n"
            b"   2 J     12\n"
            b"\n"
            b"86115 J     12\n"
            b"86121 S   2000\n"
            b"86148 S   2003\n"
            b"86176 J     12\n"
            b"86182 S   2000\n"
            b"86209 S   2003\n"
            b"86237 J     12\n"
            b"86243 M 100137\n"
            b"86391 J     10\n"
            b"86400 N    500\n"
            b"86473 J     11\n")
    assert airings(data) == (b"      3    2  4\n"
                             b"      6    2  4\n"
                             b"13      20\n")
    return data


# Words to look for, a cue in each line, and the notes behind an empty line.
# Some words are parts of others: port and report, rain and train, even,
# seven and eleven.
NOTES = b"""\
traffic report
report
port
traffic
weather report
weather
newsreader
news
read
train
rain
seven
eleven
even
Harbour Street
harbour
bakery
interview
INTER
jingle
spot
thank you

NOTES FOR THE MORNING PROGRAMME, TUESDAY

Six o'clock. Opening jingle, then the news. The newsreader today is Marta; she
reads from the small studio, so open her microphone before the jingle ends.
After the news comes the weather report. Rain is expected until eleven, then
it will be dry. Say that the wind comes from the sea and that it is colder
than yesterday. Do not read out the temperatures of last week; that page is
still in the folder and I have not taken it away.

Ten past six. Traffic report. Harbour Street is closed between the bridge and
the bakery until Friday. Cars must go round by Mill Lane. The bus to the
harbour stops in front of the school instead. If there is a second traffic
report from the police, read it at once and do not wait for the next break.

Twenty past six. Break with three spots. The first spot is for the bakery in
Harbour Street. They ask us to say that the shop is open, although the street
is closed, and that one can walk to it from both ends. The second spot is for
the furniture shop, the third is for the evening course in sewing. Play the
short jingle in front of the break and behind it.

Half past six. Music until ten to seven. Greet the people who work at night
in the hospital and the drivers of the early train. Say thank you to the
listener who sent us the recording of the port in 1961. We play a minute of it
on Thursday, even if the sports programme gets longer.

Seven o'clock. News, weather, traffic, in this order. Marta has asked for a
pause of two seconds between the news and the weather report, because the
reporter is in the other room and needs the time to sit down. The report about
the new port crane is ready; it is four minutes long. If the news is long, we
play the report at seven thirty.

Twenty past seven. Interview with the head of the railway station. She comes
by train, and the train may be late. If she is late, play two pieces of music
more and move the interview to eleven minutes to eight. Questions for the
interview:

  1. Why does the train to the coast stop at every station since Monday?
  2. Will there be a train in the evening again, after seven?
  3. What should people do who have already paid for the INTERCITY train?
  4. Is the roof of the station repaired? In the rain last week it was wet
     on platform seven and on platform eleven.

Please thank her at the end, and say thank you to the two pupils who wrote
the questions with us. Their names are on the yellow sheet.

Ten to eight. Break with four spots. There was a mistake last week: the spot
of the bakery was played twice and the spot of the theatre not at all. Traffic
has counted it and wants the theatre twice today. Read the list of spots again
before you start the break.

Eight o'clock. News. The newsreader after eight is Jon. He likes to have the
window open; close it before the jingle, because the street is loud.
Weather report, traffic report. If the rain has stopped already, say so and
do not read the old report.

Half past eight. The letter of the week. It is about the fish market at the
harbour and about the noise at seven in the morning. Read all of it, it is
short. Then music.

Nine o'clock. Last news of the programme. Say who comes next: the concert from
eleven to one, repeated in the evening at seven. Closing jingle.

THINGS TO REMEMBER

The jingle with the bells is only for holidays.
Never play a spot directly behind the news.
The weather report is sent by eleven minutes to each hour; if it is not there,
call the weather station, the number is next to the telephone.
REPORT EVERY MISTAKE IN THE LOG. THANK YOU.
"""


def main(arguments):
    if len(arguments) > 1:
        print("use: sample_day.py [FOLDER]", file=sys.stderr)
        return 2
    if arguments:
        folder = arguments[0]
    else:
        folder = os.path.dirname(os.path.dirname(os.path.abspath(__file__)))
    files = [("samples/day.txt", day()),
             ("samples/day-refused.txt", day_refused()),
             ("samples/notes.txt", NOTES),
             ("crates/airings/stdin", day()),
             ("crates/airings/stdout", airings(day())),
             ("crates/notes/stdin", NOTES),
             ("crates/notes/stdout", notes(NOTES))]
    for name, data in files:
        path = os.path.join(folder, name)
        os.makedirs(os.path.dirname(path), exist_ok=True)
        with open(path, "wb") as file:
            file.write(data)
        print("%s %d bytes, %d lines" % (name, len(data), len(lines_of(data))))
    return 0


if __name__ == "__main__":
    sys.exit(main(sys.argv[1:]))
