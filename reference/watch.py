#!/usr/bin/env python3
"""A slow and plain model of the watch, the lane and the wait, and a maker of
test vectors.

    python3 reference/watch.py [FOLDER]

writes the files `stdin` and `stdout` into FOLDER (crates/watch_vectors if no
folder is given). Every line of `stdin` is one command; `stdout` holds the
answers, in the same order.

The model keeps the text as a plain list of signs. Live beginning, sightings
and standing are found anew from that list at every question. Only the trials
are counted while they happen. Events are folded bytes.

Commands and answers:

    N K | N B        begin anew, link engine or bit engine      new
    L w1 w2 ...      make a book and load it                    add r | load ok | load r
    T n              take a sign                                take ok | take r
    F cap text       follow with a list of cap entries          follow taken written ending
                                                                and one line per entry: e place cue len
    R c k            resume                                     resume ok | resume r
    X                restart                                    restart
    Q                questions                                  q n:k n:k ... | c k | wait [| trials]
    O end len        offer to the lane                          mark | pass | offer r
"""

import os
import sys

# ---------------------------------------------------------------------------
# Limits
# ---------------------------------------------------------------------------

MOST_MATERIAL = 2048      # events of the material
MOST_CUES = 128           # cues of a book
MOST_CUE = 32             # events of one cue
MOST_TOGETHER = 1024      # events of all cues of a book together
NO_SIGN = 2048            # sign of an event that the material does not hold
MOST_SIGHTINGS = 32       # sightings of one text
MOST_TEXT = 9_999_999     # signs of a text
MOST_TRIALS = 4_294_967_295
CAPACITY = {"K": 1024, "B": 64}


# ---------------------------------------------------------------------------
# Events: folded bytes
# ---------------------------------------------------------------------------

def same(x, y):
    """Equal, or a capital letter and its small letter."""
    if x == y:
        return True
    if 65 <= x <= 90 and y == x + 32:
        return True
    if 65 <= y <= 90 and x == y + 32:
        return True
    return False


# ---------------------------------------------------------------------------
# Draft and book
# ---------------------------------------------------------------------------

class Draft:
    """Material, and cues as pairs (place, length)."""

    def __init__(self, events):
        self.material = list(events)[:MOST_MATERIAL]
        self.cues = []

    def events_of(self, cue):
        place, length = cue
        return self.material[place:place + length]

    def add(self, place, length):
        """None if granted, otherwise the number of the refusal."""
        if length == 0:
            return 1
        if length > MOST_CUE:
            return 2
        if place + length > len(self.material):
            return 3
        if len(self.cues) == MOST_CUES:
            return 4
        if sum(n for _, n in self.cues) + length > MOST_TOGETHER:
            return 4
        new = self.events_of((place, length))
        for cue in self.cues:
            old = self.events_of(cue)
            if len(old) == length and all(same(x, y) for x, y in zip(old, new)):
                return 5
        self.cues.append((place, length))
        return None

    def seal(self):
        return Book(self.material, self.cues)


class Book:
    def __init__(self, material, cues):
        self.material = list(material)
        self.cues = list(cues)

    def sign(self, event):
        """The first place of the material that holds a same event."""
        for place, other in enumerate(self.material):
            if same(other, event):
                return place
        return NO_SIGN

    def cues_as_signs(self):
        return [tuple(self.sign(event) for event in self.material[place:place + length])
                for place, length in self.cues]


EMPTY_BOOK = Book([], [])


# ---------------------------------------------------------------------------
# Beginnings, sightings, standing: functions of the cues and a text
# ---------------------------------------------------------------------------

def ends(u, w):
    """Is the list w some list followed by u?"""
    return len(u) <= len(w) and tuple(w[len(w) - len(u):]) == tuple(u)


def beginnings(cues):
    found = {()}
    for cue in cues:
        for k in range(len(cue) + 1):
            found.add(cue[:k])
    return found


def live_beginning(cues, text):
    """The longest beginning that ends the text: try all that ends the text,
    from the whole text down to the empty list."""
    all_beginnings = beginnings(cues)
    for start in range(len(text) + 1):
        rest = tuple(text[start:])
        if rest in all_beginnings:
            return rest
    raise AssertionError("the empty beginning ends every text")


def sightings(cues, text):
    """All cues that end the text, by falling length, as (number, length)."""
    found = [(number, len(cue)) for number, cue in enumerate(cues) if ends(cue, text)]
    found.sort(key=lambda pair: -pair[1])
    return found


def standing(cues, text):
    live = live_beginning(cues, text)
    if live == ():
        return (0, 0)
    for number, cue in enumerate(cues):
        if cue[:len(live)] == live:
            return (number, len(live))
    raise AssertionError("a beginning that is not empty is a prefix of a cue")


def link(cues, beginning):
    """The longest beginning that ends this one and is shorter; the empty one
    has none."""
    assert beginning != ()
    all_beginnings = beginnings(cues)
    for start in range(1, len(beginning) + 1):
        if beginning[start:] in all_beginnings:
            return beginning[start:]
    raise AssertionError("the empty beginning ends every list")


def walk(cues, live, sign):
    """The trials of one sign. Gives their number and the new live beginning."""
    all_beginnings = beginnings(cues)
    trials = 0
    at = live
    while True:
        trials += 1
        if at + (sign,) in all_beginnings:
            return trials, at + (sign,)
        if at == ():
            return trials, ()
        at = link(cues, at)


# ---------------------------------------------------------------------------
# Watch
# ---------------------------------------------------------------------------

class Watch:
    def __init__(self, engine):
        self.engine = engine
        self.cues = []
        self.text = []
        self.trials = 0
        # Only for the check of the bound of the trials:
        self.taken = 0
        self.resumed = 0

    def begin_text(self, text, resumed):
        self.text = list(text)
        self.trials = 0
        self.taken = 0
        self.resumed = resumed

    def load(self, book):
        cues = book.cues_as_signs()
        if sum(len(cue) for cue in cues) > CAPACITY[self.engine]:
            return 6
        if any(len(sightings(cues, cue)) > MOST_SIGHTINGS for cue in cues):
            return 7
        self.cues = cues
        self.begin_text([], 0)
        return None

    def take(self, sign):
        if len(self.text) >= MOST_TEXT:
            return 10
        trials, arrived = walk(self.cues, live_beginning(self.cues, self.text), sign)
        self.text.append(sign)
        self.trials = min(self.trials + trials, MOST_TRIALS)
        self.taken += 1
        self.check(arrived)
        return None

    def check(self, arrived):
        """What has to hold behind every sign."""
        live = live_beginning(self.cues, self.text)
        assert arrived == live
        assert sightings(self.cues, self.text) == sightings(self.cues, live)
        assert len(sightings(self.cues, self.text)) <= MOST_SIGHTINGS
        assert self.trials <= 2 * self.taken + self.resumed - len(live)

    def follow(self, book, events, cap):
        """Gives the number of events taken, the entries written, the ending."""
        taken = 0
        written = []
        while True:
            if taken == len(events):
                return taken, written, 0
            if len(self.text) >= MOST_TEXT:
                return taken, written, 2
            if cap - len(written) < MOST_SIGHTINGS:
                return taken, written, 1
            refusal = self.take(book.sign(events[taken]))
            assert refusal is None
            taken += 1
            place = len(self.text) - 1
            for number, length in self.sightings():
                written.append((place, number, length))

    def resume(self, c, k):
        if (c, k) == (0, 0):
            self.begin_text([], 0)
            return None
        if c >= len(self.cues):
            return 8
        if k > len(self.cues[c]):
            return 9
        self.begin_text(self.cues[c][:k], k)
        return None

    def restart(self):
        self.begin_text([], 0)

    def sightings(self):
        return sightings(self.cues, self.text)

    def standing(self):
        return standing(self.cues, self.text)

    def wait(self, book):
        """None for a book without cues."""
        if not book.cues:
            return None
        shortest = min(length for _, length in book.cues)
        return max(1, shortest - len(live_beginning(self.cues, self.text)))


# ---------------------------------------------------------------------------
# Lane
# ---------------------------------------------------------------------------

class Lane:
    def __init__(self):
        self.edge = 0
        self.count = 0
        self.last_end = 0

    def offer(self, end, length):
        """"mark", "pass", or the number of the refusal."""
        if end < self.last_end:
            return 11
        if length == 0 or length > end + 1:
            return 12
        self.last_end = end
        if end + 1 - length >= self.edge:
            self.edge = end + 1
            self.count += 1
            return "mark"
        return "pass"


# ---------------------------------------------------------------------------
# Desk: answers command lines
# ---------------------------------------------------------------------------

def granted(call, refusal):
    return [f"{call} ok" if refusal is None else f"{call} {refusal}"]


class Desk:
    def __init__(self):
        self.watch = None
        self.book = None
        self.lane = None

    def answer(self, line):
        """The lines that answer one command line."""
        parts = line.split(" ")
        return getattr(self, "do_" + parts[0])(*parts[1:])

    def do_N(self, engine):
        self.watch = Watch(engine)
        self.book = EMPTY_BOOK
        self.lane = Lane()
        return ["new"]

    def do_L(self, *words):
        draft = Draft("".join(words).encode("ascii"))
        place = 0
        for word in words:
            refusal = draft.add(place, len(word))
            if refusal is not None:
                return [f"add {refusal}"]
            place += len(word)
        self.book = draft.seal()
        return granted("load", self.watch.load(self.book))

    def do_T(self, sign):
        return granted("take", self.watch.take(int(sign)))

    def do_F(self, cap, text):
        events = text.encode("ascii")
        taken, written, ending = self.watch.follow(self.book, events, int(cap))
        lines = [f"follow {taken} {len(written)} {ending}"]
        for place, number, length in written:
            lines.append(f"e {place} {number} {length}")
        return lines

    def do_R(self, c, k):
        return granted("resume", self.watch.resume(int(c), int(k)))

    def do_X(self):
        self.watch.restart()
        return ["restart"]

    def do_Q(self):
        line = "q"
        for number, length in self.watch.sightings():
            line += f" {number}:{length}"
        c, k = self.watch.standing()
        line += f" | {c} {k}"
        wait = self.watch.wait(self.book)
        line += " | -" if wait is None else f" | {wait}"
        if self.watch.engine == "K":
            line += f" | {self.watch.trials}"
        return [line]

    def do_O(self, end, length):
        answer = self.lane.offer(int(end), int(length))
        return [answer if isinstance(answer, str) else f"offer {answer}"]


class Vectors:
    """Command lines and their answers, as they are made."""

    def __init__(self):
        self.desk = Desk()
        self.commands = []
        self.answers = []
        self.scripts = 0

    def say(self, line):
        """One command. Gives the first line of the answer."""
        lines = self.desk.answer(line)
        self.commands.append(line)
        self.answers.extend(lines)
        if line[0] == "N":
            self.scripts += 1
        return lines[0]

    def ask(self, line):
        """One command and the questions behind it."""
        first = self.say(line)
        self.say("Q")
        return first

    def play(self, engine, *lines):
        """A script with the questions behind every command but the offers."""
        self.ask(f"N {engine}")
        for line in lines:
            if line[0] == "O":
                self.say(line)
            else:
                self.ask(line)


# ---------------------------------------------------------------------------
# Checks of the model on worked cases
# ---------------------------------------------------------------------------

def book_of(*words):
    draft = Draft("".join(words).encode("ascii"))
    place = 0
    for word in words:
        assert draft.add(place, len(word)) is None
        place += len(word)
    return draft.seal()


def check_model():
    # Sameness: the three laws, and what is not the same.
    alike = {x: [y for y in range(256) if same(x, y)] for x in range(256)}
    for x in range(256):
        assert x in alike[x]
        for y in alike[x]:
            assert alike[y] == alike[x]
        assert len(alike[x]) == (2 if chr(x).isalpha() and x < 128 else 1)
    assert same(65, 97) and same(122, 90)
    assert not same(64, 96) and not same(91, 123) and not same(48, 80)

    # Order of the refusals of add.
    draft = Draft(b"abcA" + b"x" * 3000)
    assert len(draft.material) == 2048
    assert draft.add(1 << 70, 0) == 1
    assert draft.add(1 << 70, 33) == 2
    assert draft.add(1 << 70, 1) == 3
    assert draft.add(2048, 1) == 3
    assert draft.add(2047, 2) == 3
    assert draft.add(2047, 1) is None
    assert draft.add(4, 1) == 5
    assert draft.add(0, 1) is None
    assert draft.add(3, 1) == 5
    assert draft.cues == [(2047, 1), (0, 1)]

    # Overlapping runs.
    for engine in "KB":
        watch = Watch(engine)
        book = book_of("aaba")
        assert watch.load(book) is None
        assert watch.follow(book, b"aaabaabacabc", 64) == (12, [(4, 0, 4), (7, 0, 4)], 0)

    # Links of a single cue.
    cues = book_of("abcabba").cues_as_signs()
    assert [len(link(cues, cues[0][:k])) for k in range(1, 8)] == [0, 0, 0, 1, 2, 0, 1]

    # A short cue inside a long one.
    cues = book_of("she", "he").cues_as_signs()
    assert sightings(cues, cues[0]) == [(0, 3), (1, 2)]

    # Standings along a text, entries, and the lane.
    book = book_of("js", "s", "sj")
    assert book.cues_as_signs() == [(0, 1), (1,), (1, 0)]
    watch = Watch("K")
    assert watch.load(book) is None
    seen = []
    for event in b"jsjsm":
        watch.take(book.sign(event))
        seen.append(watch.standing())
    assert seen == [(0, 1), (0, 2), (2, 2), (0, 2), (0, 0)]
    watch.restart()
    taken, written, ending = watch.follow(book, b"jsjsm", 64)
    assert (taken, ending) == (5, 0)
    assert written == [(1, 0, 2), (1, 1, 1), (2, 2, 2), (3, 0, 2), (3, 1, 1)]
    lane = Lane()
    assert [lane.offer(p, n) for p, _, n in written] == ["mark", "pass", "pass", "mark", "pass"]
    assert lane.count == 2

    # Trials.
    watch = Watch("K")
    assert watch.load(book_of("aab")) is None
    watch.follow(book_of("aab"), b"aaa", 64)
    assert (watch.trials, watch.standing()) == (4, (0, 2))

    # The empty book.
    watch = Watch("B")
    watch.follow(EMPTY_BOOK, b"abc", 32)
    assert watch.text == [2048, 2048, 2048]
    assert watch.standing() == (0, 0) and watch.wait(EMPTY_BOOK) is None

    # Small letters for a cue in capitals.
    book = book_of("AXT")
    watch = Watch("K")
    assert watch.load(book) is None
    assert watch.follow(book, b"axt", 64) == (3, [(2, 0, 3)], 0)

    # A text of the greatest length takes no sign.
    watch.text = [0] * MOST_TEXT
    assert watch.take(0) == 10
    assert watch.follow(book, b"a", 0) == (0, [], 2)
    assert watch.follow(book, b"", 0) == (0, [], 0)


# ---------------------------------------------------------------------------
# Cases made by hand
# ---------------------------------------------------------------------------

LETTERS = "abcdefghijklmnopqrstuvwxyz0123456789"


def pairs(count):
    """So many different words of two characters."""
    return [x + y for x in LETTERS for y in LETTERS][:count]


def words_of_32(count):
    """So many different words of 32 characters that share long parts."""
    return [("ab" * 20)[n % 2:][:31 - n // 2] + LETTERS[2 + n % 20] + ("ba" * 20)[:n // 2]
            for n in range(count)]


def by_hand(v):
    both = "KB"

    # A new watch, no book made.
    for engine in both:
        v.play(engine, "T 0", "T 2048", "F 32 abc", "F 0 ", "F 0 a", "F 31 a", "R 0 0",
               "R 0 1", "R 1 0", "R 1 1", "X", "T 65535", "R 0 0", "F 32 Z9", "L",
               "T 0", "F 33 abAB", "R 0 0", "R 0 1", "R 127 0", "X")

    # Overlapping runs.
    for engine in both:
        v.play(engine, "L aaba", "F 64 aaabaabacabc", "X", "F 33 aaabaabacabc", "F 32 aabacabc",
               "F 64 abacabc", "X", *[f"T {n}" for n in (0, 0, 0, 2, 0, 0, 2, 0, 2048, 0, 2, 2048)])

    # Links, seen by the trials of a sign that leads nowhere, from each beginning.
    for engine in both:
        v.play(engine, "L abcabba", *[line for k in range(8) for line in (f"R 0 {k}", "T 2048")])
        for sign in (0, 1, 2):
            v.play(engine, "L abcabba",
                   *[line for k in range(8) for line in (f"R 0 {k}", f"T {sign}")])

    # Short cues inside long ones; both orders of the numbers.
    for engine in both:
        v.play(engine, "L she he", "F 64 she", "F 64 SHEHE", "X", "T 0", "T 1", "T 2", "T 2")
        v.play(engine, "L he she", "F 64 she", "F 64 shhe", "X", "T 2", "T 0", "T 1")
        v.play(engine, "L he she his hers", "F 64 ushers", "F 64 HISHERSHE", "R 1 3", "R 3 2",
               "R 2 1", "F 64 ERS")
        v.play(engine, "L a aa aaa", "F 64 aaaaa", "F 33 aaaa", "F 34 aaaa", "F 35 aaaa", "F 37 aaaa")
        v.play(engine, "L aaa aa a", "F 64 AAaAA", "R 0 3", "R 0 2", "R 1 2", "R 2 1", "R 2 0", "R 1 0")
        v.play(engine, "L abab bab ab b", "F 64 abababab", "F 64 BABA", "R 1 3", "F 64 ab", "R 0 4",
               "F 64 ab", "R 2 2", "F 64 ab")

    # Standings along a text, the entries and the lane.
    for engine in both:
        v.play(engine, "L js s sj", "T 0", "T 1", "T 0", "T 1", "T 2048", "X", "F 64 jsjsm",
               "O 1 2", "O 1 1", "O 2 2", "O 3 2", "O 3 1", "X", "F 64 j", "F 64 s", "F 64 j",
               "F 64 s", "F 64 m", "X", "F 36 JSJSM", "X", "F 34 JSJSM", "F 33 JSM")

    # The lowest number that has the live beginning.
    for engine in both:
        v.play(engine, "L abc abd ab", "F 64 ab", "R 1 2", "R 2 2", "R 1 1", "R 2 1", "R 1 3", "R 0 3",
               "F 64 abd", "F 64 a")
        v.play(engine, "L xa ab abx b", "F 64 xabxab", "R 2 2", "R 2 1", "R 1 2", "R 3 1", "R 3 2")
        v.play(engine, "L b a ab aab", "F 64 aaab", "R 3 1", "R 3 2", "R 3 3", "R 2 2", "R 2 1", "R 1 1")

    # One event alone, and one without a same event.
    for engine in both:
        v.play(engine, "L a", "F 64 a", "X", "F 64 b", "X", "T 0", "X", "T 1", "T 0", "T 2048")

    # Capital and small letters; digits are not letters.
    for engine in both:
        v.play(engine, "L AXT", "F 64 axt", "F 64 AXT", "F 64 aXtAxT", "L axt", "F 64 AXTaxt")
        v.play(engine, "L 0 P 9 Y", "F 64 0P9Ypy", "X", "F 64 p0y9", "L 0P p0", "F 64 0pP0p0", "L a A",
               "F 64 aA", "L aB Ab", "L aA Aa", "L Aa A", "F 64 aaa", "L z Z", "L m1 M1", "L 1m m1",
               "F 64 M1M", "L A a1 1A", "F 64 a1a1A")
        v.play(engine, "L aZ Za", "T 0", "T 1", "T 0", "T 2", "T 3", "F 64 zAz", "L Zz zZz", "T 0", "T 0",
               "T 1", "T 0", "T 0", "T 0")

    # Signs of the text that no event has.
    for engine in both:
        v.play(engine, "L aab ba", "T 0", "T 0", "T 2", "T 0", "T 1", "T 0", "T 2", "T 3", "T 4", "T 2047",
               "T 2048", "T 2049", "T 4096", "T 32768", "T 65535", "T 0", "T 65534", "T 2", "T 0",
               "T 256", "T 258", "T 32770", "T 2050", "T 0")

    # Refusals of add: everything stays, the trials too.
    long32 = "abcdefghijklmnopqrstuvwxyz012345"
    for engine in both:
        v.play(engine, f"L {long32}", f"F 64 {long32}", f"L {long32}6", f"F 64 {long32[:9]}", f"L ab {long32}6 ab",
               f"L ab ab {long32}6", "L ab cd AB", "F 64 JK", "L", "L ab", "F 64 xaba", "L ba BA", "F 64 b",
               "R 0 1", "L q q", "F 64 bq", f"L {'z' * 32}", f"F 64 {'z' * 31}", "F 64 Z", "F 33 zz",
               f"L {'z' * 33}", "F 32 y")
        v.play(engine, "L ab b", "F 64 aab", "L " + " ".join(pairs(129)), "F 64 aab",
               "L " + " ".join(pairs(128) + ["a" * 33]), "L " + " ".join(pairs(128) + ["aa"]),
               "L " + " ".join(words_of_32(32) + ["a"]), "F 64 b",
               "L " + " ".join(words_of_32(31) + ["q" * 31, "ab"]))
    # 128 cues; 1,024 signs together in three ways.
    v.play("K", "L " + " ".join(pairs(128)), "F 64 aaabbcdzd", "F 64 d3d", "R 127 2", "R 127 1", "R 128 0",
           "R 127 3", "R 127 0", "R 36 1", "F 64 abz", "X", "T 0", "T 0", "T 1", "T 2")
    v.play("K", "L " + " ".join(words_of_32(32)), "F 64 " + words_of_32(32)[5] + words_of_32(32)[30],
           "F 64 " + "ab" * 18 + "c" + "ba" * 8, *[f"R {n} {32 - n // 2}" for n in range(0, 32, 5)], "T 2048",
           "R 31 32", "T 0", "R 31 33", "R 32 0")
    eights = [x + "aabaab" + y for x in "Abcdefghijk" for y in "abcdefghijkl"][:128]
    v.play("K", "L " + " ".join(eights), "F 64 aaabaabaabaabcaabaabl", "R 127 8", "F 64 aabaaba", "R 100 7",
           "T 0", "R 127 9", "R 128 8")
    v.play("K", "L " + " ".join(words_of_32(31) + ["q" * 31, "a"]), "F 64 " + "q" * 33 + "ab",
           "L " + " ".join(words_of_32(31) + ["q" * 31, "a", "b"]), "F 64 ab")

    # Capacity of the bit engine: 64 is granted, 65 refused; of the other both are granted.
    sixty_four = ["ab" * 16, "ba" * 16]
    for engine in both:
        v.play(engine, "L " + " ".join(sixty_four), "F 64 " + "ab" * 17, "R 1 32", "T 1", "R 0 31", "T 1", "T 0",
               "L " + " ".join(sixty_four + ["c"]), "F 64 abac", "R 1 31", "F 64 AAB", "R 2 1", "X",
               "F 64 cab")
        v.play(engine, "L " + " ".join(["c"] + sixty_four), "F 64 cab", "L ab b", "F 64 aab",
               "L " + " ".join(["c"] + sixty_four), "F 64 ccab", "F 64 b", "T 1", "R 0 1", "T 1",
               "R 2 0", "L c", "F 64 cab", "L " + " ".join(pairs(32)), "F 64 aabaz", "F 64 5a",
               "L " + " ".join(pairs(32) + ["0"]), "F 64 aab0", "R 31 2", "R 32 1",
               "L " + " ".join(pairs(31) + ["0", "1"]), "F 64 0a1ac", "R 32 1", "L", "F 64 0a1")
        v.play(engine, "L " + " ".join("a" * n for n in range(1, 11)), "F 64 " + "a" * 12, "F 42 aaa",
               "L " + " ".join("a" * n for n in range(1, 12)), "F 64 aaab", "R 9 10", "R 10 0", "R 10 11")
        v.play(engine, "L " + " ".join(["a" * 32, "a" * 31, "a"]), "F 64 " + "a" * 34, "R 0 32", "T 0", "R 1 31",
               "T 1", "R 0 31", "T 0", "T 2048")
        v.play(engine, "L " + " ".join(list(LETTERS)), "F 64 az09AZ", "R 35 1", "R 36 1",
               "L " + " ".join(list(LETTERS) + pairs(14)), "F 64 aabn9",
               "L " + " ".join(list(LETTERS) + pairs(14) + ["aab"]), "F 64 aab")
        v.play(engine, "L " + " ".join(["abc", "b" * 29, "c" * 32]), "F 64 abc" + "b" * 30 + "c" * 3,
               "R 2 32", "T 2", "R 1 29", "T 1", "T 0", "T 1")
    # A larger book behind the greatest of the bit engine, and back.
    v.play("B", "L " + " ".join(pairs(128)), "F 64 aab", "R 0 0", "R 0 1", "L aa", "F 64 aab",
           "L " + " ".join(words_of_32(32)), "F 64 abab", "R 0 1", "R 0 3", "R 1 1", "X",
           "F 64 ABab", "L", "F 64 aa")

    # The book made last gives the signs, the loaded one the cues.
    swap = "ba" + "cdefghijklmnopqrstuvwxyz01234"
    v.play("B", "L ab ba a", "F 64 abba", f"L {swap} {'x' * 31} aab", "F 64 abba", "F 64 bbaab", "X",
           "F 64 baBA", "R 1 2", "F 64 b", "T 0", "L a b", "F 64 ab")
    v.play("B", "L abc c", "F 64 abcab", f"L bbb {'c' * 32} {'d' * 32}", "F 64 bdc", "F 64 bbbb", "R 0 2", "F 64 c",
           "R 0 3", "L abc abc", "F 64 bc", "L bca", "F 64 bca")
    v.play("B", f"L {'c' * 32} {'d' * 32} abc", "F 64 cda", "T 0", "T 64", "T 2048", "L b ab", "T 0", "T 1",
           "T 0", f"L {'c' * 32} {'d' * 32} ab", "F 64 cab", "F 64 bcC")

    # Resume: places go on behind the resumed signs.
    for engine in both:
        v.play(engine, "L abcab cab b", "R 0 3", "F 64 ab", "R 0 5", "F 64 cab", "R 1 3", "F 64 cab", "R 2 1",
               "F 64 bb", "R 2 0", "F 64 b", "R 0 0", "F 64 b", "R 3 0", "R 3 1", "F 64 a", "R 0 6",
               "F 64 b", "R 1 4", "R 2 2", "R 65535 0", "R 65535 65535", "R 0 65535", "R 2 65535",
               "R 128 32", "R 255 1", "R 256 1", "F 64 cab", "R 0 0", "F 64 b")
        v.play(engine, "T 5", "R 0 1", "R 0 0", "R 5 0", "T 7", "L ab", "T 0", "R 0 3", "R 1 0", "R 1 1",
               "T 1", "R 0 0", "T 1", "R 0 1", "T 1", "L", "R 0 0", "R 0 1", "R 1 0", "F 32 ab")

    # Follow: free entries and endings.
    for engine in both:
        for cap in (0, 1, 31, 32, 33, 34, 63, 64, 65):
            v.play(engine, "L ab b", f"F {cap} ", f"F {cap} a", f"F {cap} b", f"F {cap} abab",
                   f"F {cap} aaab", f"F {cap} xyz")
        v.play(engine, "L a", "F 32 bbba", "F 32 bbbab", "F 32 ab", "F 33 ab", "F 33 aab", "F 33 aa",
               "F 64 " + "a" * 33, "F 64 " + "A" * 40, "F 40 " + "ab" * 12, "F 31 ", "F 31 a", "F 0 ",
               "F 200 " + "ab" * 10)
    nest = ["a" * n for n in range(1, 33)]
    v.play("K", "L " + " ".join(nest), "F 31 a", "F 32 a", "F 32 aa", "F 33 aa", "F 64 " + "a" * 30, "R 31 32",
           "F 32 a", "F 32 aa", "F 63 aa", "F 64 aaa", "T 0", "T 2048", "R 30 31", "T 0", "R 15 16",
           "F 64 aaaa", "F 96 aaaa")
    v.play("K", "L " + " ".join(reversed(nest)), "F 64 " + "a" * 12, "R 0 32", "R 0 17", "R 15 17", "R 31 1",
           "R 16 16", "T 0", "T 1", "T 0")

    # Trials, and when their count begins anew.
    v.play("K", "L aab", "F 64 aaa", "F 64 aaaaaa", "T 2", "T 2048", "T 2048", "X", "T 2048", "T 0", "R 0 2",
           "T 0", "T 0", "R 0 4", "T 0", "R 1 0", "T 1", "L a a", "T 0", "L aab aab", "F 0 a", "F 64 ",
           "R 0 3", "T 0", "L aab", "T 0", "R 0 0", "T 0", "L", "T 0", "T 0")
    v.play("K", "L " + "a" * 31 + "b", "F 64 " + "a" * 31, "T 0", "T 0", "T 31", "T 0", "R 0 31", "T 2048",
           "R 0 32", "T 2048", "R 0 31", "T 1", "F 64 " + "a" * 31 + "c", "F 64 " + "A" * 35 + "B")
    v.play("K", "L " + "ab" * 16 + " " + "ba" * 15 + "c", "F 64 " + "ab" * 17 + "c", "R 0 32", "T 2048", "R 0 32",
           "T 1", "R 1 31", "T 2048", "R 0 31", "T 0")
    v.play("K", "L abaababaabaababaababaabaababaaba", "F 64 abaababaabaababaababaabaababaabaa", "R 0 32", "T 1",
           "R 0 32", "T 2048", "R 0 20", "T 2048", "R 0 12", "T 2048", "R 0 7", "T 2048")
    v.play("K", "L abcd bcd cd d e", "F 64 abcx", "X", "F 64 abce", "X", "F 64 abcdd", "R 0 3", "T 2048",
           "R 0 4", "T 0", "R 1 3", "T 0", "R 0 3", "T 10")
    # The link of a beginning is a beginning of another cue with a higher or lower number.
    for engine in both:
        v.play(engine, "L xabcy abcz bcw cv", "F 64 xabcz", "X", "F 64 xabcw", "X", "F 64 xabcv", "X", "F 64 xabcy",
               "X", "F 64 xabcx", "R 0 4", "T 2048")
        v.play(engine, "L cv bcw abcz xabcy", "F 64 xabcz", "X", "F 64 xabcw", "X", "F 64 xabcv", "X",
               "F 64 xabcy", "R 3 4", "T 1", "R 3 4", "T 4")
        v.play(engine, "L aaaa b", "F 64 aaab", "F 64 aaaaaab", "R 0 4", "T 4", "R 0 4", "T 0", "R 1 1", "T 0")
        v.play(engine, "L abcde c", "F 64 abcdeabcx", "R 0 4", "R 0 3", "T 3", "T 4", "R 0 5")

    # Wait.
    for engine in both:
        v.play(engine, "L abcde xyz", "F 64 a", "F 64 b", "F 64 c", "F 64 d", "F 64 e", "F 64 x", "F 64 y",
               "F 64 z", "F 64 z", "R 0 4", "R 1 1", "X", "L " + "a" * 32, "F 64 aaa", "F 64 b", "L", "T 0")
    v.play("B", "L abcde abcd", "F 64 ab", f"L {'a' * 32} {'b' * 32} {'c' * 9}", "F 64 a", "R 0 5", "R 0 0",
           "R 1 1", f"L {'a' * 32} {'b' * 32} c", "R 1 1", f"L {'b' * 33}", "L")

    # Lane.
    top = 4294967295
    v.play("K", "O 1 2", "O 1 1", "O 2 2", "O 3 2", "O 3 1")
    v.play("B", "O 0 0", "O 0 2", "O 0 1", "O 0 1", "O 0 0", "O 1 3", "O 1 2", "O 1 1", "O 0 1", "O 0 0", "O 0 5",
           "O 5 7", "O 5 6", "O 4 1", "O 5 4", "O 5 3", "O 5 1", "O 5 1", "O 6 1", "O 6 0", "O 5 0",
           "O 7 1", "O 7 9", "O 7 8", "O 9 2", "O 9 2", "O 12 3", "O 11 1")
    v.play("K", f"O {top} 0", f"O {top} {top}", f"O {top} {top}", f"O {top} 1", f"O {top} 0", f"O {top - 1} 1",
           "O 0 1", "O 0 0", f"O 0 {top}", f"O {top} 2")
    v.play("B", f"O 0 {top}", "O 0 1", f"O {top} {top}", f"O {top} {top}", f"O {top} 1", f"O {top - 1} {top}")
    v.play("K", f"O {top - 1} {top}", f"O {top} 1", f"O {top} 1", f"O {top - 1} 1", f"O {top} 0")
    v.play("K", f"O {top - 2} {top}", f"O {top - 1} {top}", f"O {top} {top}", f"O {top} 1")
    v.play("B", "O 10 3", "O 10 2", "O 13 5", "O 13 4", "O 13 3", "O 12 1", "O 14 1", "O 100 86", "O 100 85",
           "O 2147483647 2147483547", "O 2147483648 2", "O 2147483648 1", f"O {top} 2147483648",
           f"O {top} 2147483647", f"O {top} 1")
    # Pass moves the last end but not the edge.
    v.play("K", "O 4 1", "O 8 6", "O 7 1", "O 8 4", "O 9 2", "O 10 1", "O 10 2")
    # The lane is not touched by the calls of the watch.
    v.play("K", "L ab", "O 5 2", "X", "O 4 1", "F 64 ab", "O 5 1", "R 0 1", "O 6 1", "L b", "O 5 1", "L b b",
           "O 7 2", "O 8 1")


# ---------------------------------------------------------------------------
# Random cases
# ---------------------------------------------------------------------------

class Dice:
    """A small generator of numbers, the same on every machine."""

    MASK = (1 << 64) - 1

    def __init__(self, seed):
        self.state = (seed * 2 + 1) & self.MASK

    def next(self):
        x = self.state
        x ^= (x << 13) & self.MASK
        x ^= x >> 7
        x ^= (x << 17) & self.MASK
        self.state = x
        return ((x * 0x2545F4914F6CDD1D) & self.MASK) >> 32

    def below(self, n):
        return self.next() % n

    def between(self, low, high):
        return low + self.below(high - low + 1)

    def one_of(self, values):
        return values[self.below(len(values))]

    def chance(self, percent):
        return self.below(100) < percent


def mixed_case(dice, word):
    return "".join(c.upper() if dice.chance(40) else c for c in word)


def random_word(dice, letters, old, length):
    """A word of this length that likes to overlap with the old ones."""
    style = dice.below(6)
    if style == 0:
        unit = "".join(dice.one_of(letters) for _ in range(dice.between(1, 3)))
        return (unit * length)[:length]
    if style == 1 and old:                     # first part of an old word, then its like
        return (dice.one_of(old) + random_word(dice, letters, [], length))[:length]
    if style == 2 and old:                     # ends like an old word
        return (random_word(dice, letters, [], length) + dice.one_of(old))[-length:]
    if style == 3 and old:                     # out of the middle of an old word
        word = dice.one_of(old)
        start = dice.below(len(word))
        return (word[start:] + dice.one_of(old) * length)[:length]
    if style == 4:
        return letters[0] * (length - 1) + dice.one_of(letters)
    return "".join(dice.one_of(letters) for _ in range(length))


def random_words(dice, letters, count, longest, together, exact):
    """Different words; if exact, they have exactly so many characters together
    (as far as the number of words allows)."""
    words = []
    left = together
    failed = 0
    while len(words) < count and left > 0 and failed < 60:
        length = min(dice.between(1, longest), left)
        if exact:
            # What is left has to fit into the words to come.
            rest = count - len(words) - 1
            length = max(length, min(32, left - 32 * rest))
            if left <= 32 and (rest == 0 or dice.chance(30)):
                length = left
        word = random_word(dice, letters, words, length)
        if word in words:
            failed += 1
            continue
        words.append(word)
        left -= length
    return words


def load_line(dice, letters, engine, large):
    kind = dice.below(100)
    if large:
        if kind < 35:
            words = random_words(dice, letters, 128, 14, 1024, False)
        elif kind < 60:
            words = random_words(dice, letters, dice.between(33, 90), 32, 1024, True)
        elif kind < 80:
            words = random_words(dice, letters, dice.between(20, 40), 32, dice.between(300, 700), False)
        elif kind < 90:
            words = random_words(dice, letters, 128, 8, 900, False) + ["zz", "zzz"]
        else:
            words = random_words(dice, letters, 60, 32, 1025, True)
    elif kind < 4:
        words = []
    elif kind < 55:
        words = random_words(dice, letters, dice.between(1, 8), dice.between(1, 8), 64, False)
    elif kind < 65:
        words = random_words(dice, letters, dice.between(6, 20), dice.between(2, 5), 64, False)
    elif kind < 75:
        words = random_words(dice, letters, dice.between(2, 14), dice.between(4, 20), 64, True)
    elif kind < 83:
        words = random_words(dice, letters, dice.between(3, 14), dice.between(4, 20), 65, True)
    elif kind < 90:
        words = random_words(dice, letters, dice.between(4, 20), dice.between(8, 24), dice.between(66, 160), False)
    elif kind < 93:
        words = random_words(dice, letters, 2, 32, 64, True)
    elif kind < 97:                            # a same cue twice
        words = random_words(dice, letters, dice.between(1, 5), 5, 64, False)
        words.insert(dice.below(len(words) + 1), dice.one_of(words))
    else:                                      # a cue that is too long
        words = random_words(dice, letters, dice.between(1, 4), 5, 64, False)
        words.insert(dice.below(len(words) + 1), random_word(dice, letters, words, 33))
    return " ".join(["L"] + [mixed_case(dice, word) for word in words])


def follow_text(dice, letters, book):
    """Pieces of cues and other letters."""
    length = dice.one_of([0, 1, 1, 2, 3, 4, 5, 6, 7, 8, 9, 10, 12, 14, 20])
    text = ""
    while len(text) < length:
        if book.cues and dice.chance(70):
            place, n = dice.one_of(book.cues)
            word = bytes(book.material[place:place + n]).decode("ascii").lower()
            if dice.chance(50):
                word = word[:dice.between(1, n)]
            text += word
        elif dice.chance(90):
            text += dice.one_of(letters)
        else:
            text += dice.one_of("qwz789")
    return mixed_case(dice, text[:length + dice.below(3)] if length else "")


def take_line(dice, watch):
    kind = dice.below(100)
    cues = watch.cues
    if cues and kind < 55:                     # go on along the cue of the standing
        c, k = watch.standing()
        cue = cues[c] if k else dice.one_of(cues)
        return f"T {cue[k] if k < len(cue) else cue[0]}"
    if cues and kind < 80:
        return f"T {dice.one_of(dice.one_of(cues))}"
    if kind < 90:
        return f"T {dice.below(20)}"
    return f"T {dice.one_of([2048, 65535, 2047, 2049, 256, 65534, dice.below(65536)])}"


def resume_line(dice, watch):
    kind = dice.below(100)
    count = len(watch.cues)
    if kind < 12:
        return "R 0 0"
    if kind < 22:
        return f"R 0 {dice.between(1, 33)}"
    if kind < 32:
        return f"R {count + dice.one_of([0, 0, 1, 2, 100])} {dice.one_of([0, 1, 2, 32])}"
    if count == 0:
        return f"R {dice.below(3)} {dice.below(3)}"
    c = dice.below(count)
    length = len(watch.cues[c])
    if kind < 42:
        return f"R {c} {length + dice.between(1, 3)}"
    if kind < 52:
        return f"R {c} 0"
    if kind < 67:
        return f"R {c} {length}"
    return f"R {c} {dice.between(0, length)}"


def offer_line(dice, lane):
    kind = dice.below(100)
    last = lane.last_end
    if last == 4294967295:
        return f"O {last - dice.one_of([0, 0, 1, last])} {dice.one_of([0, 1, 2, last])}"
    if kind < 8:
        return f"O {max(0, last - dice.between(1, 3))} {dice.between(0, 3)}"
    if kind < 14:
        return f"O {last + dice.below(3)} 0"
    if kind < 22:
        end = last + dice.below(3)
        return f"O {end} {end + dice.between(1, 3)}"
    if kind < 23:
        return f"O 4294967295 {dice.one_of([0, 1, 2, 4294967295])}"
    end = last + dice.below(4)
    return f"O {end} {dice.between(1, 4)}"


ALPHABETS = ["ab", "ab", "ab", "abc", "abc", "xyz", "a1", "p0q", "abcd", "k9z0", "abcde", "abcdef", "0p9ym1"]


def random_script(v, dice, engine, large):
    letters = dice.one_of(ALPHABETS)
    length = dice.between(10, 60) if not large else dice.between(10, 30)
    begun = len(v.commands)
    v.say(f"N {engine}")
    if dice.chance(92):
        v.ask(load_line(dice, letters, engine, large))
    loads_left = 1 if large else 20
    while len(v.commands) - begun < length - 2:
        kind = dice.below(100)
        if kind < 34:
            line = take_line(dice, v.desk.watch)
        elif kind < 58:
            cap = dice.one_of([0, 31, 32, 32, 33, 34, 36, 40, 64, 64, 64, 64])
            line = f"F {cap} {follow_text(dice, letters, v.desk.book)}"
        elif kind < 76:
            line = resume_line(dice, v.desk.watch)
        elif kind < 81:
            line = "X"
        elif kind < 92:
            if loads_left == 0:
                continue
            loads_left -= 1
            line = load_line(dice, letters, engine, large and dice.chance(50))
        else:
            v.say(offer_line(dice, v.desk.lane))
            continue
        v.say(line)
        if dice.chance(88):
            v.say("Q")
    v.say("Q")


def random_cases(v):
    dice = Dice(20_240_613)
    for n in range(420):
        random_script(v, dice, "KB"[n % 2], False)
    for n in range(30):
        random_script(v, dice, "B" if n % 6 == 5 else "K", True)


# ---------------------------------------------------------------------------
# Files
# ---------------------------------------------------------------------------

def replay(commands):
    """The answers of a desk that reads the finished lines."""
    desk = Desk()
    return [line for command in commands for line in desk.answer(command)]


def counted(names):
    counts = {}
    for name in names:
        counts[name] = counts.get(name, 0) + 1
    return sorted(counts.items())


def answer_kind(line):
    """For the print of counts: the refusal stays, other numbers go."""
    parts = line.split(" ")
    if parts[0] == "follow":
        return f"follow ending {parts[3]}"
    if parts[0] in ("q", "e"):
        return parts[0]
    return line


def main():
    if len(sys.argv) > 2:
        sys.exit("at most one argument, the folder")
    folder = sys.argv[1] if len(sys.argv) == 2 else os.path.join("crates", "watch_vectors")

    check_model()
    v = Vectors()
    by_hand(v)
    hand_scripts, hand_commands = v.scripts, len(v.commands)
    random_cases(v)
    assert replay(v.commands) == v.answers

    os.makedirs(folder, exist_ok=True)
    for name, lines in (("stdin", v.commands), ("stdout", v.answers)):
        data = "".join(line + "\n" for line in lines).encode("ascii")
        with open(os.path.join(folder, name), "wb") as file:
            file.write(data)
        print(f"{name}: {len(lines)} lines, {len(data)} bytes")
    print(f"scripts: {v.scripts}, of these by hand {hand_scripts}")
    print(f"commands: {len(v.commands)}, of these by hand {hand_commands}")
    for name, count in counted(line[0] for line in v.commands):
        print(f"  {name}: {count}")
    print("answers:")
    for name, count in counted(answer_kind(line) for line in v.answers):
        print(f"  {name}: {count}")


if __name__ == "__main__":
    main()
