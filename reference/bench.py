"""The numbers of sightings that the benchmark must print, worked out by plain string search.

usage: python3 reference/bench.py > crates/bench/stdout
"""

MASK = (1 << 64) - 1


class Dice:
    """A linear congruential generator of 64 bits."""

    def __init__(self, seed):
        self.state = seed

    def roll(self, sides):
        self.state = (self.state * 6364136223846793005 + 1442695040888963407) & MASK
        return (self.state >> 33) % sides


def letter(dice):
    return chr(97 + dice.roll(20))


def make_book(dice, cues, most):
    """Cues of 2 letters and up, cut from random letters one behind the other; a same cue is left out."""
    letters = "".join(letter(dice) for _ in range(1000))
    book, place = [], 0
    for _ in range(cues):
        length = dice.roll(most) + 2
        cue = letters[place:place + length]
        if len(cue) == length and cue not in book:
            book.append(cue)
        place += length
    return book


def occurrences(text, cue):
    count, at = 0, text.find(cue)
    while at >= 0:
        count += 1
        at = text.find(cue, at + 1)
    return count


def main():
    dice = Dice(1)
    for cues, most, names in ((100, 6, ("naive", "link")), (16, 3, ("naive", "link", "bit"))):
        book = make_book(dice, cues, most)
        text = "".join(letter(dice) for _ in range(1000000))
        total = sum(occurrences(text, cue) for cue in book)
        print("%d cues: %s" % (len(book), ", ".join("%s %d" % (name, total) for name in names)))


main()
