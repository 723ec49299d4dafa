"""What the sweep of src/asked.rs must print, from document 01 alone: an image of one desk, hand-in, turns, recovery, and the question.

A ticket is finished if its number is at most the last finished one, begun if place is not 0 and the record has its number.
Document 01's words are used, its numbers too; causes that no row meets are left out.
"""
BOARD, LOCKS, RECORD = 8, 520, 584
COUNT, PLACE, ENTRIES, INTENTION, OWNERSHIP, NUMBER, LAST, OWN, STEPS = (RECORD + o for o in (0, 1, 2, 6, 7, 8, 9, 10, 18))
TOP = 1 << 63
TAKE, DROP, LITERAL, SUM, END = 1, 2, 3, 4, 8
ENOUGH = 10**6


def step(kind, a=0, b=0, c=0):
    return kind << 48 | a << 32 | b << 16 | c


def fields(word):
    return word >> 48, word >> 32 & 0xFFFF, word >> 16 & 0xFFFF, word & 0xFFFF


def index(word_number):
    return BOARD + word_number if word_number < 512 else OWN + word_number - 512


class Image:
    def __init__(self):
        self.words = [1, 1] + [0] * 664
        self.left = ENOUGH
        self.at = None  # the working place: step and turn, or idle

    def put(self, i, value):
        if self.left:
            self.words[i] = value
            self.left -= 1

    def hand_in(self, number, args, steps):
        w = self.words
        if self.at or w[COUNT] or w[PLACE]:
            return "refused 2"
        if number <= w[LAST]:
            return "refused 3"
        self.put(NUMBER, number)
        for base, values in ((OWN, args), (STEPS, steps)):
            for i, value in enumerate(values):
                self.put(base + i, value)
        self.put(COUNT, len(steps))
        self.at = (0, 0)
        return "taken"

    def logged(self, s, turn, target, value):
        active = self.words[PLACE] >> 63
        spare = 1 - active
        self.put(
            *[
                (ENTRIES + 2 * spare, target),
                (ENTRIES + 2 * spare + 1, value),
                (PLACE, s + 1 + TOP * spare),
                (target, self.words[ENTRIES + 2 * active + 1]),
            ][turn]
        )

    def value(self, word):
        kind, _, b, c = fields(word)
        if kind == LITERAL:
            return 65536 * b + c
        return (self.words[index(b)] + self.words[index(c)]) % 2**64

    def take(self, s, t, bay):
        w = self.words
        if t == 0:
            self.put(INTENTION, w[INTENTION] | 1 << bay)
        elif t == 1:
            assert w[LOCKS + bay] == 0  # one desk alone never waits
            self.put(LOCKS + bay, 1)
        else:
            self.logged(s, t - 2, OWNERSHIP, w[OWNERSHIP] | 1 << bay)

    def drop(self, s, t, bay):
        w = self.words
        if t < 4:
            self.logged(s, t, OWNERSHIP, w[OWNERSHIP] & ~(1 << bay))
        elif t == 5:
            self.put(INTENTION, w[INTENTION] & ~(1 << bay))
        elif w[LOCKS + bay] == 1:
            self.put(LOCKS + bay, 0)

    def end(self, t):
        self.put(*[(LAST, self.words[NUMBER]), (PLACE, 0), (COUNT, 0)][t])

    def turn(self):
        s, t = self.at
        word = self.words[STEPS + s]
        kind, a, _, _ = fields(word)
        turns = {TAKE: 6, DROP: 6, LITERAL: 4, SUM: 4, END: 3}[kind]
        if kind == TAKE:
            self.take(s, t, a)
        elif kind == DROP:
            self.drop(s, t, a)
        elif kind == END:
            self.end(t)
        else:
            self.logged(s, t, index(a), self.value(word))
        self.at = (s, t + 1) if t + 1 < turns else None if kind == END else (s + 1, 0)

    def held_after(self, s):
        held = 0
        for kind, a, _, _ in map(fields, self.words[STEPS : STEPS + s + 1]):
            held = held | 1 << a if kind == TAKE else held & ~(1 << a) if kind == DROP else held
        return held

    def recover(self, left):
        w = self.words
        self.left = left
        named = (w[PLACE] & ~TOP) - 1  # the step that place names
        takes = w[PLACE] and fields(w[STEPS + named])[0] == TAKE
        owed = 0 if not w[PLACE] else self.held_after(named) if takes else w[OWNERSHIP]
        for bay in range(64):
            if w[INTENTION] >> bay & 1:
                self.put(LOCKS + bay, 0)
        self.put(INTENTION, owed)
        if not w[PLACE] and w[COUNT]:
            self.put(COUNT, 0)
        for bay in range(64):
            if owed >> bay & 1:
                self.put(LOCKS + bay, 1)
        # the target store is a take's last turn, and the fourth of a drop and of an assignment
        self.at = (named, 5 if takes else 3) if w[PLACE] else None
        self.left = ENOUGH

    def standing(self, number):
        w = self.words
        if number <= w[LAST]:
            return "finished"
        return "begun" if w[PLACE] and w[NUMBER] == number else "not begun"


def row(stores, recovered, args, steps):
    image = Image()
    image.left = stores
    image.hand_in(1, args, steps)
    while image.left:
        image.turn()
    image.recover(recovered)
    image.recover(ENOUGH)
    told = []
    for _ in range(2):
        told.append(image.standing(1) + ", " + image.hand_in(1, args, steps))
        while image.at:
            image.turn()
    w = image.words
    return f"{stores}: {told[0]}; {told[1]}; cell {w[BOARD + 24]}, number {w[LAST]}"


def main():
    for argument, assignment in ((0, step(LITERAL, 24, 0, 5)), (5, step(SUM, 24, 24, 512))):
        steps = [step(TAKE, 3), assignment, step(DROP, 3), step(END)]
        for recovered in range(4):
            print(f"{assignment:016x}, recovery cut after {recovered}")
            for stores in range(34):
                print(row(stores, recovered, [argument] + [0] * 7, steps))


main()
