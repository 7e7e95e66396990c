#!/usr/bin/env python3
"""A plain model of the console by the rules in docs/, sharing no code with it: exact fractions, a dictionary for the
book, no halving. `console_model.py < script` prints what the console must print; `console_model.py --make N SEED`
prints a script of N lines, good and damaged. crates/console/stdout was made with it."""
import random
import re
import sys
from fractions import Fraction
from math import ceil

LAST = 2 ** 36 - 1
FRAMES = 2589409
RATE = Fraction(30000, 1001)


def place(p):
    return ceil(p * Fraction(48000) / RATE) if p < FRAMES else None


def locate(s):
    # the least p with place(p) >= s: p * 48000 / RATE > s - 1
    if s == 0:
        return 0
    p = int((s - 1) * RATE / 48000) + 1
    return min(p, FRAMES)


def labels():
    """Every 30 drop label of a day in order, by counting frames and leaving labels out."""
    for h in range(24):
        for m in range(60):
            for s in range(60):
                for f in range(30):
                    if m % 10 and s == 0 and f < 2:
                        continue
                    yield '%02d:%02d:%02d;%02d' % (h, m, s, f)


TEXT = list(labels())
NUMBER = {t: n for n, t in enumerate(TEXT)}
assert len(TEXT) == 2589408


def current(s):
    p = locate(s + 1)
    if p == 0 or p == FRAMES or p - 1 >= len(TEXT):
        return '-'
    return TEXT[p - 1]


class Deck:
    def __init__(self):
        self.book, self.log, self.head = {}, [], 0

    def add(self, n, text):
        if not 1 <= n <= 999999:
            return 'refused 20'
        if n in self.book:
            return 'refused 21'
        if text not in NUMBER:
            return 'refused 18'
        if NUMBER[text] >= FRAMES:
            return 'refused 17'
        if len(self.book) >= 4096:
            return 'refused 22'
        self.book[n] = NUMBER[text]
        return 'ok'

    def strike(self, n):
        if not 1 <= n <= 999999:
            return 'refused 20'
        if n not in self.book:
            return 'refused 23'
        del self.book[n]
        return 'ok'

    def seek(self, h):
        if h > LAST + 1:
            return 'refused 24'
        self.head = h
        return 'ok'

    def play(self, n):
        if self.head + n > LAST + 1:
            return 'refused 24'
        hit = [(p, c) for c, p in self.book.items() if self.head <= place(p) < self.head + n]
        if 65535 - len(self.log) < len(hit):
            return 'refused 25'
        for p, c in sorted(hit):
            self.log.append('%d %d %s' % (c, place(p), current(place(p))))
        self.head += n
        return 'ok %d' % len(hit)


def number(word):
    if re.fullmatch(rb'[0-9]{1,20}', word) and int(word) < 2 ** 64:
        return int(word)
    return None


def answer(deck, line):
    try:
        line.decode('utf-8')
    except UnicodeDecodeError:
        return ['unreadable']
    words = line.split(b' ')
    if words == [b'log']:
        return deck.log
    if len(words) == 3 and words[0] == b'add' and number(words[1]) is not None and words[2]:
        return [deck.add(number(words[1]), words[2].decode())]
    if len(words) == 2 and number(words[1]) is not None:
        n = number(words[1])
        verb = words[0]
        if verb == b'strike':
            return [deck.strike(n)]
        if verb == b'seek':
            return [deck.seek(n)]
        if verb == b'play':
            return [deck.play(n)]
        if verb == b'place':
            return [str(place(n)) if n < FRAMES else 'refused 17']
        if verb == b'locate':
            return [str(locate(n))]
    return ['unreadable']


def make(count, seed):
    rnd = random.Random(seed)
    near = [0, 1, 1601, 1602, 1603, 8008, 4147195853, 4147195854, LAST, LAST + 1, LAST + 2, 2 ** 64 - 1]
    for _ in range(count):
        n = rnd.choice([rnd.randint(1, 12), rnd.randint(1, 12), rnd.randint(0, 1000001)])
        text = TEXT[rnd.choice([rnd.randrange(40), rnd.randrange(1790, 1810), rnd.randrange(len(TEXT))])]
        if rnd.random() < 0.08:
            text = rnd.choice(['00:01:00;00', '00:01:00:02', '24:00:00;00', '0:00:00;00', 'x', '00:00:60;00', '00:00:00;30', '-'])
        s = rnd.choice([rnd.choice(near), rnd.randrange(70000), rnd.randrange(2900000), rnd.randrange(LAST)])
        k = rnd.choice([0, 1, 512, 1601, 1602, rnd.randrange(70000), rnd.randrange(3000000)])
        kind = rnd.randrange(20)
        if kind < 7:
            yield 'add %d %s' % (n, text)
        elif kind < 9:
            yield 'strike %d' % n
        elif kind < 11:
            yield 'seek %d' % rnd.choice([s, rnd.randrange(60000), 0])
        elif kind < 15:
            yield 'play %d' % k
        elif kind < 16:
            yield 'place %d' % rnd.choice([n, rnd.randrange(FRAMES + 2)])
        elif kind < 17:
            yield 'locate %d' % s
        elif kind < 18:
            yield 'log'
        else:
            yield rnd.choice(['', ' ', 'play', 'play -1', 'play 1 ', ' play 1', 'play  1', 'PLAY 1', 'add 1', 'add 1 00:00:00;00 x', 'logs',
                              'seek 99999999999999999999', 'seek 000000000000000000000', 'place 1.0', 'log log', 'strike 18446744073709551616'])


def main():
    if len(sys.argv) == 4 and sys.argv[1] == '--make':
        for line in make(int(sys.argv[2]), int(sys.argv[3])):
            print(line)
        return
    data = sys.stdin.buffer.read()
    lines = data.split(b'\n')
    if lines[-1] == b'':
        lines.pop()
    deck = Deck()
    for line in lines:
        for said in answer(deck, line):
            print(said)


main()
