"""Lines for scripts of the console, good and damaged, for `console_model.py --make`."""
import random

LAST = 2 ** 36 - 1

# Where a made script puts its cues: round these positions, and anywhere up to NEAR.
MARKS = {
    'frames': [0, 1, 5, 1799, 1800, 1801, 17981, 17982, 107892, 2589406, 2589407],
    'bars': [0, 1, 479, 480, 1919, 1920, 13440, 15360, 15840, 16800, 31200, 32640, 32880, 34080, 4147199, 4147200],
    'film': [0, 1, 2, 3, 4, 5, 23, 24, 1439, 1440, 86399, 86400, 2073598, 2073599],
}
NEAR = {'frames': 1900, 'bars': 36000, 'film': 1500}

# How often each kind of line comes. A script of frames goes on from one that has all but finds.
KINDS = ['add', 'strike', 'find', 'seek', 'play', 'place', 'locate', 'log', 'damaged']
OFTEN = {
    'frames': [18, 18, 30, 5, 6, 2, 2, 1, 32],
    'bars': [32, 8, 16, 9, 16, 3, 3, 1.5, 6],
    'film': [32, 8, 16, 9, 16, 3, 3, 1.5, 6],
}

BAD_LABELS = ['24:00:00:00', '24:00:00;00', '23:60:00:00', '00:60:00;00', '00:00:60:00', '00:00:60;00', '00:00:00:24',
              '00:00:00:25', '00:00:00;29', '00:00:00;30', '00:01:00;00', '00:01:00;01', '00:01:00:02', '00:00:00:00',
              '00:00:00;00', '00;00;00;00', '00:00:00.00', '0:00:00:00', '00:00:00:0', '000:00:00:00', '00:00:00:000',
              '00:00:00', '00000000', '00:00:0x:00', '-0:00:00:00', '99:99:99:99', '00:00:00:23\r', 'x', '-', '1.1.0',
              '\u0660\u0660:00:00:00', '00:00:00:\u0661', 100 * '00:']
BAD_BARS = ['0.1.0', '0.0.0', '1.0.0', '1.5.0', '1.1.480', '1.4.480', '8.5.0', '9.4.0', '20.4.0', '20.3.480',
            '21.7.0', '21.1.240', '21.6.240', '65535.1.0', '65535.6.239', '65535.7.0', '65536.1.0', '65537.1.0',
            '65545.1.0', '1.257.0', '1.256.0', '1.1.4294967296', '4294967297.1.0', '1.4294967297.0',
            '1.1.18446744073709551616', '18446744073709551617.1.0', '18446744073709551615.1.0',
            '99999999999999999999.99999999999999999999.0', '1' + 30 * '0' + '.1.0', '01.1.0', '1.01.0', '1.1.00',
            '1.1.01', '1.1.0479', '00001.1.0', '1', '1.1', '1.1.', '1..0', '.1.0', '..', '.', '1.1.0.', '.1.1.0',
            '1.1.0.0', '1,1,0', '1:1:0', '1.1:0', '1.1.x', 'a.b.c', 'one', '+1.1.0', '1.+1.0', '1.-1.0', '1.1.-0',
            '1.1.1e1', '0x1.1.0', '1.1.0\r', '1.1.0\t', '1.1.\u0661', '\uff11.1.0', '00:00:00:00', '-',
            '1.1.' + 300 * '0']
DAMAGED = [b'', b' ', b'find', b'find ', b'find  1', b' find 0', b'find 0 ', b'find 0 0', b'Find 0', b'finds 0',
           b'find -1', b'find +0', b'find 0x0', b'find 1.0', b'find none', b'find 18446744073709551616', b'find 0\r',
           b'find \xff', b'find 000000000000000000000', b'find 99999999999999999999', b'f\xc3 0', b'play', b'play -1',
           b'play 1 ', b' play 1', b'play  1', b'PLAY 1', b'add 1', b'add 1 ', b'add 1 1.1.0 x', b'add 1 1. 1.0',
           b'add 1 00:00:00:00 x', b'add x 1.1.0', b'add 1 \xc0\x80', b'add  1 1.1.0', b'logs', b'log log', b'log ',
           b'strike 18446744073709551616', b'strike', b'seek 99999999999999999999', b'seek 000000000000000000000',
           b'place 1.0', b'place 1.1.0', b'locate', b'locate 1,0', b'head', b'bars', b'find\t0', '\u0131 0'.encode()]


class Maker:
    """Lines of a script, made with a deck beside, so that they can aim at its cues."""

    def __init__(self, name, seed, deck):
        self.rnd, self.deck, self.bars = random.Random(seed), deck, name == 'bars'
        self.marks, self.near, self.often = MARKS[name], NEAR[name], OFTEN[name]
        # cues that were struck, and a find that waits for its turn
        self.gone, self.next = [], None
        self.bad, self.damaged = self.turns(BAD_BARS if self.bars else BAD_LABELS), self.turns(DAMAGED)
        self.round = self.turns([max(0, mark + d) for mark in self.marks for d in (-1, 0, 1)])

    def turns(self, things):
        """All of them in one order, then in another, and so on."""
        while True:
            yield from self.rnd.sample(things, len(things))

    def cue(self):
        """The position and sample of a cue that is in, or was."""
        known = sorted(set(self.deck.book.values())) + self.gone
        return self.rnd.choice(known) if known else (0, 0)

    def position(self):
        rnd, deck = self.rnd, self.deck
        p = rnd.choice([rnd.choice(self.marks) + rnd.choice([0, 0, -1, 1]), rnd.randrange(self.near), self.cue()[0],
                        rnd.randrange(rnd.choice([self.near, deck.pile.length]))])
        if self.bars and rnd.random() < 0.4:
            # a bar line, or the beat before or after one
            start, _, ticks = rnd.choice(deck.form.bars[:rnd.choice([10, 30, 2878])])
            p = start + rnd.choice([0, 0, ticks, -ticks, -1, 1])
        if self.bars and rnd.random() < 0.08:
            p = deck.pile.length + rnd.choice([0, 1, 239, 240, rnd.randrange(deck.form.count - deck.pile.length)])
        return max(0, p)

    def text(self):
        rnd, form = self.rnd, self.deck.form
        text = form.text(min(self.position(), form.count - 1))
        kind = rnd.random()
        if kind < 0.24:
            return next(self.bad)
        if kind < 0.28:
            # a character less, more or other
            i = rnd.randrange(len(text))
            return text[:i] + rnd.choice(['', '0', '00', 'x', '9', '.', ':', ';']) + text[i + rnd.choice([0, 1]):]
        if kind < 0.33 and self.bars:
            # a part just out of its range, or just within
            bar, beat, tick = map(int, text.split('.'))
            _, beats, ticks = form.bars[bar - 1]
            return '%d.%d.%d' % rnd.choice([
                (bar, 0, tick), (bar, beats + 1, tick), (bar, beat, ticks), (bar, beats, ticks - 1),
                (bar + 65536, beat, tick), (bar, beat + 256, tick), (bar, beat, tick + 2 ** 32)])
        return text

    def number(self):
        rnd = self.rnd
        odd = rnd.choice([0, 1, 999999, 1000000, 1000001, 2 ** 32 + 1, 2 ** 64 - 1])
        return rnd.choices([rnd.randint(1, 60), rnd.randint(1, 999999), odd], [4, 8, 1])[0]

    def sample(self):
        rnd, pile = self.rnd, self.deck.pile
        beside = rnd.choice([0, 0, 0, 0, -1, 1])
        odd = rnd.choice([0, 1, LAST, LAST + 1, LAST + 2, 2 ** 64 - 1, rnd.randrange(LAST)])
        mark = pile.place(min(rnd.choice(self.marks), pile.length - 1))
        near = pile.place(rnd.randrange(self.near))
        return max(0, rnd.choices([self.cue()[1] + beside, mark + beside, near, odd], [12, 3, 2, 2])[0])

    def block(self):
        """How much a play plays: a given size, or as far as a cue, just over it, or an end."""
        rnd, deck = self.rnd, self.deck
        end = deck.pile.place(deck.pile.length - 1)
        to = rnd.choices([self.cue()[1], end, end + 1, LAST + 1, LAST + 2], [12, 1, 1, 0.5, 0.5])[0]
        sizes = [0, 1, 512, 1024, rnd.randrange(5000), rnd.randrange(100000), 2 ** 64 - 1]
        there = to - deck.head + rnd.choice([0, 1])
        return rnd.choices([rnd.choices(sizes, [2, 2, 2, 1, 2, 2, 0.2])[0], max(0, there)], [3, 2])[0]

    def add(self):
        rnd, deck = self.rnd, self.deck
        kind = rnd.random()
        if kind < 0.06:
            # two causes at once
            bad = rnd.choice(BAD_BARS if self.bars else BAD_LABELS)
            return b'add %d %s' % (rnd.choice([0, 1000000, *deck.book]), bad.encode())
        if kind < 0.2:
            mark = deck.form.text(min(next(self.round), deck.form.count - 1))
            return b'add %d %s' % (rnd.randint(1, 999999), mark.encode())
        text = self.text()
        p = deck.form.number(text)
        if p is None or p >= deck.pile.length:
            return b'add %d %s' % (rnd.randint(1, 999999), text.encode())
        if rnd.random() < 0.2:
            self.next = b'find %d' % deck.pile.place(p)
        return b'add %d %s' % (self.number(), text.encode())

    def strike(self):
        rnd, book = self.rnd, self.deck.book
        n = self.number()
        if book and rnd.random() < 0.75:
            # any cue, or the one that a find on its sample answers
            n = rnd.choice(list(book))
            n = rnd.choice([n, min(c for c in book if book[c] == book[n])])
        if n in book:
            self.gone.append(book[n])
            self.next = b'find %d' % book[n][1] if rnd.random() < 0.6 else None
        return b'strike %d' % n

    def line(self):
        rnd, deck = self.rnd, self.deck
        if self.next:
            line, self.next = self.next, None
            return line
        kind = rnd.choices(KINDS, self.often)[0]
        if kind == 'add':
            return self.add()
        if kind == 'strike':
            return self.strike()
        if kind == 'find' or kind == 'locate':
            return b'%s %s%d' % (kind.encode(), rnd.choice([b'', b'', b'', b'', b'00']), self.sample())
        if kind == 'seek':
            ends = [LAST, LAST + 1, LAST + 2, 2 ** 64 - 1]
            near = rnd.randrange(deck.pile.place(self.near))
            return b'seek %d' % rnd.choices([0, self.sample(), near, rnd.choice(ends)], [4, 6, 4, 1])[0]
        if kind == 'play':
            return b'play %d' % self.block()
        if kind == 'place':
            ends = [deck.pile.length - 1, deck.pile.length, deck.form.count, 2 ** 36, 2 ** 64 - 1]
            return b'place %d' % rnd.choice([self.position(), self.position(), rnd.choice(ends)])
        return b'log' if kind == 'log' else next(self.damaged)
