#!/usr/bin/env python3
"""Prints the script by which the console and its twin are timed: 4,096 adds at labels of a day, then 400,000 lines that
play blocks of 512, then the log. With --finds each tenth of those lines is a find, which the console does not have yet."""
import random
import sys

finds = '--finds' in sys.argv[1:]
random.seed(5)
for number in range(1, 4097):
    h, m, s, f = (random.randrange(n) for n in (24, 60, 59, 30))
    print(f'add {number} {h:02d}:{m:02d}:{s + 1:02d};{f:02d}')
print('seek 0')
for turn in range(400_000):
    print(f'find {turn * 512}' if finds and turn % 10 == 0 else 'play 512')
print('log')
