#!/usr/bin/env python3
"""Prints numbers as they stand in a city model, one a line: `integers`, `fractions` or `long`."""
import random
import sys

random.seed(7)
for _ in range(20_000):
    if sys.argv[1] == "integers":
        print(random.choice((1, 1, 1, -1)) * random.randrange(10 ** random.randrange(1, 8)))
    elif sys.argv[1] == "long":
        print(random.randrange(10**17, 10**18))
    else:
        print(f"{random.randrange(10**5)}.{random.randrange(10**3):03}")
