"""What the recorders share: the input of a program that replays, and the lines that it has to print."""
import argparse
import os
import sys


def arguments():
    """The program to ask, and how many fresh cases to compare without recording any."""
    p = argparse.ArgumentParser()
    p.add_argument('oracle')
    p.add_argument('--fresh', type=int)
    p.add_argument('--seed', type=int, default=1)
    a = p.parse_args()
    if not (os.path.isfile(a.oracle) and os.access(a.oracle, os.X_OK)):
        sys.exit('%s is no program: nothing is compared or recorded' % a.oracle)
    return a


def write(made):
    for crate, data, lines in made:
        os.makedirs('crates/' + crate, exist_ok=True)
        with open('crates/%s/stdin' % crate, 'wb') as f:
            f.write(data)
        with open('crates/%s/stdout' % crate, 'w') as f:
            f.write('\n'.join(lines) + '\n')
