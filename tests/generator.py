#!/usr/bin/env python3
"""Makes the image and the script of a number, and prints the SHA-256 of each by hashlib. It is
tests/machine/generator.py, which shares nothing with the code.

usage: tests/generator.py NUMBER [IMAGE SCRIPT]

NUMBER is from 0 to 18446744073709551615. IMAGE and SCRIPT are the files to write.

The digests in crates/bn_gen/src/tests.rt are what this prints of the numbers there, and the summary
is that of a run by tests/machine; `tests/check-tables generated` makes them anew, and compares.
"""
import hashlib
import sys

from machine import generator
from tables import values


def digests(number):
    """The digest of the image and that of the script, in hexadecimal."""
    return tuple(hashlib.sha256(made).hexdigest() for made in generator.make(number))


def check_generated(path, report):
    """Makes each number's image and script, and compares their digests; runs number 1, and compares
    the summary."""
    constants = values(path)
    for number, *wanted in constants['MADE']:
        for name, text, made in zip(('image', 'script'), wanted, digests(number)):
            report('%s of %d' % (name, number), text, made)
    _, made = generator.summary(1)
    report('summary of 1', '\n'.join(constants['SUMMARY']) + '\n', made)


def check_summary(path, report):
    """Runs number 1, and compares the summary."""
    _, made = generator.summary(1)
    report('summary of 1', ''.join(values(path)['SUMMARY']), made)


def main():
    words = sys.argv[1:]
    if len(words) not in (1, 3) or not words[0].isdecimal() or int(words[0]) >> 64:
        raise SystemExit('usage: tests/generator.py NUMBER [IMAGE SCRIPT]')
    for place, made in zip(words[1:], generator.make(int(words[0]))):
        with open(place, 'wb') as file:
            file.write(made)
    print('image %s\nscript %s' % digests(int(words[0])))


if __name__ == '__main__':
    main()
