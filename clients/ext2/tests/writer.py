"""Writes files into a folder, syncs each, and says `ok` on standard output when the sync has returned.

    writer.py FOLDER SEED
"""
import os
import random
import sys

FILES = 40


def main():
    folder, dice = sys.argv[1], random.Random(sys.argv[2])
    for number in range(FILES):
        file = os.open(os.path.join(folder, f'f{number}'), os.O_WRONLY | os.O_CREAT | os.O_EXCL, 0o644)
        os.write(file, chr(97 + number % 26).encode() * (100 + 37 * number))
        for other in range(dice.randint(0, 3)):
            with open(os.path.join(folder, f'other{other}'), 'wb') as more:
                more.write(b'x' * dice.randint(0, 90_000))
        os.fsync(file)
        os.close(file)
        os.write(1, b'ok\n')


if __name__ == '__main__':
    main()
