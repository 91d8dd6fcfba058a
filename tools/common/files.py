"""Files of a test, and the folders in which they are."""
import functools
import os
import tempfile


def in_a_folder(part):
    """A part of a test that has a temporary folder of its own, as its argument `folder`."""
    @functools.wraps(part)
    def within(*arguments):
        with tempfile.TemporaryDirectory() as folder:
            return part(*arguments, folder=folder)
    return within


def read(*path):
    """The bytes of a file."""
    with open(os.path.join(*path), 'rb') as file:
        return file.read()


def read_text(*path):
    """The text of a file."""
    return read(*path).decode()


def read_at(path, first, count):
    """So many bytes of a file, from `first` on, or as many as there are."""
    with open(path, 'rb') as file:
        file.seek(first)
        return file.read(count)


def write(path, content):
    """Writes a file, of bytes or of text."""
    with open(path, 'wb') as file:
        file.write(content.encode() if isinstance(content, str) else content)


def write_script(path, line):
    """Writes a script of the shell, of one line."""
    write(path, f'#!/bin/sh\n{line}\n')
    os.chmod(path, 0o755)
