"""A repository in a folder, for what tests paste and run there: all of it by links, but for tools that say or run what the test has."""
import os
import re
import signal
import subprocess
import tempfile
from shlex import quote

# a block of a page that is pasted, and what it is to print
BLOCK = re.compile(r'^```sh\n(.*?)^```\n(?:\n```text\n(.*?)^```\n)?', re.MULTILINE | re.DOTALL)


def link_all(source, target, but=()):
    """Makes a folder with a link to each thing in another, but for some."""
    os.makedirs(target)
    for name in os.listdir(source):
        if name not in but:
            os.symlink(os.path.join(source, name), os.path.join(target, name))


def command(path, lines):
    """Makes a command of the shell."""
    with open(path, 'w', encoding='utf-8') as file:
        file.write(f'#!/bin/sh\n{lines}\n')
    os.chmod(path, 0o755)


def make(root, place, tools, but=()):
    """Makes the repository, with these tools in the place of its own, each as lines of the shell; what is left out is left to the caller."""
    link_all(root, place, ('tools', *but))
    link_all(os.path.join(root, 'tools'), os.path.join(place, 'tools'), tools)
    for name, lines in tools.items():
        command(os.path.join(place, 'tools', name), lines)


def xth(program):
    """A `tools/xth` that runs a program, or says where it is."""
    program = quote(program)
    return f'case "$*" in *--path) echo {program} ;; *) exec {program} "$@" ;; esac'


def run(place, commands, seconds):
    """What commands print, and what is wrong with their end, if anything is. Nothing that they started goes on."""
    with tempfile.TemporaryFile('w+') as out, tempfile.TemporaryFile('w+') as err:
        with subprocess.Popen(['bash', '-eu', '-c', commands], cwd=place, start_new_session=True,
                              stdin=subprocess.DEVNULL, stdout=out, stderr=err) as shell:
            try:
                shell.wait(timeout=seconds)
            except subprocess.TimeoutExpired:
                pass
            status = shell.poll()
            try:
                os.killpg(shell.pid, signal.SIGKILL)
            except ProcessLookupError:
                pass
        out.seek(0)
        err.seek(0)
        return out.read(), '' if status == 0 else f'status {status}: {err.read()}'
