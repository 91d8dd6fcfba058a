"""Commands on terminals of their own."""
import errno
import os
import pty
import subprocess
import threading

from common import processes


def read_all(terminal):
    """What was written to a terminal that nobody has open any more."""
    shown = b''
    try:
        while part := os.read(terminal, 4096):
            shown += part
    except OSError as error:
        if error.errno != errno.EIO:
            raise
    return processes.decoded(shown.replace(b'\r\n', b'\n'))


class Terminal:
    """A terminal, whose other end is read while a command runs, since it holds only some thousand bytes."""

    def __init__(self):
        self.ours, self.theirs = pty.openpty()
        self.shown = ''
        self.reading = threading.Thread(target=self._read, daemon=True)

    def _read(self):
        self.shown = read_all(self.ours)

    def start(self):
        """The command has it now, and nobody else."""
        os.close(self.theirs)
        self.reading.start()

    def end(self):
        """What was shown, once the command has ended."""
        self.reading.join(60)
        os.close(self.ours)
        return self.shown


def ran_on_a_terminal(*words, said=b'', seconds=120, **how):
    """What a command that is told this makes of words where its standard error is a terminal: its status, what it wrote on standard output, and what is shown."""
    terminal = Terminal()
    process = processes.start(words, stdin=subprocess.PIPE, stdout=subprocess.PIPE, stderr=terminal.theirs, **how)
    terminal.start()
    try:
        out, _ = process.communicate(said, timeout=seconds)
    finally:
        processes.end(process)
        shown = terminal.end()
    return process.returncode, processes.decoded(out), shown
