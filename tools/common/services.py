"""Services of a built program: the words of their command lines, where they listen, and their end."""
import os
import subprocess

from common import processes


def volume(slot, home, log, log_bytes=65536, blocks=1024, size=None):
    """A volume, as a word of the command line."""
    return f'{slot}:{log_bytes}:{blocks}:{home}:{log}' + ('' if size is None else f':{size}')


def volume_in(folder, slot, **measures):
    """The same of files in a folder that have its slot in their names."""
    return volume(slot, os.path.join(folder, f'home{slot}'), os.path.join(folder, f'log{slot}'), **measures)


def options(*volumes, port=0, workers=1, sessions=1):
    """The words behind `serve` for a service that ends behind so many sessions."""
    return ['--port', str(port), '--workers', str(workers), '--sessions', str(sessions), *volumes]


class Service:
    """A process that serves, from the line by which it says where it listens to its end. `line` is empty of one that is refused."""

    def __init__(self, words, **how):
        self.process = processes.start(words, **{'stdin': subprocess.DEVNULL, 'stdout': subprocess.PIPE, 'stderr': subprocess.PIPE, 'text': True, **how})
        self.line = self.process.stdout.readline().rstrip('\n')

    @property
    def port(self):
        """Where it listens. Where it does not, what it said instead is raised."""
        word, _, port = self.line.partition(' ')
        if word != 'listening':
            raise ValueError(f'a service says {self.line!r}, and ends: {self.ended()!r}')
        return int(port)

    def status(self):
        """What the system says of the process, by its names."""
        with open(f'/proc/{self.process.pid}/status') as lines:
            return dict(line.rstrip().split(':', 1) for line in lines)

    def ended(self, seconds=120):
        """Waits for its end, which that of its standard input may bring: its status, and what it wrote besides on standard output and standard error."""
        out, err = self.process.communicate(timeout=seconds)
        processes.forget(self.process)
        return self.process.returncode, out, err

    def killed(self):
        """The same of one that is ended at once."""
        self.process.kill()
        return self.ended()
