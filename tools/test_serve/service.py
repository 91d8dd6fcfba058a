"""A service over volumes in a folder, which may be limited in what it gets; and command lines that are refused."""
import os
import resource
import select
import subprocess

from common import services
from common.checks import check
from common.files import read_at
from common.processes import ran
from plain_logs import BLOCK

# the user of a service that is not to be root's, where the tests are
NOBODY = 65534


class Service(services.Service):
    """`xth serve` with some volumes in a folder, of blocks of some sizes where these are told. SIGXFSZ is ignored where that is said, else not."""

    def __init__(self, program, folder, slots, sessions, workers=4, words=(), ignores_limits=False, stdin=subprocess.DEVNULL, files=None, limit=None, sizes=None,
                 stderr=subprocess.PIPE, one_heap=False, log_bytes=262144):
        self.folder, self.files, self.sizes = folder, files or {}, sizes or {}
        volumes = [services.volume(slot, self.home(slot), self.log(slot), log_bytes, size=self.sizes.get(slot)) for slot in slots]
        # Python ignores it, and leaves that to what it starts where it restores no signal
        super().__init__([program, 'serve', *words, *services.options(*volumes, workers=workers, sessions=sessions)], stdin=stdin, stderr=stderr,
                         restore_signals=not ignores_limits, preexec_fn=limit, env=dict(os.environ, MALLOC_ARENA_MAX='1') if one_heap else None)

    def home(self, slot):
        return self.files.get(f'home{slot}') or os.path.join(self.folder, f'home{slot}')

    def log(self, slot):
        return self.files.get(f'log{slot}') or os.path.join(self.folder, f'log{slot}')

    def limit_files(self, size):
        """From here on no file may have more bytes."""
        resource.prlimit(self.process.pid, resource.RLIMIT_FSIZE, (size, size))

    def limit_memory(self, more):
        """From here on it may have so many bytes of memory more than it has; as many as it likes where that is None."""
        most = resource.RLIM_INFINITY if more is None else more + self.memory()
        resource.prlimit(self.process.pid, resource.RLIMIT_AS, (most, resource.RLIM_INFINITY))

    def memory(self):
        """How many bytes of memory it has, with what it has not touched."""
        return int(self.status()['VmSize'].split()[0]) * 1024

    def refuse_threads(self, are_refused):
        """From here on it gets no more threads, or as many as it likes. Its user is not root, who gets them all the same, and only that user may say so."""
        most = resource.getrlimit(resource.RLIMIT_NPROC)[1]
        child = os.fork()
        if child == 0:
            try:
                be_nobody()
                resource.prlimit(self.process.pid, resource.RLIMIT_NPROC, (1 if are_refused else most, most))
            finally:
                os._exit(0)
        os.waitpid(child, 0)

    def worked_seconds(self):
        """How long its threads have worked by now, on all processors together."""
        with open(f'/proc/{self.process.pid}/stat') as stat:
            fields = stat.read().rpartition(')')[2].split()
        return (int(fields[11]) + int(fields[12])) / os.sysconf('SC_CLK_TCK')

    def stored(self, slot, block):
        """What the home file of a slot has of a block."""
        size = self.sizes.get(slot, BLOCK)
        return read_at(self.home(slot), block * size, size).ljust(size, b'\0')

    def told(self):
        """The next line that it tells, or nothing where none comes in half a minute."""
        ready, _, _ = select.select([self.process.stderr], [], [], 30)
        return self.process.stderr.readline() if ready else ''

    def failed(self, part, slot, error, follows):
        """What it tells of a file of a slot that fails, by an errno."""
        name = self.home(slot) if part == 'home' else self.log(slot)
        return f'slot {slot}: {part} {name}: {os.strerror(error)} (os error {error}): {follows}\n'

    def end(self, name, status=0, err='', fails=()):
        """Waits for its end, and compares its status and what it said. Before all else it tells once of each file that fails, in the order in which
        that was seen: of which part of which slot, by which errno, and what follows."""
        ended, _, said = self.ended()
        lines = said.splitlines(keepends=True)
        told, rest = lines[:len(fails)], lines[len(fails):]
        check(f'{name}: files that fail', sorted(told), sorted(self.failed(*fail) for fail in fails))
        check(f'{name}: status and standard error', (ended, ''.join(rest)), (status, err))


def be_nobody():
    """Goes on as a user who is not root."""
    if os.geteuid() == 0:
        os.setgroups([])
        os.setgid(NOBODY)
        os.setuid(NOBODY)


def refused(program, name, words, err, status=1):
    """A command line that is refused, before anything is served."""
    ended, out, told = ran(program, 'serve', *words)
    check(name, (ended, out), (status, ''))
    check(f'{name}: {told[:200]!r} has {err!r}', err in told, True)
