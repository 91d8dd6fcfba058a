"""What the tools in Python share: how they are called, programs that are there, and where files are kept meanwhile."""
import os
import subprocess
import sys

MEMORY = '/dev/shm'
# what the files of a tool take at most, several times over
ROOM = 1 << 28


def words(doc):
    """The words that a tool is called with. With `--help` among them it prints what it is for, and ends well."""
    given = sys.argv[1:]
    if '--help' in given or '-h' in given:
        print(doc.strip())
        sys.exit(0)
    return given


def misused(doc):
    """Ends a tool whose words are none that it knows, and says how it is called."""
    print('\n'.join(line for line in doc.splitlines() if line.startswith('    ')), file=sys.stderr)
    sys.exit(2)


def program(word):
    """Where a program is; the tool ends where there is none."""
    if not (os.path.isfile(word) and os.access(word, os.X_OK)):
        print(f'{os.path.basename(sys.argv[0])}: there is no program {word}', file=sys.stderr)
        sys.exit(2)
    return os.path.abspath(word)


def built():
    """The program of the `xth` beside the tool, proved or quick; a link to the tool has another beside it. Where that builds none, and has said why, the
    tool ends with its status."""
    xth = os.path.join(os.path.dirname(os.path.abspath(sys.argv[0])), 'xth')
    ran = subprocess.run([xth, '--path'], stdout=subprocess.PIPE, text=True)
    if ran.returncode != 0:
        sys.exit(ran.returncode)
    return ran.stdout.rstrip('\n')


def in_memory():
    """A folder in memory for files that are kept meanwhile, since a disk would only make it slow. None, for the usual one, where TMPDIR names another, and where there is no
    such folder or too little room in it: in a container it often has 64 MB."""
    if 'TMPDIR' in os.environ or not os.access(MEMORY, os.W_OK):
        return None
    room = os.statvfs(MEMORY)
    return MEMORY if room.f_bavail * room.f_frsize >= ROOM else None
