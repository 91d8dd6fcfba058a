"""Starts of a service: command lines, volumes and files that are refused, and what is made of files."""
import contextlib
import os
import re
import shutil
import socket
import subprocess

from common.checks import check
from common.files import in_a_folder, read, write
from common.processes import ran
from common.services import options, volume
from common.sessions import Client
from plain_logs import BLOCK
from test_serve.service import Service, refused


def plain(folder, slot=0, log=65536, blocks=16, home='h', name='l'):
    """A volume of sixteen blocks in a folder."""
    return volume(slot, os.path.join(folder, home), os.path.join(folder, name), log, blocks)


def unmade(folder):
    """A volume whose log can't be made."""
    return volume(1, os.path.join(folder, 'h2'), '/proc/none', blocks=16)


@in_a_folder
def command_lines(program, folder):
    """Faults of the command line, of volumes and of files."""
    refused(program, 'no option', [], '--port', 2)
    refused(program, 'no volume', options(), 'VOL', 2)
    for name, bad in (('port', '65536'), ('workers', '0'), ('workers', '9'), ('sessions', '0'), ('sessions', '1000001')):
        refused(program, f'{name} {bad}', options(plain(folder), **{name: bad}), f"'{bad}'", 2)
    words_of_volumes(program, folder)
    files_of_volumes(program, folder)
    check('nothing was made', sorted(os.listdir(folder)), ['full', 'pipe'])
    there(program, folder)
    missing = os.path.join(folder, 'none')
    refused(program, 'a missing folder', options(volume(0, f'{missing}/h', f'{missing}/l', blocks=16)), f'fault: {missing}/h: ')
    help_text = ran(program, 'serve', '--help')[1]
    check('help shows a volume, and one of small blocks', [word in help_text for word in ('0:65536:1024:vol.home:vol.log', '1:65536:8192:small.home:small.log:512')], [True, True])


def words_of_volumes(program, folder):
    """Words that name no volume, or one that can't be."""
    one = plain(folder)
    ends = (':x', ':', ':0512', ':+512', ':512:', ':512:l', ':4294967296')
    words = [plain(folder, '00'), plain(folder, '+1'), plain(folder, '16'), plain(folder, '0', '065536'), plain(folder, '0', '65536', ''), '0:65536:16::l']
    for bad in ('0', '0:65536:16:h', *(one + end for end in ends), *words):
        refused(program, f'volume {bad!r}', options(plain(folder, 1), bad), 'fault: volume\n')
    refused(program, 'a log too small', options(plain(folder, 3, 65535)), 'fault: slot 3 EINVAL\n')
    refused(program, 'no blocks', options(plain(folder, 3, blocks=0)), 'fault: slot 3 EINVAL\n')
    for bad in (0, 256, 511, 600, 8192, 4294967295):
        refused(program, f'blocks of {bad} bytes', options(plain(folder, 3) + f':{bad}'), 'fault: slot 3 EINVAL\n')
    other, bad = plain(folder, name='l2', home='h2'), plain(folder, 0, 1, name='l2', home='h2')
    refused(program, 'a slot twice, the second time with blocks of a bad size', options(one, other + ':600'), 'fault: slot 0 EBUSY\n')
    refused(program, 'a slot twice', options(one, other), 'fault: slot 0 EBUSY\n')
    refused(program, 'a slot twice, the second time with a bad size', options(one, bad), 'fault: slot 0 EBUSY\n')
    refused(program, 'a bad size before a slot twice', options(plain(folder, 0, 1), other), 'fault: slot 0 EINVAL\n')


def files_of_volumes(program, folder):
    """Files that can't be those of a volume, and a port that another has."""
    file = lambda name: os.path.join(folder, name)
    one = plain(folder)
    refused(program, 'a file twice', options(one, plain(folder, 1, home='h2')), file('l'))
    refused(program, 'one file for both', options(plain(folder, home='l')), file('l'))
    refused(program, 'a name of a folder', options(one, plain(folder, 1, home='h2/', name='l2')), f'fault: {file("h2/")}: ')
    write(file('full'), 'x')
    refused(program, 'a log that is not empty', options(one, plain(folder, 1, home='h2', name='full')), f'fault: {file("full")}: ')
    with socket.create_server(('127.0.0.1', 0)) as taken:
        port = taken.getsockname()[1]
        refused(program, 'a port in use', options(one, port=port), f'fault: port {port}: ')
    os.mkfifo(file('pipe'))
    refused(program, 'a pipe as a log', options(one, plain(folder, 1, home='h2', name='pipe')), f'fault: {file("pipe")}: ')
    refused(program, 'a pipe as a home device', options(one, plain(folder, 1, home='pipe', name='l2')), f'fault: {file("pipe")}: ')
    refused(program, 'a log that cannot be made', options(one, unmade(folder)), 'fault: /proc/none: ')


def there(program, folder):
    """What was there stays there, where another volume can't be opened."""
    home = os.path.join(folder, 'h')
    write(home, 'kept')
    refused(program, 'a log that cannot be made, beside a home device that is there', options(plain(folder), unmade(folder)), 'fault: /proc/none: ')
    check('a home device that was there', read(home), b'kept')
    check('no other file was left', sorted(os.listdir(folder)), ['full', 'h', 'pipe'])
    os.unlink(home)


@in_a_folder
def kinds_of_files(program, folder):
    """What can be a log or a home device, besides a file: a device that takes nothing, and a block device as a home device alone."""
    file = lambda name: os.path.join(folder, name)
    os.symlink('/dev/zero', file('zero'))
    write(file('there'), '')
    before = sorted(os.listdir(folder))
    for device in ('/dev/null', '/dev/zero', file('zero')):
        told = f'fault: {device}: a character device can\'t be a log or a home device\n'
        for first in ([], ['--recover']):
            refused(program, f'{device} as a log {first}', [*first, *options(volume(0, file('h'), device, blocks=16))], told)
            refused(program, f'{device} as a home device {first}', [*first, *options(volume(0, device, file('l'), blocks=16))], told)
        for name, pair in (('home device', (device, file('there'))), ('log', (file('there'), device))):
            check(f'recovery with {device} as a {name}', ran(program, 'recover', *pair), (1, '', told))
    check('nothing was made beside devices', sorted(os.listdir(folder)), before)
    with loop_device(folder) as device:
        if device:
            block_devices(program, folder, device)
        else:
            print('block devices: not tried, losetup makes none')


@contextlib.contextmanager
def loop_device(folder):
    """A block device of a megabyte over a file, or None where none can be had."""
    image = os.path.join(folder, 'image')
    with open(image, 'wb') as content:
        content.truncate(1 << 20)
    status, out, _ = ran('losetup', '--find', '--show', image) if shutil.which('losetup') else (1, '', '')
    device = out.strip() if status == 0 else None
    try:
        yield device
    finally:
        if device:
            subprocess.run(['losetup', '--detach', device], check=True)


def block_devices(program, folder, device):
    """A block device is refused as a log, also where one wrote a log there; as a home device it is served, and recovered."""
    home = os.path.join(folder, 'h')
    told = f'fault: {device}: a block device has no length, so it can\'t be a log\n'
    for first in ((), ('--recover',)):
        refused(program, f'a block device as a log {first}', [*first, *options(volume(0, home, device, blocks=16))], told)
    write(home, '')
    for first in ((), ('--cut',)):
        check(f'recovery from a block device {first}', ran(program, 'recover', *first, home, device), (1, '', told))
    service = Service(program, folder, (0,), 1, files={'home0': device})
    with Client(service.port) as client:
        client.change('0.1', 7, 0, b'abc')
        client.force('0.1')
        service.killed()
    again = Service(program, folder, (0,), 1, words=('--recover', '--cut-logs'), files={'home0': device})
    with Client(again.port) as client:
        trans = client.begin('0.1', 700)
        client.request(f'0.1 read {trans} 7')
        check('a block device as a home device is recovered', client.ask(f'0.1 view {trans} 7'), 'data 616263.00*4093')
    again.end('a block device as a home device', 0, 'note: --cut-logs does nothing more beside --recover\nslot 0: recovered 1 texts 1 blocks\n')
    check('a block device has what was written', again.stored(0, 7), b'abc'.ljust(BLOCK, b'\0'))


def traced(program, folder, volumes):
    """The names of what a service syncs before it listens, in order, as strace shows them; None where there is no strace that may look."""
    log = os.path.join(folder, 'trace')
    trace = ['strace', '-f', '-y', '-e', 'trace=fsync,fdatasync,write', '-o', log]
    if not shutil.which('strace') or ran(*trace, '/bin/true')[0] != 0:
        return None
    subprocess.run([*trace, program, 'serve', '--until-stdin-ends', *options(*volumes)], stdin=subprocess.DEVNULL, stdout=subprocess.PIPE, check=True, timeout=60)
    with open(log) as lines:
        before = lines.read().split('"listening', 1)[0]
    return re.findall(r'fsync\(\d+<([^>]*)>\) *= 0', before)


@in_a_folder
def names_are_synced(program, folder):
    """A file that is made is synced with its folder before the service listens; one that was there is not."""
    folder = os.path.realpath(folder)
    file = lambda name: os.path.join(folder, name)
    os.mkdir(file('far'))
    os.symlink(file('far/l'), file('link'))
    write(file('there'), '')
    synced = traced(program, folder, [plain(folder, name='link'), plain(folder, 1, home='there')])
    if synced is None:
        print('names of files: not tried, there is no strace')
    else:
        check('what is synced before a service listens', synced, [file('h'), folder, file('far/l'), file('far'), file('l'), folder])


@in_a_folder
def in_use(program, folder):
    """The files of a service that runs are no other's: no service's, by no other name, and no recovery's. At its end they are free."""
    service = Service(program, folder, (0, 1), 1)
    home, log, link, log_link, other = service.home(0), service.log(0), *(os.path.join(folder, name) for name in ('link', 'loglink', 'other'))
    os.link(home, link)
    os.link(log, log_link)
    write(other, '')
    files = sorted(os.listdir(folder))
    serve = lambda slot, *pair: ('serve', *options(volume(slot, *pair, blocks=16)))
    for name, file, words in (
        ('a service over the same files', home, serve(0, home, log)),
        ('a service over the same home', home, serve(3, home, f'{log}3')),
        ('a service over a hard link', link, serve(0, link, f'{log}3')),
        ('a service over the same log', log, serve(3, other, log)),
        ('a service over the same log and a new home', log, serve(3, f'{home}3', log)),
        ('a service over a hard link to a log', log_link, serve(3, other, log_link)),
        ('a recovery of the same files', home, ('recover', home, log)),
        ('a recovery from the same log', log, ('recover', other, log)),
        ('a recovery that empties the same log', log_link, ('recover', '--cut', other, log_link)),
    ):
        check(name, ran(program, *words), (1, '', f'fault: {file}: in use\n'))
    check('nothing was made beside a service', sorted(os.listdir(folder)), files)
    with Client(service.port) as client:
        client.change('0.1', 1, 0, b'abc')
    service.end('a service whose files others wanted')
    again = Service(program, folder, (0, 1), 1, words=('--recover',))
    Client(again.port).close()
    again.end('files that are free again', 0, 'slot 0: recovered 1 texts 1 blocks\nslot 1: nothing to recover\n')


@in_a_folder
def one_log_twice(program, folder):
    """Two volumes of one service never have one log: not by a hard link, and not by a symbolic link to a log that is not there yet."""
    file = lambda name: os.path.join(folder, name)
    words = lambda link: options(plain(folder), plain(folder, 1, home='h2', name=link))
    os.symlink(file('l'), file('symlink'))
    refused(program, 'a symbolic link to a log that is not there', words('symlink'), f'fault: {file("symlink")}: in use\n')
    check('no file was left beside a symbolic link', os.listdir(folder), ['symlink'])
    write(file('l'), '')
    refused(program, 'a symbolic link to a log', words('symlink'), f'fault: {file("symlink")} is named twice\n')
    os.link(file('l'), file('link'))
    refused(program, 'a hard link to a log', words('link'), f'fault: {file("link")}: in use\n')
    check('no file was left beside a hard link', sorted(os.listdir(folder)), ['l', 'link', 'symlink'])


@in_a_folder
def links_to_missing_files(program, folder):
    """What a symbolic link leads to is made, and taken away where a later volume can't be opened. The links stay."""
    file = lambda name: os.path.join(folder, name)
    os.mkdir(file('far'))
    os.symlink('far/h', file('home'))
    os.symlink(file('second'), file('log'))
    os.symlink('far/l', file('second'))
    found = lambda: (sorted(os.listdir(folder)), sorted(os.listdir(file('far'))))
    linked = plain(folder, home='home', name='log')
    before = found()
    refused(program, 'links before a log that cannot be made', options(linked, unmade(folder)), 'fault: /proc/none: ')
    check('what links lead to was taken away', found(), before)
    write(file('far/h'), 'x')
    refused(program, 'links, one to a file', options(linked, unmade(folder)), 'fault: /proc/none: ')
    check('what was there stays', found(), (before[0], ['h']))
    os.unlink(file('far/h'))
    check('a service over links', ran(program, 'serve', '--until-stdin-ends', *options(linked))[0], 0)
    check('what links lead to was made', found(), (before[0], ['h', 'l']))


def no_addresses(program):
    """Words that are no addresses, and options that do not go together."""
    for word in ('7070', 'unix:', '127.0.0.1:65536', '0.0.0.0:1'):
        refused(program, f'listen {word}', ['--listen', word, volume(0, 'h', 'l', blocks=64)], f"fault: listen '{word}': it is neither 127.0.0.1:PORT nor unix:PATH\n")
    for words in (['--port', '0'], ['--sessions', '1']):
        ended, out, _ = ran(program, 'serve', '--listen', '127.0.0.1:0', *words, volume(0, 'h', 'l', blocks=64))
        check(f'--listen beside {words[0]}', (ended, out), (2, ''))
