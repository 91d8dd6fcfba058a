#!/usr/bin/env python3
"""Tells Prometheus what each volume of a running service does, over the package of clients/python.

    examples/exporter.py [--listen HOST:PORT] ADDRESS    answers GET /metrics at 127.0.0.1:9702, or where it is said, until ^C
    examples/exporter.py --once ADDRESS                  prints the same once

ADDRESS is where `xth serve` listens: PORT, HOST:PORT or unix:PATH. Each answer is one session of the service, which changes nothing. While that is not
reached the answer is 503. Behind `listening` it prints where it listens.
"""
import argparse
import http.server
import os
import sys

from client import Session
from mounts import address, looks

# seconds that one answer may take: a service that is full gives no session until one ends
LIMIT = 10
TYPE = 'text/plain; version=0.0.4; charset=utf-8'
# each gauge: its name behind `refskold_`, what it is, and what it is of a look
GAUGES = (
    ('live', '1 where the volume is live, 0 where it was shut.', lambda look: look.state == 'live'),
    ('frozen', '1 where the volume opens no transaction.', lambda look: look.stat.frozen),
    ('transactions', 'Open transactions, of 32.', lambda look: look.stat.transactions),
    ('busy_blocks', 'Blocks that are locked, held or on a list, of 64.', lambda look: look.stat.busy),
    ('idle_blocks', 'Blocks that nobody uses and that are kept, of 64.', lambda look: look.stat.idle),
    ('commit_list_blocks', 'Blocks of the commit list.', lambda look: look.stat.committed),
    ('commit_list_bytes', 'Bytes that a checkpoint of the commit list would have.', lambda look: look.stat.cost),
    ('flight_checkpoint', 'Number of the checkpoint that is being written, 0 for none.', lambda look: look.stat.flight),
    ('active_list_blocks', 'Blocks that are on the log and not home.', lambda look: look.stat.active),
    ('active_list_checkpoint', 'Least number of a checkpoint on the active list, 0 for none.', lambda look: look.stat.least),
    ('log_granted_bytes', 'Log bytes granted to open transactions.', lambda look: look.stat.granted),
    ('log_used_bytes', 'Log bytes in use, those granted among them.', lambda look: look.stat.used),
    ('log_free_bytes', 'Log bytes that are free.', lambda look: look.stat.free),
    ('jobs_owed', 'Jobs that are owed and not posted, at most 2.', lambda look: look.stat.owed),
    ('jobs_outstanding', 'Jobs that are posted and not finished, at most 2.', lambda look: look.stat.outstanding),
)


def gauge(name, what, of, mounts):
    """The lines of a gauge: what it is, and a value for each volume."""
    values = [f'refskold_{name}{{slot="{look.slot}",life="{look.life}"}} {int(of(look))}' for look in mounts]
    return [f'# HELP refskold_{name} {what}', f'# TYPE refskold_{name} gauge', *values]


def metrics(address):
    """What a service has, in the text format of Prometheus."""
    with Session(*address) as session:
        session.socket.settimeout(LIMIT)
        mounts = [look for look in looks(session) if look.stat is not None]
    return ''.join(line + '\n' for of_one in GAUGES for line in gauge(*of_one, mounts))


class Answers(http.server.BaseHTTPRequestHandler):
    """Answers GET /metrics; a client that says nothing is not waited for."""
    timeout = LIMIT
    address = None

    def do_GET(self):
        if self.path.partition('?')[0] not in ('/', '/metrics'):
            self.answer(404, 'there is /metrics\n')
            return
        try:
            self.answer(200, metrics(self.address))
        except (OSError, OverflowError, ValueError) as fault:
            self.answer(503, f'{fault}\n')

    def answer(self, status, text):
        body = text.encode()
        self.send_response(status)
        self.send_header('Content-Type', TYPE if status == 200 else 'text/plain; charset=utf-8')
        self.send_header('Content-Length', str(len(body)))
        self.end_headers()
        self.wfile.write(body)

    def log_message(self, *_):
        """Nothing is told of each answer: one comes every few seconds, for ever."""


def serve(host, port, address):
    """Answers until ^C."""
    handler = type('AnswersOf', (Answers,), {'address': address})
    with http.server.ThreadingHTTPServer((host, port), handler) as server:
        print(f'listening http://{host}:{server.server_port}/metrics', flush=True)
        server.serve_forever()


def listening(word):
    """A word that tells where to listen."""
    host, colon, port = word.rpartition(':')
    if not (colon and host and port.isdecimal()):
        raise argparse.ArgumentTypeError(f'{word!r} is no HOST:PORT')
    return host, int(port)


def main():
    parser = argparse.ArgumentParser(description=__doc__, formatter_class=argparse.RawDescriptionHelpFormatter)
    parser.add_argument('--once', action='store_true')
    parser.add_argument('--listen', type=listening, default=('127.0.0.1', 9702), metavar='HOST:PORT')
    parser.add_argument('address', type=address, metavar='ADDRESS')
    asked = parser.parse_args()
    if asked.once:
        print(metrics(asked.address), end='')
    else:
        serve(*asked.listen, asked.address)


if __name__ == '__main__':
    try:
        main()
    except KeyboardInterrupt:
        pass
    except BrokenPipeError:
        os.dup2(os.open(os.devnull, os.O_WRONLY), sys.stdout.fileno())
    except (OSError, OverflowError, ValueError) as fault:
        sys.exit(f'exporter: {fault}')
