"""Lines a second of a service."""
import threading
import time

from common.files import in_a_folder
from common.sessions import Client
from test_serve.service import Service

LINES, WINDOW = 256_000, 64


def figures(program):
    """Lines a second of requests that change nothing, with one client and with sixteen."""
    for count in (1, 16):
        lines_a_second(program, count)


@in_a_folder
def lines_a_second(program, count, folder):
    """The same of so many clients, each on a mount of its own, a window of lines at a time."""
    service = Service(program, folder, range(count), count)
    rounds = LINES // WINDOW // count

    def ask(slot):
        with Client(service.port) as client:
            for _ in range(rounds):
                client.say(*[f'{slot}.1 push'] * WINDOW)
                for _ in range(WINDOW):
                    client.hear()

    clients = [threading.Thread(target=ask, args=(slot,)) for slot in range(count)]
    start = time.monotonic()
    for client in clients:
        client.start()
    for client in clients:
        client.join()
    took = time.monotonic() - start
    service.end(f'figures with {count}')
    print(f'{count} clients: {int(rounds * WINDOW * count / took)} lines/s')
