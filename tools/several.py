"""Parts of a trial, done by several processes at a time."""
import multiprocessing
import multiprocessing.connection
import signal


def _work(make, pipe, others):
    """A process: does one part after another, and ends with the pipe."""
    signal.signal(signal.SIGINT, signal.SIG_IGN)
    for other in others:
        other.close()
    does = make()
    try:
        while True:
            part = pipe.recv()
            try:
                came = does(part), None
            except Exception as fault:
                came = None, fault
            pipe.send(came)
    except (EOFError, BrokenPipeError):
        pass


def done(jobs, make, parts):
    """What comes of each part, as they are done by so many processes; `make()` gives in each of them what is called with a part. A part is drawn only where a process is free, so `parts` may
    hang on what came before. What a part raises is raised here."""
    context, ends, processes = multiprocessing.get_context('fork'), [], []
    try:
        for _ in range(jobs):
            end, other = context.Pipe()
            ends.append(end)
            processes.append(context.Process(target=_work, args=(make, other, list(ends)), daemon=True))
            processes[-1].start()
            other.close()
        free, busy = list(ends), []
        for part in parts:
            free[0].send(part)
            busy.append(free.pop(0))
            if not free:
                yield _one(free, busy)
        while busy:
            yield _one(free, busy)
    finally:
        # each ends by the handler that this process has for SIGTERM, so in order
        for process in processes:
            process.terminate()
        for process in processes:
            process.join()


def _one(free, busy):
    """Waits for a process, which is free then: what came of its part."""
    end = multiprocessing.connection.wait(busy)[0]
    try:
        came, fault = end.recv()
    except EOFError:
        raise ValueError('a process of this trial was ended') from None
    busy.remove(end)
    free.append(end)
    if fault:
        raise fault
    return came
