"""Processes that a test starts, and what it leaves of them, which is ended."""
import contextlib
import os
import signal
import subprocess

# those that were started and not waited for, each with whether it leads a group of its own
running = {}


def start(words, **how):
    """Starts a process."""
    process = subprocess.Popen(words, **how)
    running[process] = how.get('start_new_session', False)
    return process


def forget(process):
    """Forgets a process that has ended, and was waited for."""
    running.pop(process, None)


def end(process):
    """Ends a process at once where it still runs, and with it the group that it leads."""
    leads = running.pop(process, False)
    # where nobody has waited for it its number is no other's, also where it has ended
    if process.returncode is None:
        with contextlib.suppress(ProcessLookupError):
            (os.killpg if leads else os.kill)(process.pid, signal.SIGKILL)
        process.wait()


def end_all():
    """Ends all that still run."""
    for process in list(running):
        end(process)


def ran(*words, said=None, is_text=True, seconds=120, **how):
    """Runs a command to its end: its status, and what it wrote on standard output and standard error, as text or as bytes. It is told what is said, as text
    or as bytes, or nothing."""
    process = start(words, **{'stdin': subprocess.DEVNULL if said is None else subprocess.PIPE, 'stdout': subprocess.PIPE, 'stderr': subprocess.PIPE, **how})
    try:
        streams = process.communicate(said.encode() if isinstance(said, str) else said, timeout=seconds)
    finally:
        end(process)
    return process.returncode, *(decoded(stream) if is_text else stream for stream in streams)


def decoded(stream):
    """What was written on a stream, as text; bytes that are none are no character of another text. None of a stream that is read elsewhere."""
    return stream if stream is None else stream.decode(errors='surrogateescape')
