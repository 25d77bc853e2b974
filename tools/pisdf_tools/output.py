"""Writing to the standard output, which may be closed, full, or no longer read."""
import os
import sys

WRITE_FAILED = 6


def written(name, work, unread=0):
    """The status of `work`, which writes to the standard output. Where this is closed or full, a line says so and the status is 6. Where its
    reader has ended, the status is `unread`. An OSError that is of a file goes to the caller."""
    if sys.stdout is None:
        return failed(name, "it is closed")
    try:
        sys.stdout.reconfigure(errors="backslashreplace")
        status = work()
        sys.stdout.flush()
        return status
    except BrokenPipeError:
        drop_output()
        return unread
    except OSError as fault:
        if fault.filename is not None:
            raise
        drop_output()
        return failed(name, fault.strerror or str(fault))


def status_of(done):
    """The status of a call that has ended, as a shell tells it: of one that a signal has ended it is 128 and the signal's number."""
    return done.returncode if done.returncode >= 0 else 128 - done.returncode


def drop_output():
    """What is left to write has nowhere to go."""
    os.dup2(os.open(os.devnull, os.O_WRONLY), sys.stdout.fileno())


def failed(name, why):
    if sys.stderr is not None:
        print(f"{name}: the standard output can't be written: {why}", file=sys.stderr)
    return WRITE_FAILED
