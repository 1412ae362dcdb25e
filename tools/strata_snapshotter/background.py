"""What is done in threads that nobody waits for."""
import contextlib
import logging
import sqlite3
import threading

from strata_snapshotter.faults import Fault


def begin_after(seconds, function, *words):
    """Calls a function in a thread of its own after so many seconds."""
    timer = threading.Timer(seconds, function, words)
    timer.daemon = True
    timer.start()


@contextlib.contextmanager
def told_as_warning(what, *kinds):
    """Logs faults of what nobody waits for, which ends with them: those of these kinds, or all that
    calls have."""
    try:
        yield
    except kinds or (Fault, OSError, sqlite3.Error) as fault:
        logging.warning("%s: %s", what, fault)
