"""How a script is ended: TERM and HUP unwind it as INT does, so that its folders and what it has begun go with it."""

import contextlib
import os
import signal
import subprocess
import sys
import tempfile
import threading

# What ends a script, unless it is ignored from the beginning (`nohup`).
ENDS = (signal.SIGINT, signal.SIGTERM, signal.SIGHUP)

RUNNING = set()


class State:
    """Which signal has ended this script, and how many parts of its main thread are just beginning something."""

    ended_by, beginning = None, 0


def unwind():
    """From here on what ends this script unwinds it, once: what comes behind it comes too late to cut its end short."""
    for it in ENDS:
        if signal.getsignal(it) != signal.SIG_IGN:
            signal.signal(it, ended)


def ended(number, _frame):
    if State.ended_by is None:
        State.ended_by = number
        if not State.beginning:
            end_all()


def end_all():
    """Ends what other threads wait for, and unwinds this one."""
    for ran in list(RUNNING):
        kill(ran)
    sys.exit(128 + State.ended_by)


def kill(ran):
    """Ends a process that is a group of its own, with all that it has begun."""
    with contextlib.suppress(ProcessLookupError, PermissionError):
        os.killpg(ran.pid, signal.SIGKILL)


def of_its_own():
    """What `Popen` is told for a process that is to be a group of its own: not a session, since Linux shares processors out
    among sessions first, and `nice` tells processes of one session apart."""
    return {"process_group": 0} if sys.version_info >= (3, 11) else {"preexec_fn": os.setpgrp}


@contextlib.contextmanager
def beginning():
    """What ends this script meanwhile comes behind this: so it can't come between the begin of a process and the note of it."""
    is_main = threading.current_thread() is threading.main_thread()
    State.beginning += is_main
    try:
        yield
    finally:
        State.beginning -= is_main
        if is_main and State.ended_by and not State.beginning:
            end_all()


@contextlib.contextmanager
def folder(**how):
    """A temporary folder, which goes with this script, also if that is ended as it is made or taken away."""
    made = None
    try:
        with beginning():
            made = tempfile.TemporaryDirectory(**how)
        unwind_if_ended()
        yield made.name
    finally:
        with beginning():
            if made:
                made.cleanup()


@contextlib.contextmanager
def begun(words, **how):
    """A process with a group of its own, which ends with this script, in whichever thread it is waited for."""
    with beginning():
        ran = subprocess.Popen(words, **of_its_own(), **how)
        RUNNING.add(ran)
    try:
        unwind_if_ended()
        yield ran
    finally:
        RUNNING.discard(ran)
        if ran.poll() is None:
            kill(ran)
        with ran:
            # (its pipes are closed, and it is waited for)
            pass
    unwind_if_ended()


def unwind_if_ended():
    if State.ended_by:
        sys.exit(128 + State.ended_by)
