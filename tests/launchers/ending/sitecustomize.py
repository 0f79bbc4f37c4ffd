"""Ends ./prove by a signal just as it has begun `rt ci`, before it can have noted that it has."""

import os
import pathlib
import signal
import subprocess
import time

begin = subprocess.Popen.__init__


def begin_and_end(ran, words, *more, **how):
    begin(ran, words, *more, **how)
    begun = pathlib.Path(os.environ["BEGUN"])
    if [str(it) for it in words[:2]] == ["rt", "ci"]:
        while not (begun.is_file() and begun.read_text(encoding="ascii").endswith("\n")):
            time.sleep(0.01)
        os.kill(os.getpid(), signal.SIGTERM)


subprocess.Popen.__init__ = begin_and_end
