"""How the checks of the pages count what passed, failed and was skipped."""

import os
import shutil
import subprocess

import browser
import firefox
import page_parts


class Different(Exception):
    """What is shown, and what has to be shown."""


def same(what, shown, wanted):
    if shown != wanted:
        raise Different(f"{what}: shows {shown!r}, and not {wanted!r}")


FAULTS = (Different, browser.BrowserFault, page_parts.PageFault, subprocess.SubprocessError, LookupError, ValueError, OSError)


# Tools that have more than one name.
FIND = {"chromium": browser.find, "firefox": firefox.find}


def program():
    """The program's path: that of $KROFT, or else what ./kroft calls (the launcher looks at all sources at each call)."""
    if "KROFT" in os.environ:
        return os.path.abspath(os.environ["KROFT"])
    found = subprocess.run([page_parts.TOP / "scripts/run_program", "--path", "kroft_tool"], stdout=subprocess.PIPE, text=True, check=True)
    return found.stdout.strip()


class Count:
    def __init__(self):
        self.passed = self.failed = self.skipped = 0

    def step(self, name, tool, command, *words):
        lacks = not FIND.get(tool, lambda: shutil.which(tool))()
        if lacks and not os.environ.get("KROFT_SKIP_NOTHING"):
            self.skipped += 1
            print(f"skipped: {name}, which lacks {tool}")
            return
        try:
            if lacks:
                raise Different(f"lacks {tool}")
            command(*words)
            self.passed += 1
            print(f"passed: {name}", flush=True)
        except FAULTS as fault:
            self.failed += 1
            print(f"failed: {name}\n{type(fault).__name__}: {str(fault)[:2000]}", flush=True)

    def last_line(self):
        return f"{self.passed} passed, {self.failed} failed, {self.skipped} skipped"
