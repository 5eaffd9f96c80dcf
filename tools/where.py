"""The line above each table of times: the day, the commit, and the machine."""
import datetime
import os
import subprocess
from pathlib import Path

TOP = Path(__file__).resolve().parent.parent


def commit_of(top):
    """The commit of a checkout in seven letters, with a plus if files differ from it."""
    command = ["git", "-C", top, "describe", "--always", "--dirty=+", "--exclude=*", "--abbrev=7"]
    said = subprocess.run(command, capture_output=True, text=True)
    return said.stdout.strip() or "no commit"


def machine():
    """How many processors of what kind this process may use."""
    lines = Path("/proc/cpuinfo").read_text(encoding="utf-8").splitlines()
    model = next((it.split(":", 1)[1].strip() for it in lines if it.startswith("model name")), "an unknown processor")
    return f"{len(os.sched_getaffinity(0))} processors ({model})"


def where(*tops):
    """A line with the day, the commits of these checkouts, of this one if none is given, and the machine."""
    commits = " beside ".join(commit_of(it) for it in tops or (TOP,))
    return f"{datetime.date.today().isoformat()}, {commits}, {machine()}"
