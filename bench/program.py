"""Runs of programs, with the time and the memory that they take."""

import os
import subprocess
import sys
import time

TOP = os.path.dirname(os.path.dirname(os.path.abspath(__file__)))
BUILD = os.path.join(TOP, "bin", "build")
MOLCONV = os.path.join(TOP, "crates", "molconv", "out", "molconv")
SMILES = ["--from", "smi", "--to", "smi"]
CONVERT = [MOLCONV, "convert", *SMILES]
CHECK = [MOLCONV, "check", *SMILES]
# A loop that only copies lines.
COPY_LINES = "import sys\nwrite = sys.stdout.buffer.write\nfor line in sys.stdin.buffer:\n    write(line)\n"


def build():
    """Builds the program where that is still to be done. It is then run itself, and not by its script."""
    subprocess.run([BUILD], stdout=sys.stderr, check=True)


class Run:
    """What a run took: seconds, the peak of its memory in megabytes, and its exit status.

    The system counts the memory of this script, of which the program is born, as the least peak. So the peak of a
    run with no input says below which number nothing can be told."""

    def __init__(self, words, given=os.devnull, out=os.devnull, error=os.devnull):
        with open(given, "rb") as standard_input, open(out, "wb") as output, open(error, "wb") as report:
            start = time.perf_counter()
            child = subprocess.Popen(words, stdin=standard_input, stdout=output, stderr=report)
            _, status, usage = os.wait4(child.pid, 0)
            self.seconds = time.perf_counter() - start
        child.returncode = self.status = os.waitstatus_to_exitcode(status)
        self.megabytes = usage.ru_maxrss / 1024


def best(times, *args, **files):
    """The run that took the least time."""
    return min((Run(*args, **files) for _ in range(times)), key=lambda run: run.seconds)


def least_in_turn(times, *starts):
    """Of each of several runs the one that took the least time. They take turns, so that a slow while of the machine
    meets all of them."""
    rounds = [[start() for start in starts] for _ in range(times)]
    return [min(runs, key=lambda run: run.seconds) for runs in zip(*rounds)]


def line_count(path):
    with open(path, "rb") as file:
        return sum(1 for _ in file)


def end(message):
    """Ends the script with a status of 1."""
    sys.exit(f"{os.path.basename(sys.argv[0])}: {message}")
