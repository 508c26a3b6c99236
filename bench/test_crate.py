"""A crate of tests that stands in a folder of its own beside copies of the crates that it needs, and is built by `rt test`."""

import glob
import os
import shutil
import subprocess

from program import TOP, end


def write(path, text):
    os.makedirs(os.path.dirname(path), exist_ok=True)
    with open(path, "w", encoding="utf-8") as file:
        file.write(text)


def read(*names):
    with open(os.path.join(TOP, *names), encoding="utf-8") as file:
        return file.read()


def needs():
    """The libraries that each crate stands on."""
    lines = [line.split(":") for line in read("crates.txt").splitlines() if line and not line.startswith("#")]
    return {name: words.split() for name, words in lines}


def home(folder, name):
    return os.path.join(folder, "crates", name)


def copy_crates(folder, crates):
    for name in crates:
        shutil.copytree(home(TOP, name), home(folder, name), ignore=shutil.ignore_patterns("out"))


def built(folder, name, crates):
    """The built tests of a crate that has been written there. Copies of the crates that it needs are put beside it."""
    below = needs()
    ours = [crate for crate in below if crate in crates]
    libraries = sorted({word for crate in ours for word in below[crate] if word not in below})
    copy_crates(folder, ours)
    lines = [f"{crate}: {' '.join(below[crate])}\n" for crate in ours]
    write(os.path.join(folder, "crates.txt"), "".join(lines) + f"{name}: {' '.join(ours + libraries)}\n")
    child = subprocess.run(["rt", "test"], cwd=home(folder, name), capture_output=True)
    tests = os.path.join(home(folder, name), "out", f"{name}_tests")
    if child.returncode != 0 or not os.path.exists(tests):
        end(child.stderr.decode(errors="replace") + child.stdout.decode(errors="replace"))
    return tests


def counted(tests, test, function, folder):
    """What a test prints, and the instructions of each call of a function in it: callgrind writes its counts after each."""
    out = os.path.join(folder, test.replace(":", "_"))
    words = ["valgrind", "--tool=callgrind", f"--toggle-collect={function}", f"--dump-after={function}", f"--callgrind-out-file={out}"]
    child = subprocess.run([*words, tests, test], capture_output=True, text=True)
    counts = []
    for file in sorted(glob.glob(f"{out}.*"), key=lambda name: int(name.rsplit(".", 1)[1])):
        with open(file, encoding="utf-8") as lines:
            counts += [int(line.split()[1]) for line in lines if line.startswith("summary:")]
    return child.stdout, counts
