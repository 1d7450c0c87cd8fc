"""What the program is made of, where it is once it is proved, and whether it still is what stands here."""
import hashlib
import os
import subprocess

import crates

TOP = str(crates.TOP)
MAIN = "europa_cli"
FOLDER = f"{TOP}/crates/{MAIN}"
PLACE = f"{TOP}/out"
PROVED = f"{PLACE}/europa"
# The sum of what the proved program was made of.
MADE_FROM = f"{PLACE}/europa.from"
# What of a crate's folder its proof reads.
PARTS = ("src", "specs", "proofs")


class Crate:
    """A crate with the libraries that it lists."""

    def __init__(self, name, libraries):
        self.name, self.line = name, f"{name}: {' '.join(libraries)}"

    def files(self, top):
        """The files that its proof reads, in order, by their paths below the top."""
        found = []
        for part in PARTS:
            for at, folders, names in os.walk(f"{top}/crates/{self.name}/{part}"):
                folders.sort()
                found += [f"{at[len(top) + 1:]}/{name}" for name in sorted(names)]
        return found

    def seconds(self, top):
        """About how long its proof takes on one processor, by its lines of code, as measured where all processors prove."""
        lines = 0
        for path in self.files(top):
            if path.endswith(".rt"):
                with open(f"{top}/{path}", "rb") as file:
                    lines += file.read().count(b"\n")
        return 45 + 0.135 * lines


def parts():
    """The crates that the program is made of, as crates.txt lists them."""
    graph = crates.read()
    return [Crate(name, libraries) for name, libraries in graph.libraries.items() if name == MAIN or name in graph.below[MAIN]]


def sum_of(top, made_of):
    """A sum over all that the program is made of: the lines of its crates, and the name and content of each file."""
    found = hashlib.blake2b(digest_size=32)
    for crate in made_of:
        found.update(f"{crate.line}\n".encode())
        for path in crate.files(top):
            with open(f"{top}/{path}", "rb") as file:
                text = file.read()
            found.update(f"{path} {len(text)}\n".encode())
            found.update(text)
    return found.hexdigest()


def is_proved():
    """Whether the proved program is there, and made of what stands here now."""
    try:
        with open(MADE_FROM, encoding="utf-8") as file:
            made_from = file.read().strip()
        return os.access(PROVED, os.X_OK) and made_from == sum_of(TOP, parts())
    except OSError:
        return False


def minutes_to_prove():
    """About how long ./prove takes on this machine where nothing is kept."""
    return sum(crate.seconds(TOP) for crate in parts()) / 60 / processors()


def processors():
    """How many processors this process may use."""
    return len(os.sched_getaffinity(0))


def free_memory():
    """How many GB of memory are free."""
    with open("/proc/meminfo", encoding="utf-8") as file:
        found = [line.split()[1] for line in file if line.startswith("MemAvailable:")]
    return int(found[0]) / 1e6


def kit():
    """The line that names the kit on the PATH, or None where there is none."""
    try:
        ran = subprocess.run(["rt", "version"], capture_output=True, text=True, stdin=subprocess.DEVNULL)
    except OSError:
        return None
    return ran.stdout.strip() if ran.returncode == 0 else None
