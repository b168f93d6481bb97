"""What the scripts of bench/ and tests/ share: the program, its store, runs with their times, and figures."""
import os
import resource
import shutil
import statistics
import subprocess
import sys
import time

ROOT = os.path.dirname(os.path.dirname(os.path.abspath(__file__)))
PROGRAM = f"{ROOT}/crates/renovate/out/renovate"
TIME = "/usr/bin/time"
NOW = "2024-06-03T10:15:00Z"
STORE = ["forge.0", "forge.1"]
# The head of a store's file: the made mark, the name, the version.
HEAD = b"\x01RNVFORGE\x00\x00\x00\x01"


def need(*commands):
    """Ends the script where one of these commands is missing."""
    for command in commands:
        if shutil.which(command) is None:
            sys.exit(f"{sys.argv[0]} needs {command}.")


def need_program():
    """Ends the script where the program is not built."""
    if not os.path.exists(PROGRAM):
        sys.exit(f"There is no {PROGRAM}: run `rt run` in crates/renovate, which proves and builds it.")


def need_time():
    """Ends the script where nothing tells the peak of a run's memory."""
    if not os.path.exists(TIME):
        sys.exit(f"There is no {TIME}, which tells the peak of memory: install GNU time.")


def write(path, content):
    """Writes a file of text or bytes, and makes the folders above it."""
    os.makedirs(os.path.dirname(path), exist_ok=True)
    with open(path, "wb") as it:
        it.write(content if isinstance(content, bytes) else content.encode())


def held(folder):
    """The bytes of the store's files, None for one that is not there."""
    found = []
    for name in STORE:
        path = f"{folder}/{name}"
        if os.path.exists(path):
            with open(path, "rb") as it:
                found.append(it.read())
        else:
            found.append(None)
    return found


def put(folder, store):
    """Sets the store's files to what `held` gave."""
    for name, content in zip(STORE, store):
        path = f"{folder}/{name}"
        if os.path.exists(path):
            os.remove(path)
        if content is not None:
            write(path, content)


def marked(good):
    """What stands behind a figure that is out of its range."""
    return "" if good else "  <-- OUT OF RANGE"


class Runs:
    """Runs of a command in a folder: their seconds, of the processor and by the clock, and peaks of memory.

    Each has to end with 0 and to print a text with this begin and this end.
    """

    def __init__(self, what, words, folder, begin="", end="", before=lambda: None):
        self.what, self.words, self.folder = what, words, folder
        self.begin, self.end, self.before = begin, end, before
        self.seconds, self.clocks, self.peaks = [], [], []
        self.output = None

    def run(self):
        self.before()
        # A child of this process would begin with the peak of this process; one of `time` does not.
        words = [TIME, "--quiet", "--output", "peak", "--format", "%M", *self.words]
        start = time.monotonic()
        child = subprocess.Popen(words, cwd=self.folder, stdout=subprocess.PIPE)
        self.output = child.stdout.read().decode()
        _, status, usage = os.wait4(child.pid, 0)
        self.clocks.append(time.monotonic() - start)
        child.returncode = os.waitstatus_to_exitcode(status)
        good = self.output.startswith(self.begin) and self.output.endswith(self.end)
        if child.returncode != 0 or not good:
            sys.exit(f"{self.what}: status {child.returncode}, printed {self.output[:200]!r} .. {self.output[-200:]!r}")
        self.seconds.append(usage.ru_utime + usage.ru_stime)
        with open(f"{self.folder}/peak", encoding="utf-8") as it:
            self.peaks.append(int(it.read()) * 1024)

    def median(self):
        return max(statistics.median(self.seconds), 0.001)

    def clock(self):
        return statistics.median(self.clocks)

    def peak(self):
        return max(self.peaks)

    def show(self):
        times = f"least {min(self.seconds):.3f} s, median {self.median():.3f} s ({self.clock():.3f} s by the clock)"
        print(f"{self.what}: {times}, {self.peak() / 1e6:.1f} MB", flush=True)


def show_ratio(large, small, most=5):
    """Prints the figures of both, and the ratio of their medians, with what is wanted of it."""
    large.show()
    small.show()
    show_times(large.median(), small.median(), most)


def show_times(large, small, most=5, what=""):
    """Prints how many times a figure is the other."""
    ratio = large / small
    print(f"  {what}{ratio:.2f} times the time (wanted: at most {most}){marked(ratio <= most)}", flush=True)


def processor_seconds(words, folder=None):
    """Runs a command, which has to end with 0: its seconds of the processor, and what it prints."""
    before = resource.getrusage(resource.RUSAGE_CHILDREN)
    run = subprocess.run([str(it) for it in words], cwd=folder, capture_output=True, text=True, check=False)
    after = resource.getrusage(resource.RUSAGE_CHILDREN)
    if run.returncode != 0:
        sys.exit(f"{words}: status {run.returncode}\n{run.stderr}")
    return after.ru_utime - before.ru_utime + after.ru_stime - before.ru_stime, run.stdout


def built(folder, name, crates, uses, files, adapters=(), words=()):
    """Proves and builds a program over a copy of these crates, in a folder of its own; returns its path.

    `uses` are the libraries that the program names, `files` its files by their places, `adapters` the files of
    the crate renovate that it shares, and `words` those that it is tried with.
    """
    for crate in crates:
        for part in ["src", "specs", "proofs"]:
            if os.path.isdir(f"{ROOT}/crates/{crate}/{part}"):
                shutil.copytree(f"{ROOT}/crates/{crate}/{part}", f"{folder}/crates/{crate}/{part}")
    program = f"{folder}/crates/{name}"
    for place, text in files.items():
        write(f"{program}/{place}", text.lstrip())
    for adapter in adapters:
        shutil.copy(f"{ROOT}/crates/renovate/src/{adapter}", f"{program}/src")
    with open(f"{ROOT}/crates.txt", encoding="utf-8") as it:
        lines = [line for line in it if line.split(":")[0] in crates]
    write(f"{folder}/crates.txt", "".join(lines) + f"{name}: {' '.join(uses)}\n")
    done = subprocess.run(["rt", "run", "--", *words], cwd=program, capture_output=True, text=True, check=False)
    if not os.path.exists(f"{program}/out/{name}"):
        sys.exit(f"{name} was not built:\n{done.stdout[-2000:]}{done.stderr[-2000:]}")
    return f"{program}/out/{name}"
