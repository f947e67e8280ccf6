"""The built program beside GEOS geosop: both run on the same files, their times, peaks of memory and outputs side by side."""
import itertools
import os
import shutil
import signal
import subprocess
import sys
import tempfile
import time

HERE = os.path.dirname(os.path.dirname(os.path.abspath(__file__)))
PROGRAM = os.path.join(HERE, "geosop")
BINARY = os.path.join(HERE, "crates", "geosop", "out", "geosop")
LONG_SECONDS = 10
MOST_SECONDS = 600
SHOWN = 5


class Unanswered(Exception):
    """A run that didn't end well, or not in time."""


def peer():
    """GEOS geosop, which apt installs where it is missing; None where that can't be done."""
    if shutil.which("geosop") is None and shutil.which("apt-get") is not None:
        quiet = {"stdin": subprocess.DEVNULL, "stdout": subprocess.DEVNULL, "stderr": subprocess.DEVNULL}
        subprocess.run(["apt-get", "install", "-y", "geos-bin"], check=False, **quiet)
    return shutil.which("geosop")


def run_once(words, output, note):
    """One run's wall time in seconds; its lines go to the file `output`, and what GNU time tells of its peak to `note`."""
    start = time.monotonic()
    with open(output, "wb") as lines:
        process = subprocess.Popen(["time", "-o", note, "-f", "%M", *words], stdout=lines, stderr=subprocess.PIPE, start_new_session=True)
        try:
            fault = process.communicate(timeout=MOST_SECONDS)[1]
        except subprocess.TimeoutExpired:
            os.killpg(process.pid, signal.SIGKILL)
            process.communicate()
            raise Unanswered(f"not done in {MOST_SECONDS} s") from None
    if process.returncode != 0:
        raise Unanswered(f"ended with status {process.returncode}: {fault.decode(errors='replace').strip()}")
    return time.monotonic() - start


def measure(words, output):
    """The least wall time of three runs in seconds, a long run once; and the peak of memory in bytes, as GNU time tells it."""
    note = output + ".peak"
    best = run_once(words, output, note)
    for _ in range(2):
        if best < LONG_SECONDS:
            best = min(best, run_once(words, output, note))
    with open(note) as peak:
        return best, int(peak.read()) * 1024


def differences(ours, theirs):
    """The number of lines in which two files differ, and the first few of them; a line that isn't there is None."""
    count, first = 0, []
    with open(ours) as left, open(theirs) as right:
        for number, (mine, other) in enumerate(itertools.zip_longest(left, right), 1):
            if mine != other:
                count += 1
                if count <= SHOWN:
                    first.append((number, mine and mine.strip(), other and other.strip()))
    return count, first


def kinds(output):
    """The distinct lines of a file, each with its number, the commonest first."""
    counts = {}
    with open(output) as lines:
        for line in lines:
            counts[line.strip()] = counts.get(line.strip(), 0) + 1
    return sorted(counts.items(), key=lambda pair: (-pair[1], pair[0]))


class Bench:
    """A folder for the files, the peer, and whether anything differed.

    The script's words choose: a comparison is made where its title holds one of them, and all are made where there are none.
    """

    def __init__(self):
        self.folder = tempfile.mkdtemp()
        self.peer = peer()
        self.differed = False
        self.chosen = sys.argv[1:]

    def __enter__(self):
        built = subprocess.run([PROGRAM, "-a", "POINT EMPTY", "-b", "POINT EMPTY", "relate"], stdout=subprocess.DEVNULL)
        if built.returncode != 0:
            sys.exit("the program can't be built or run")
        if self.peer is None:
            print("GEOS geosop is missing and can't be installed: nothing to compare with")
        return self

    def __exit__(self, *_):
        shutil.rmtree(self.folder)

    def put(self, name, pieces):
        """The path of a new file with these pieces of text."""
        path = os.path.join(self.folder, name)
        with open(path, "w") as file:
            file.writelines(pieces)
        return path

    def time(self, who, words):
        """The output's path, the time and the peak of one program, told; None where it didn't answer."""
        output = os.path.join(self.folder, who)
        try:
            seconds, peak = measure(words, output)
        except Unanswered as why:
            print(f"  {who}: {why}")
            return None
        print(f"  {who}: {seconds:.3f} s, {peak:,} bytes")
        return output, seconds, peak

    def compare(self, title, ours, theirs):
        """The outputs of both programs, each on its own words; None for one that didn't answer or isn't asked."""
        if self.chosen and not any(word in title for word in self.chosen):
            return None, None
        print(title, flush=True)
        ours = self.time("ours", [BINARY, *ours])
        theirs = self.time("GEOS", [self.peer, *theirs]) if self.peer else None
        if ours and theirs:
            print(f"  ratio: {ours[1] / theirs[1]:.2f} of the time, {ours[2] / theirs[2]:.2f} of the memory")
        return ours and ours[0], theirs and theirs[0]

    def relate(self, title, a, b, operation="relate", more=(), their_operation=None):
        """Both programs on the same two sources; their lines are the same ones."""
        theirs = ["-a", a, "-b", b, "-f", "txt", their_operation or operation]
        ours, theirs = self.compare(title, ["-a", a, "-b", b, *more, operation], theirs)
        if ours or theirs:
            most = kinds(ours or theirs)[:SHOWN]
            print("  lines:", ", ".join(f"{text} {count:,} times" for text, count in most))
        if ours and theirs:
            self.tell_differences(*differences(ours, theirs))

    def valid(self, title, source, nothing):
        """Both programs on one source that is valid: ours against no geometry at all, which leaves reading and validity."""
        _, theirs = self.compare(title, ["-a", source, "-b", nothing, "relate"], ["-a", source, "-f", "txt", "isValid"])
        if theirs and [text for text, _ in kinds(theirs)] != ["true"]:
            self.differed = True
            print("  GEOS says that it isn't valid")

    def tell_differences(self, count, first, other_name="GEOS"):
        """Says that the outputs are equal, or where they aren't."""
        if count == 0:
            print("  the same lines")
            return
        self.differed = True
        print(f"  {count:,} lines differ")
        for number, mine, other in first:
            print(f"    line {number:,}: ours {mine}, {other_name} {other}")


def positions(points):
    """The text of a list of positions."""
    return "(" + ", ".join(f"{x} {y}" for x, y in points) + ")"
