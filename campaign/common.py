"""What the parts of the campaign share: running the program and comparing texts."""
import os
import random
import subprocess
import time

PATIENCE = 600


class Part:
    """One part: its random numbers, its counts and the differences that it found."""

    def __init__(self, name, seed):
        self.name, self.seed = name, seed
        self.random = random.Random(f"{name} {seed}")
        self.counts, self.differences = {}, []
        self.began = time.monotonic()

    def count(self, what, number=1):
        self.counts[what] = self.counts.get(what, 0) + number

    def differs(self, what, given=None):
        """Notes a difference; the input that shows it is kept in a file."""
        if given is not None:
            path = os.path.join(kept_folder(), f"{self.name}-{self.seed}-{len(self.differences)}")
            with open(path, "wb") as file:
                file.write(given)
            what += f" (input kept in {path})"
        self.differences.append(what)

    def line(self):
        """The line that the campaign prints for the part."""
        counts = ", ".join(f"{number} {what}" for what, number in self.counts.items())
        seconds = time.monotonic() - self.began
        return f"{self.name}: {counts}, {len(self.differences)} differences, {seconds:.0f} s"


def kept_folder():
    """Where inputs that show a difference are kept."""
    folder = os.environ.get("CAMPAIGN_KEPT", "/tmp/campaign-kept")
    os.makedirs(folder, exist_ok=True)
    return folder


def run(program, words, given):
    """Runs the program once: its output, its exit status and what it wrote to standard error."""
    try:
        ran = subprocess.run([program, *words], input=given, capture_output=True, timeout=PATIENCE)
    except subprocess.TimeoutExpired:
        return b"", f"no end in {PATIENCE} seconds", b""
    return ran.stdout, ran.returncode, ran.stderr


def first_other_line(got, wanted):
    """Says at which line two texts part, with both lines."""
    for number, (one, other) in enumerate(zip(got.split(b"\n"), wanted.split(b"\n")), 1):
        if one != other:
            return f"line {number} of the output: got {one[:120]!r}, wanted {other[:120]!r}"
    return f"got {len(got)} bytes, wanted {len(wanted)}"


def fault_of(ran, wanted, status=0):
    """What is wrong with a run, or None."""
    output, ended, noise = ran
    if ended != status:
        return f"status {ended}, wanted {status}"
    if noise:
        return f"wrote to standard error: {noise[:120]!r}"
    return None if output == wanted else first_other_line(output, wanted)


def compare(part, program, given, wanted, status=0, words=("run",)):
    """Runs a script and compares output and status with what is wanted."""
    part.count("runs")
    fault = fault_of(run(program, list(words), given), wanted, status)
    if fault:
        part.differs(f"{' '.join(words)}: {fault}", given)
    return not fault


def scaled(number, scale, least=1):
    """A number of things at this scale."""
    return max(least, round(number * scale))
