"""tools/keep, killed at random moments: what its reader has is what a session that was never stopped writes, byte for byte.

Trials over files for input and output; the same on a small disk that is full at some write, which only root can make; a file that is followed
while a producer renames it again and again; and pipes, with a consumer that tells what it has made durable, by a file or by a named pipe. In
each the keeper, its bq, both, or the consumer are killed, or the keeper is told to end or to take a checkpoint, and is begun again until all
was answered; an operator may create and drop queries meanwhile. Then checkpoints are changed at random: each must be refused by a sentence, or be passed by for the one before it. What is
wanted comes from one `bq run` over the same lines, and for the small inputs of pipes from the evaluator too, never from the keeper.
"""
import glob
import os
import random as random_numbers
import re
import shutil
import signal
import subprocess
import sys
import tempfile
import threading
import time
from concurrent.futures import ThreadPoolExecutor, wait

from common import Part, first_other_line, kept_folder, run as run_program, scaled
from evaluator import session_text
from language import CHECKPOINT_SHARE, COMPACT_SHARE

KILLS, MUTATIONS = 1000, 2000
# how many times as many trials there may be as would be enough if each were killed as often as it should be
ROUNDS = 3
# what is killed, and the name of its count
KILLED = {"keep": "killed", "bq": "whose bq was killed", "both": "killed with bq", "consumer": "whose consumer was killed"}
# how many trials run side by side: on a busy machine more, as each of them mostly waits
AT_ONCE = int(os.environ.get("CAMPAIGN_AT_ONCE") or 3)
LINES = {"files": 60_000, "changes": 100_000, "full disk": 30_000, "follow": 20_000, "pipes": 1_500, "named pipes": 1_500}
# no trial waits for a time; this only ends one that would wait for ever, also on a machine that has a hundred times as much to do
PATIENCE = 3600
# the command, without what Python reads for other programs
KEEP = [sys.executable, "-S", os.environ.get("KEEP") or os.path.join(os.path.dirname(os.path.dirname(os.path.abspath(__file__))), "tools", "keep")]
HOT = b"SELECT DISTINCT R.room, R.celsius FROM R, L WHERE R.room = L.room AND R.celsius > L.celsius" \
      b" AND R.room > 0 AND R.room < 40 AND R.celsius > -5 AND R.celsius < 10\n"
SCRIPT = b"CREATE STREAM R (room, celsius)\nCREATE STREAM L (room, celsius)\nCREATE STREAM D (day IN 1..6, room)\n" \
         b"CREATE QUERY pair AS SELECT D.day FROM D, L WHERE D.room = L.room AND D.room >= 38 AND D.room <= 39\n" \
         b"CREATE SHARED QUERY above AS SELECT DISTINCT R.room FROM R, L WHERE R.celsius < L.celsius" \
         b" AND R.room > 0 AND R.room < 40\n" \
         b"CREATE QUERY cold AS SELECT R.celsius, R.room FROM R WHERE R.celsius < -8\n" \
         b"CREATE QUERY days AS SELECT DISTINCT D.day, R.celsius FROM D, R WHERE D.room <> R.room" \
         b" AND R.celsius >= 0 AND R.celsius <= 30\n"
if COMPACT_SHARE:
    SCRIPT += b"CREATE COMPACT QUERY hot AS " + HOT
# it appends what it reads to the file of its first word, and then tells in the second how much stands there
CONSUMER = """
import os, random, sys, time
durable = os.open(sys.argv[1], os.O_WRONLY | os.O_CREAT | os.O_APPEND)
# a named pipe is open when the keeper has opened it too
pipe = os.open(sys.argv[2], os.O_WRONLY) if sys.argv[3] == "fifo" else None
def tell():
    size = os.fstat(durable).st_size
    if pipe:
        os.write(pipe, b"%d\\n" % size)
    else:
        with open(sys.argv[2] + ".new", "w") as ack:
            ack.write(f"{size}\\n")
        os.rename(sys.argv[2] + ".new", sys.argv[2])
tell()
while piece := os.read(0, random.choice([1, 100, 4096])):
    os.write(durable, piece)
    if random.random() < 0.3:
        tell()
tell()
"""


def one_line(random):
    """A row of one of the streams; now and then one that is refused, a comment, a statement, a mark, or nothing."""
    kind = random.random()
    if kind < 0.03:
        return random.choice([b"", b"-- x", b"R,1", b"R,1,x", b"nobody,1", b"D,7,1", b"R,1," + b"1" * 1500, b"--@ %d" % random.randrange(10**6), b" \t\r"])
    if kind < 0.5:
        return b"R,%d,%d" % (random.randint(-2, 60), random.choice([random.randint(-9, 9), random.randint(9, 10**6)]))
    if kind < 0.9:
        return b"L,%d,%d" % (random.randint(-2, 60), random.choice([-10**6, random.randint(0, 9)]))
    return b"D,%d,%d" % (random.randint(1, 6), random.randint(0, 300))


def wanted_of(program, text, by_reckoning):
    """What a session that is not stopped writes behind the replies to the script, its lines counted from the input."""
    count, begins = SCRIPT.count(b"\n"), session_text(SCRIPT)
    said = run_program(program, ["run"], SCRIPT + text)[0]
    if by_reckoning and said != session_text(SCRIPT + text):
        raise ValueError("bq and the evaluator differ")
    return re.sub(rb"(?m)^error (\d+)", lambda it: b"error %d" % (int(it[1]) - count), said[len(begins):])


def children_of(process):
    try:
        with open(f"/proc/{process.pid}/task/{process.pid}/children", encoding="ascii") as file:
            return [int(it) for it in file.read().split()]
    except OSError:
        return []


def kill(*pids):
    for pid in pids:
        try:
            os.kill(pid, signal.SIGKILL)
        except OSError:
            pass


class Trial:
    """One input that is taken under tools/keep, in its own folder."""

    hows = ["keep", "keep", "bq", "both", "end", "checkpoint"]

    def __init__(self, part, program, kind, number, kills):
        self.part, self.program, self.kind, self.kills = part, program, kind, kills
        self.random = random_numbers.Random(f"{part.seed} {kind} {number}")
        self.folder = tempfile.mkdtemp(prefix="bq-keep-")
        self.make_room(1 << 24)
        self.text = b"".join(one_line(self.random) + b"\n" for _ in range(LINES[kind]))
        self.wanted = wanted_of(program, self.text, "pipes" in kind)
        self.write("script", SCRIPT)
        # whether no more is sent before the program is hit
        self.said, self.is_resting = [], False
        self.prepare()

    def path(self, name):
        return f"{self.folder}.said" if name == "said" else os.path.join(self.folder, name)

    def make_room(self, size):
        """Has the folder hold so many bytes, where a kind minds it."""

    def write(self, name, text):
        with open(self.path(name), "wb") as file:
            file.write(text)

    def read(self, name):
        with open(self.path(name), "rb") as file:
            return file.read()

    def size(self):
        return os.path.getsize(self.path("output")) if os.path.exists(self.path("output")) else 0

    def words(self):
        """Those that all kinds share."""
        return [*KEEP, "--program", self.program, "--every", str(self.random.choice([1, 100, 1000, 5000])),
                "--seconds", str(self.random.choice([0.05, 0.3, 10])), "--grace", "600"]

    def prepare(self):
        self.write("input", self.text)

    def start(self):
        return self.begin(["--input", self.path("input"), "--output", self.path("output")], stdin=subprocess.DEVNULL)

    def begin(self, more, **how):
        self.said.append(open(self.path("said"), "ab"))
        self.part.count("starts")
        return subprocess.Popen([*self.words(), *more, self.path("kept"), self.path("script")], stderr=self.said[-1], **how)

    def is_at_end(self):
        return self.size() >= len(self.wanted)

    def hit(self, process, how):
        """Kills what `how` says, or tells the keeper."""
        self.part.count({**KILLED, "end": "told to end", "checkpoint": "told to take a checkpoint"}[how])
        os.write(self.said[-1].fileno(), f"campaign: {how} behind {self.size()} bytes of replies\n".encode())
        if how == "end":
            process.terminate()
        elif how == "checkpoint":
            process.send_signal(signal.SIGHUP)
        else:
            kill(*(children_of(process) if how in ("bq", "both") else []), *([process.pid] if how in ("keep", "both") else []))

    def go_on(self):
        """Starts it, and hits it at random moments until it ends or is at the end; whether it ended by itself with all done."""
        process, until = self.start(), time.monotonic() + PATIENCE
        how, is_bq_killed = None, False
        while self.kills > 0 and process.poll() is None and how in (None, "bq", "checkpoint", "change"):
            target = self.size() + self.random.choice([0, 0.01, 0.05, 0.2]) * (len(self.wanted) - self.size()) * self.random.random()
            while process.poll() is None and self.size() < target and not self.is_resting and time.monotonic() < until:
                time.sleep(0.002)
            time.sleep(self.random.choice([0, 0.05, 0.3, 0.8 if self.kind in ("files", "follow") else 0.1]) * self.random.random())
            if process.poll() is None:
                how = self.random.choice(self.hows)
                self.hit(process, how)
                self.kills -= how in KILLED
                is_bq_killed = is_bq_killed or how == "bq"
        self.until_end(process, until)
        try:
            process.wait(PATIENCE)
        except subprocess.TimeoutExpired:
            self.differs(f"no end in {PATIENCE} seconds after {how}: {self.tail()}")
            kill(*children_of(process), process.pid)
            process.wait()
            return True
        self.finish()
        allowed = {None: [0], "bq": [0], "change": [0], "checkpoint": [0, -1], "keep": [-9], "both": [-9], "end": [0, -15], "consumer": [0, 1, -9]}[how]
        if how == "end" and "bq ended by itself" in self.tail():
            # it was told to end while it had no bq, so there was no last checkpoint
            allowed.append(1)
        allowed += self.more_allowed()
        # a program may be hit before it minds signals, or when it is at its end
        if process.returncode not in [*allowed, 0, -15, -1]:
            # what comes behind the kill may come before the keeper sees it
            at_start = process.returncode == 1 and is_bq_killed and "before the first checkpoint" in self.tail()
            if not at_start:
                self.differs(f"status {process.returncode} after {how}: {self.tail()}")
                return True
        return process.returncode in (0, -15) and self.is_at_end() and (process.returncode == 0 or self.kills <= 0)

    def differs(self, what):
        """Notes a difference, and keeps all files of the trial, what the keeper said among them."""
        folder = os.path.join(kept_folder(), os.path.basename(self.folder))
        shutil.copytree(self.folder, folder, ignore=shutil.ignore_patterns("control", "ack"), dirs_exist_ok=True)
        shutil.copy(self.path("said"), os.path.join(folder, "said"))
        self.part.differs(f"{self.kind}: {what} (kept in {folder})")

    def tail(self):
        return self.read("said")[-400:].decode(errors="replace")

    def more_allowed(self):
        """Statuses that are right besides."""
        return []

    def until_end(self, process, until):
        """Has a keeper end that does not end by itself."""

    def finish(self):
        self.said.pop().close()

    def run(self):
        ends = 0
        while not self.go_on():
            ends += 1
            if ends > 400:
                self.differs("no end")
                break
        self.part.count(f"inputs over {self.kind}")
        self.part.count("bytes of replies", len(self.wanted))
        got = self.read("output")
        if got != self.wanted:
            self.differs(f"{first_other_line(got, self.wanted)}: {self.tail()}")
        if found := re.search(rb".*is cut there|Traceback(?:.*\n){1,30}", self.read("said")):
            self.differs(f"it said {found[0].decode(errors='replace')}")
        self.make_room(0)
        shutil.rmtree(self.folder)
        os.remove(self.path("said"))


class Changed(Trial):
    """An operator creates and drops queries meanwhile. What is wanted is one session in which each statement stands where the list of changes says."""

    hows = ["keep", "bq", "both", "change", "change", "change"]

    def hit(self, process, how):
        if how != "change":
            return super().hit(process, how)
        name = self.random.randrange(6)
        statement = self.random.choice([b"CREATE QUERY c%d AS SELECT R.room FROM R WHERE R.celsius = %d\n", b"DROP QUERY c%d\n--%d"]) % (name, name)
        while process.poll() is None:
            try:
                pipe = os.open(self.path("kept/control"), os.O_WRONLY | os.O_NONBLOCK)
                break
            except OSError:
                time.sleep(0.01)
        else:
            return None
        os.write(pipe, statement.split(b"\n")[0] + b"\n")
        os.close(pipe)
        self.part.count("statements of the operator")
        return None

    def is_at_end(self):
        ran = subprocess.run([*KEEP, "--where", self.path("kept")], capture_output=True, timeout=PATIENCE)
        if int(ran.stdout.split()[5]) < len(self.text):
            return False
        self.wanted = self.wanted_with(self.read("kept/changes"))
        return True

    def wanted_with(self, changes):
        lines, begins = self.text.splitlines(keepends=True), session_text(SCRIPT)
        placed = [it.split(b" ", 1) for it in changes.splitlines(keepends=True) if it[:1].isdigit()]
        self.part.count("of them taken", len(placed))
        text, numbers, done = [], {}, 0
        for place, statement in [*placed, (b"%d" % len(lines), b"")]:
            for line in lines[done:int(place)]:
                text.append(line)
                numbers[SCRIPT.count(b"\n") + len(text)] = len(numbers) + 1
            done = int(place)
            text.append(statement)
        said = run_program(self.program, ["run"], SCRIPT + b"".join(text))[0][len(begins):]
        kept = []
        for line in said.splitlines(keepends=True):
            if line.startswith(b"error "):
                number = int(line.split()[1])
                if number not in numbers:
                    continue
                line = b"error %d %s\n" % (numbers[number], line.split()[2])
            elif line.startswith(b"ok "):
                continue
            kept.append(line)
        return b"".join(kept)


class Follow(Trial):
    """A producer appends to a file and renames it, whether the keeper runs or not."""

    def prepare(self):
        self.write("rows", b"")
        self.producer = threading.Thread(target=self.produce, daemon=True)
        self.producer.start()

    def produce(self):
        random, place = random_numbers.Random(str(self.part.seed)), 0
        # a session begins with the file that is there; over each later renaming it goes on
        while not glob.glob(os.path.join(self.path("kept"), "checkpoint-*.bq")):
            time.sleep(0.01)
        while place < len(self.text):
            with open(self.path("rows"), "ab", buffering=0) as file:
                for _ in range(random.randint(1, 60)):
                    length = random.choice([1, 30, 2000])
                    file.write(self.text[place:place + length])
                    place += length
                    time.sleep(random.choice([0, 0.001, 0.03]))
                # a file ends with a line
                end = self.text.find(b"\n", place - 1) + 1 if 0 < place < len(self.text) else place
                file.write(self.text[place:end])
                place = max(place, end)
            if place < len(self.text):
                for number in range(40, 0, -1):
                    if os.path.exists(self.path(f"rows.{number}")):
                        os.rename(self.path(f"rows.{number}"), self.path(f"rows.{number + 1}"))
                os.rename(self.path("rows"), self.path("rows.1"))
                time.sleep(random.choice([0, 0.01, 0.3]))
                self.write("rows", b"")
                self.part.count("renamings")

    def start(self):
        return self.begin(["--follow", self.path("rows"), "--output", self.path("output")], stdin=subprocess.DEVNULL)

    def until_end(self, process, until):
        while process.poll() is None and self.kills <= 0 and time.monotonic() < until:
            if self.is_at_end() and not self.producer.is_alive():
                time.sleep(0.1)
                process.terminate()
                break
            time.sleep(0.01)

    def is_at_end(self):
        return super().is_at_end() and not self.producer.is_alive()


class FullDisk(Trial):
    """The folder is a small disk that is full at some write: of a checkpoint, or of replies. It is given more room now and then."""

    hows = ["keep", "both", "checkpoint", "checkpoint", "checkpoint"]

    def make_room(self, size):
        is_first = not os.path.ismount(self.folder)
        if size:
            subprocess.run(["mount", "-t", "tmpfs", "-o", f"{'' if is_first else 'remount,'}size={size}", "tmpfs", self.folder], check=True)
        else:
            subprocess.run(["umount", self.folder], check=True)

    def start(self):
        room = os.statvfs(self.folder)
        used = (room.f_blocks - room.f_bfree) * room.f_frsize
        # behind the last trial there is room for all
        self.make_room(used + self.random.choice([8192, 20_000, 60_000, 200_000]) if self.kills > 0 else 1 << 24)
        return super().start()

    def more_allowed(self):
        if "No space left" not in self.tail():
            return []
        self.part.count("ended by a full disk")
        self.kills -= 1
        return [1]


class Pipes(Trial):
    """A producer that sends what `--where` says, and a consumer that tells what it has made durable."""

    hows = [*Trial.hows, "consumer", "consumer"]

    def prepare(self):
        self.consumer = None
        if self.kind == "named pipes":
            os.mkfifo(self.path("ack"))

    def start(self):
        size = self.size()
        if self.kind == "pipes":
            # a consumer tells what it has before a run begins
            self.write("ack", b"%d\n" % size)
        ran = subprocess.run([*KEEP, "--where", "--ack", self.path("ack"), self.path("kept")], capture_output=True, timeout=PATIENCE)
        place = int(ran.stdout.split()[5])
        process = self.begin(["--ack", self.path("ack"), "--from", str(place)], stdin=subprocess.PIPE, stdout=subprocess.PIPE, bufsize=0)
        self.consumer = subprocess.Popen([sys.executable, "-c", CONSUMER, self.path("output"), self.path("ack"), "fifo" if self.kind == "named pipes" else "file"],
                                         stdin=process.stdout, stderr=subprocess.DEVNULL)
        process.stdout.close()
        self.is_resting = False
        self.feeding = threading.Thread(target=self.feed, args=(process, place), daemon=True)
        self.feeding.start()
        return process

    def feed(self, process, place):
        """Sends what comes from a place on: at some random byte it rests, as so small an input would be at its end before the first kill."""
        random = random_numbers.Random(place)
        rests_at = random.randint(place, len(self.text))
        try:
            while place < len(self.text):
                length = random.choice([1, 100, 800])
                if place + length > rests_at:
                    self.rest(process)
                process.stdin.write(self.text[place:place + length])
                place += length
                time.sleep(0.005)
            self.rest(process)
            process.stdin.close()
        except OSError:
            pass

    def rest(self, process):
        """Waits until the program was killed as often as it should be, or has ended."""
        self.is_resting = True
        while self.kills > 0 and process.poll() is None:
            time.sleep(0.002)

    def hit(self, process, how):
        super().hit(process, how)
        if how == "consumer":
            kill(self.consumer.pid)
            self.consumer.wait()
            # it is seen with the next reply
            time.sleep(0.2)
            if process.poll() is None:
                kill(process.pid)

    def finish(self):
        # a consumer whose keeper was killed before it opened the named pipe waits for someone who opens it
        ear = os.open(self.path("ack"), os.O_RDWR | os.O_NONBLOCK | os.O_CREAT)
        self.consumer.wait(PATIENCE)
        os.close(ear)
        self.feeding.join(PATIENCE)
        super().finish()


def mutated(random, text):
    """A checkpoint that was changed by a byte, a line, or a number."""
    kind = random.randrange(6)
    lines = text.splitlines(keepends=True)
    at = random.randrange(len(lines))
    if kind == 0:
        return text[:random.randrange(len(text))]
    if kind == 1:
        place = random.randrange(len(text))
        return text[:place] + bytes([text[place] ^ 1 << random.randrange(8)]) + text[place + 1:]
    if kind == 2:
        return b"".join(lines[:at] + lines[at + 1:])
    if kind == 3:
        return b"".join(lines[:at] + [lines[at]] + lines[at:])
    if kind == 4:
        numbers = list(re.finditer(rb"\d+", text))
        one = random.choice(numbers)
        return text[:one.start()] + b"%d" % (int(one[0]) + random.choice([1, -1, 40])) + text[one.end():]
    other = random.randrange(len(lines))
    lines[at], lines[other] = lines[other], lines[at]
    return b"".join(lines)


class Mutations:
    """Sessions that were stopped half-way, and go on from a changed checkpoint: it is refused by a sentence, or the one before it is gone on from."""

    def __init__(self, part, program):
        self.part, self.program, self.folder = part, program, tempfile.mkdtemp(prefix="bq-keep-")
        random = random_numbers.Random(f"{part.seed} mutations")
        self.text = b"".join(one_line(random) + b"\n" for _ in range(300))
        self.wanted = wanted_of(program, self.text, True)
        self.put(self.folder, "script", SCRIPT)
        self.put(self.folder, "input", self.text[:self.text.index(b"\n", len(self.text) // 2) + 1])
        ran = self.keep(self.folder)
        if ran.returncode:
            part.differs(f"status {ran.returncode}: {ran.stderr!r}")

    @staticmethod
    def put(folder, name, text):
        with open(os.path.join(folder, name), "wb") as file:
            file.write(text)

    def keep(self, folder):
        named = [os.path.join(folder, it) for it in ("input", "output", "kept", "script")]
        return subprocess.run([*KEEP, "--program", self.program, "--input", named[0], "--output", *named[1:]], capture_output=True, timeout=PATIENCE)

    def one(self, number):
        random = random_numbers.Random(f"{self.part.seed} mutation {number}")
        with tempfile.TemporaryDirectory(prefix="bq-keep-") as top:
            folder = os.path.join(top, "one")
            # the named pipe for the operator is made anew
            shutil.copytree(self.folder, folder, ignore=shutil.ignore_patterns("control"))
            names = sorted(it for it in os.listdir(os.path.join(folder, "kept")) if re.fullmatch(r"checkpoint-\d+\.bq", it))
            # with one alone there is none to go on from
            is_alone = random.random() < 0.8
            for name in names[:-1] if is_alone else []:
                os.remove(os.path.join(folder, "kept", name))
            with open(os.path.join(folder, "kept", names[-1]), "rb") as file:
                whole = file.read()
            changed = mutated(random, whole)
            self.put(os.path.join(folder, "kept"), names[-1], changed)
            self.put(folder, "input", self.text)
            ran = self.keep(folder)
            with open(os.path.join(folder, "output"), "rb") as file:
                got = file.read()
        is_refused = ran.returncode == 1 and b"whole" in ran.stderr and self.wanted.startswith(got)
        is_same = ran.returncode == 0 and got == self.wanted and (changed == whole or not is_alone and b"is passed by" in ran.stderr)
        self.part.count("changed checkpoints")
        self.part.count("of them refused", is_refused)
        if not (is_refused and is_alone or is_same) or b"Traceback" in ran.stderr:
            self.part.differs(f"a changed checkpoint: status {ran.returncode}, {first_other_line(got, self.wanted)}, {ran.stderr[-300:]!r}", changed)

    def end(self):
        shutil.rmtree(self.folder)


def can_mount():
    """Whether a small disk can be made, which within a container root may not."""
    if os.geteuid() or not shutil.which("mount"):
        return False
    with tempfile.TemporaryDirectory(prefix="bq-keep-") as folder:
        is_made = not subprocess.run(["mount", "-t", "tmpfs", "tmpfs", folder], capture_output=True, check=False).returncode
        if is_made:
            subprocess.run(["umount", folder], check=True)
        return is_made


KINDS = {"files": Trial, "changes": Changed, "follow": Follow, "pipes": Pipes, "named pipes": Pipes, **({"full disk": FullDisk} if can_mount() else {})}


def guarded(part, function, *words):
    try:
        function(*words)
    except Exception as fault:  # a trial that breaks is a difference, and the others go on
        part.differs(f"{type(fault).__name__}: {fault}")


def run(program, seed, scale):
    part = Part("keep", seed)
    part.count("starts", 0)
    if not CHECKPOINT_SHARE:
        return part
    kills, mutations = scaled(KILLS, scale), scaled(MUTATIONS, scale)
    # of few kills each kind has some too
    number, most = 0, min(12, -(-kills // len(KINDS)))
    last = ROUNDS * -(-kills // (most * len(KINDS))) * len(KINDS)
    with ThreadPoolExecutor(AT_ONCE) as pool:
        # a trial may be at its end before it was killed so often, and then others make up for it
        while number < last and (left := kills - sum(part.counts.get(it, 0) for it in KILLED.values())) > 0:
            # in another order each round, so that the rest of the kills is for all kinds
            trials = []
            for kind, trial in part.random.sample(list(KINDS.items()), len(KINDS)):
                share, number = min(left, most), number + 1
                left -= share
                if share > 0:
                    trials.append(pool.submit(guarded, part, lambda trial, *words: trial(*words).run(), trial, part, program, kind, number, share))
            wait(trials)
        changed = Mutations(part, program)
        for number in range(mutations):
            pool.submit(guarded, part, changed.one, number)
    changed.end()
    return part
