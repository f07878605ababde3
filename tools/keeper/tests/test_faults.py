"""What goes wrong in production, each as a test over the command: the environment names the program as BQ, and the command as KEEP.

What is wanted comes from one `bq run` over the same lines that nothing interrupts, or is written down here.
"""
import contextlib
import hashlib
import os
import re
import resource
import select
import shutil
import signal
import socket
import subprocess
import sys
import tempfile
import threading
import time
import unittest

TOOLS = os.path.dirname(os.path.dirname(os.path.dirname(os.path.abspath(__file__))))
KEEP, BQ = os.environ.get("KEEP") or os.path.join(TOOLS, "keep"), os.environ.get("BQ", "bq")
# a test waits for an event; this only ends one that would wait for ever, also on a machine that has a hundred times as much to do
PATIENCE = 3600
SCRIPT = b"CREATE STREAM Temp (room, val)\nCREATE STREAM Lim (room, val)\nCREATE COMPACT QUERY hot AS SELECT DISTINCT Temp.room FROM Temp, Lim" \
         b" WHERE Temp.room = Lim.room AND Temp.val > Lim.val AND Temp.room > 0 AND Temp.room < 40\n"
FLAT = b"CREATE STREAM S (a)\nCREATE QUERY q AS SELECT S.a FROM S\n"


def rows(*numbers):
    return b"".join(b"S,%d\n" % it for it in numbers)


def answers(*numbers):
    return b"".join(b"q,%d\n" % it for it in numbers)


class Faults(unittest.TestCase):
    def setUp(self):
        self.folder = tempfile.TemporaryDirectory(prefix="keeper-test-")
        self.addCleanup(self.folder.cleanup)
        self.put("script", FLAT)
        self.running = []
        self.addCleanup(self.end_all)

    def end_all(self):
        for process in self.running:
            for child in self.children(process):
                os.kill(child, signal.SIGKILL)
            process.kill()
            process.wait()
            for pipe in (process.stdin, process.stdout, process.stderr):
                if pipe:
                    pipe.close()

    @staticmethod
    def children(process):
        try:
            with open(f"/proc/{process.pid}/task/{process.pid}/children", encoding="ascii") as file:
                return [int(it) for it in file.read().split()]
        except OSError:
            return []

    def path(self, name):
        return os.path.join(self.folder.name, name)

    def put(self, name, text, how="wb"):
        with open(self.path(name), how) as file:
            file.write(text)

    def get(self, name):
        try:
            with open(self.path(name), "rb") as file:
                return file.read()
        except FileNotFoundError:
            return b""

    def words(self, *more, folder="kept", script="script", flags=("-S",)):
        # a busy machine may take its time for an end; who tests that says less behind it
        return [sys.executable, *flags, KEEP, "--program", BQ, "--grace", "3600", *more, self.path(folder), *([self.path(script)] if script else [])]

    def keep(self, *more, given=b"", **how):
        """Runs it to its end."""
        return subprocess.run(self.words(*more, **how), input=given, capture_output=True, timeout=PATIENCE, check=False)

    def start(self, *more, stdin=subprocess.DEVNULL, stdout=subprocess.DEVNULL, limit=None, flags=("-S",), folder="kept", **how):
        """Has it run beside the test; what it says stands in the file `said`. No file gets more bytes than the limit."""
        words = [*(["prlimit", f"--fsize={limit}:{limit}"] if limit else []), *self.words(*more, flags=flags, folder=folder)]
        with open(self.path("said"), "ab") as said:
            process = subprocess.Popen(words, stdin=stdin, stdout=stdout, stderr=said, bufsize=0, **how)
        self.running.append(process)
        return process

    def until(self, what, seconds=PATIENCE):
        until = time.monotonic() + seconds
        while not what():
            if time.monotonic() > until:
                self.fail(f"it did not come in {seconds} s; it said {self.get('said')[-600:]!r}")
            time.sleep(0.01)

    def end(self, process, status=0):
        process.terminate()
        self.assertEqual(process.wait(PATIENCE), status, self.get("said"))

    def kill(self, process):
        process.kill()
        process.wait()

    def checkpoints(self):
        return sorted(it for it in os.listdir(self.path("kept")) if it.endswith(".bq"))

    def newest(self):
        return self.path("kept/" + self.checkpoints()[-1])

    def has_bytes(self, number):
        """Whether the newest checkpoint is behind so many bytes of the input."""
        try:
            with open(self.newest(), "rb") as file:
                return b" bytes %d " % number in file.read()
        except (FileNotFoundError, IndexError):
            return False


class Input(Faults):
    def test_rows_behind_a_renaming_are_read(self):
        self.put("rows", rows(1, 2))
        process = self.start("--follow", self.path("rows"), "--output", self.path("out"))
        self.until(lambda: self.get("out") == answers(1, 2))
        os.rename(self.path("rows"), self.path("rows.1"))
        self.put("rows", b"")
        self.end(process)
        self.put("rows", rows(3, 4, 5, 6, 7, 8, 9))
        process = self.start("--follow", self.path("rows"), "--output", self.path("out"))
        self.until(lambda: self.get("out") == answers(*range(1, 10)))
        self.end(process)

    def test_a_file_that_was_cut_is_refused(self):
        self.put("rows", rows(1, 2))
        self.assertEqual(self.keep("--input", self.path("rows"), "--output", self.path("out")).returncode, 0)
        self.put("rows", rows(7, 8, 9, 10, 11))
        ran = self.keep("--input", self.path("rows"), "--output", self.path("out"))
        self.assertEqual((ran.returncode, self.get("out")), (1, answers(1, 2)))
        self.assertIn(b"is not the file that was read", ran.stderr)

    def test_the_mark_of_a_producer_is_told(self):
        self.keep(given=b"--@ partition 3 offset 17\nS,1\n--@ partition 3 offset 18\n")
        ran = self.keep("--where", script=None)
        self.assertEqual(ran.stdout, b"rows 1 lines 3 bytes 56 output 4 token partition 3 offset 18\n")

    def test_a_line_without_an_end_takes_neither_memory_nor_time(self):
        process = self.start("--output", self.path("out"), stdin=subprocess.PIPE)
        piece = b"x" * (1 << 20)
        for _ in range(64):
            process.stdin.write(piece)
        process.stdin.write(b"\nS,1\n")
        self.until(lambda: self.get("out").endswith(answers(1)))
        with open(f"/proc/{process.pid}/status", encoding="ascii") as file:
            self.assertLess(int(re.search(r"VmHWM:\s+(\d+)", file.read())[1]), 60_000)
        with open(f"/proc/{process.pid}/stat", encoding="ascii") as file:
            ticks = sum(int(it) for it in file.read().rpartition(")")[2].split()[11:13])
        # of the processor, however busy it is
        self.assertLess(ticks / os.sysconf("SC_CLK_TCK"), 15)
        self.assertEqual(self.get("out"), b"error 1 LineTooLong\n" + answers(1))
        process.stdin.close()
        self.assertEqual(process.wait(PATIENCE), 0)

    def test_a_line_whose_front_would_be_short_enough_is_too_long(self):
        """Of one that comes in pieces its front alone is sent on, which ends with a CR here."""
        front = b"S," + b" " * 1021 + b"7"
        for behind, said in ((b"", answers(7)), (b"\r" + b"x" * 40_000, b"error 1 LineTooLong\n")):
            self.assertEqual(self.keep(given=front + behind + b"\n", folder=f"kept{len(behind)}").stdout, said)

    def test_statements_among_the_rows_are_locked(self):
        ran = self.keep(given=b"S,1\nDROP QUERY q\nCREATE STREAM T (a)\nCHECKPOINT\nRESUME 7\nUNLOCK 1\nS,2\n")
        self.assertEqual(ran.stdout, answers(1) + b"".join(b"error %d Locked\n" % it for it in range(2, 7)) + answers(2))

    def test_rows_of_other_streams_are_locked(self):
        self.put("script", b"CREATE STREAM T (b)\n" + FLAT)
        self.assertEqual(self.keep("--to", "S", given=b"S,1\nT,1\n").stdout, answers(1) + b"error 2 Locked\n")

    def test_a_stream_that_the_script_has_not_is_refused(self):
        ran = self.keep("--to", "S,T", given=rows(1))
        self.assertEqual((ran.returncode, ran.stdout), (1, b""))
        self.assertIn(b"does not take what begins the session: error 3 UnknownStream", ran.stderr)

    def test_rows_one_by_one_are_taken_as_all_at_once(self):
        """Each piece is sent when the replies to those before have come."""
        pieces = [b"S,1\n", b"S,2\nS,3\n", b"--@ 7\n", b"S,4\n", b"S,x\n", b"S,", b"5\n", b"y" * 3000 + b"\nS,6\n", b"\n", b"DROP QUERY q\n", b"S,7\r\n", b"S,8\n"] * 20
        wanted = self.keep(given=b"".join(pieces), folder="other").stdout
        process, came = self.start("--every", "50", stdin=subprocess.PIPE, stdout=subprocess.PIPE), b""
        for piece in pieces:
            process.stdin.write(piece)
            while not piece.startswith((b"--", b"\n")) and piece.endswith(b"\n") and not self.ends_like(came, wanted, piece):
                came += os.read(process.stdout.fileno(), 4096)
        process.stdin.close()
        self.assertEqual((process.wait(PATIENCE), came), (0, wanted))
        self.assertEqual(*(self.keep("--where", script=None, folder=it).stdout for it in ("kept", "other")))

    @staticmethod
    def ends_like(came, wanted, piece):
        """Whether the reply to a piece is the last that came."""
        last = b"Locked\n" if b"DROP" in piece else b"Value\n" if b"x" in piece else b"q," + piece.split(b",")[-1].replace(b"\r", b"")
        return wanted.startswith(came) and came.endswith(last)

    def test_wrong_words_are_told_from_what_is_wrong(self):
        for words in (["--no-such-word"], ["--every", "0"], ["--every", "many"], ["--grace", "-1"], ["--input", "a", "--follow", "b"], ["--where"], ["--change", "x", "--status"]):
            ran = self.keep(*words)
            self.assertEqual((ran.returncode, ran.stdout), (2, b""), ran.stderr)
        self.assertEqual(self.keep(script=None).returncode, 2)
        self.assertFalse(os.path.exists(self.path("kept")))

    def test_a_named_pipe_that_is_followed_stays_open(self):
        os.mkfifo(self.path("rows"))
        process = self.start("--follow", self.path("rows"), "--output", self.path("out"))
        for number in (1, 2, 3):
            with open(self.path("rows"), "wb") as file:
                file.write(rows(number))
            self.until(lambda: self.get("out") == answers(*range(1, number + 1)))
        self.end(process)


class Output(Faults):
    def test_what_a_reader_saw_is_never_cut(self):
        self.put("rows", rows(*range(1, 9)))
        words = ["--every", "1000000", "--seconds", "1000", "--follow", self.path("rows"), "--output", self.path("out")]
        process = self.start(*words)
        self.until(lambda: self.get("out") == answers(*range(1, 9)))
        self.kill(process)
        self.put("rows", rows(9), "ab")
        with open(self.path("out"), "rb") as reader:
            process, seen = self.start(*words), []

            def tail():
                # as tail -F does it
                if os.fstat(reader.fileno()).st_size < reader.tell():
                    seen.append(b"cut\n")
                    reader.seek(0)
                seen.append(reader.read())
                return b"".join(seen).endswith(answers(9))

            self.until(tail)
        self.assertEqual(b"".join(seen), answers(*range(1, 10)))
        self.end(process)

    def test_a_torn_output_is_mended_and_told(self):
        self.put("rows", rows(1, 2, 3))
        words = ["--seconds", "1000", "--follow", self.path("rows"), "--output", self.path("out")]
        process = self.start(*words)
        self.until(lambda: self.get("out") == answers(1, 2, 3))
        self.kill(process)
        self.put("out", answers(1) + b"\0\0\0\0\0")
        process = self.start(*words)
        self.until(lambda: self.get("out") == answers(1, 2, 3))
        self.end(process)
        self.assertIn(b"is cut there", self.get("said"))

    def test_replies_that_were_not_made_durable_come_again(self):
        """Both sides of a pipe are killed; the consumer has the replies to 5 of 20 rows, and a checkpoint was taken behind each."""
        source, durable = rows(*range(1, 21)), b""
        self.put("ack", b"0\n")
        process = self.start("--every", "1", "--seconds", "1000", "--ack", self.path("ack"), stdin=subprocess.PIPE, stdout=subprocess.PIPE)
        sent = 0
        for line in source.splitlines(keepends=True):
            process.stdin.write(line)
            sent += len(line)
            self.until(lambda: self.has_bytes(sent))
        while len(durable) < len(answers(*range(1, 6))):
            durable += os.read(process.stdout.fileno(), 4)
        self.kill(process)
        self.put("ack", b"%d\n" % len(durable))
        ran = self.keep("--where", "--ack", self.path("ack"), script=None)
        place = int(ran.stdout.split()[5])
        ran = self.keep("--ack", self.path("ack"), "--from", str(place), given=source[place:])
        self.assertEqual((durable + ran.stdout, ran.returncode), (answers(*range(1, 21)), 0))

    def test_a_consumer_that_tells_nothing_leaves_no_more_checkpoints_than_some(self):
        """It has the replies to 37 of 50 rows when it says so at last, and a checkpoint was taken behind each."""
        source, durable, sent = rows(*range(1, 51)), b"", 0
        self.put("ack", b"0\n")
        process = self.start("--every", "1", "--seconds", "1000", "--ack", self.path("ack"), stdin=subprocess.PIPE, stdout=subprocess.PIPE)
        for line in source.splitlines(keepends=True):
            process.stdin.write(line)
            sent += len(line)
            self.until(lambda: self.has_bytes(sent))
            self.assertLessEqual(len(self.checkpoints()), 33)
        while len(durable) < len(answers(*range(1, 38))):
            durable += os.read(process.stdout.fileno(), 1)
        self.kill(process)
        self.put("ack", b"%d\n" % len(durable), "ab")
        ran = self.keep("--where", "--ack", self.path("ack"), script=None)
        place = int(ran.stdout.split()[5])
        self.assertGreater(place, 0)
        ran = self.keep("--ack", self.path("ack"), "--from", str(place), given=source[place:])
        self.assertEqual((durable + ran.stdout, ran.returncode), (answers(*range(1, 51)), 0))

    def test_a_consumer_that_cuts_what_it_has_has_nothing_twice(self):
        """Over a pipe it tells nothing; the keeper is killed behind the checkpoint of 3 of 5 rows, and all replies came."""
        process, came = self.start("--seconds", "1000", stdin=subprocess.PIPE, stdout=subprocess.PIPE), b""
        process.stdin.write(rows(1, 2, 3))
        while came != answers(1, 2, 3):
            came += os.read(process.stdout.fileno(), 100)
        process.send_signal(signal.SIGHUP)
        self.until(lambda: self.has_bytes(12))
        process.stdin.write(rows(4, 5))
        while came != answers(1, 2, 3, 4, 5):
            came += os.read(process.stdout.fileno(), 100)
        self.kill(process)
        place = self.keep("--where", script=None).stdout.split()
        self.assertEqual((int(place[5]), int(place[7])), (12, 12))
        ran = self.keep("--from", place[5].decode(), given=rows(4, 5, 6))
        self.assertEqual((ran.returncode, came[:int(place[7])] + ran.stdout), (0, answers(1, 2, 3, 4, 5, 6)))

    def test_two_runs_have_neither_one_folder_nor_one_output(self):
        os.mkfifo(self.path("rows"))
        words = ["--follow", self.path("rows"), "--output", self.path("out")]
        process = self.start(*words)
        self.until(lambda: os.path.isdir(self.path("kept")) and self.checkpoints())
        for ran in (self.keep(*words), self.keep(*words, folder="other"), self.keep("--where", script=None)):
            self.assertEqual(ran.returncode, 3, ran.stderr)
            self.assertIn(b"another run has", ran.stderr)
        self.end(process)
        self.assertEqual(self.keep("--where", script=None).returncode, 0)

    def test_a_session_that_begins_anew_goes_on_behind_what_stands_there(self):
        self.put("out", b"of an older session\n")
        self.put("rows", rows(1, 2))
        for _ in range(2):
            self.assertEqual(self.keep("--input", self.path("rows"), "--output", self.path("out")).returncode, 0)
            self.assertEqual(self.get("out"), b"of an older session\n" + answers(1, 2))

    def test_replies_may_go_to_a_file_in_one_run_and_to_a_pipe_in_another(self):
        self.assertEqual(self.keep("--output", self.path("out"), given=rows(1)).returncode, 0)
        self.assertEqual(self.keep("--from", "4", given=rows(2)).stdout, answers(2))
        ran = self.keep("--from", "8", "--output", self.path("out"), given=rows(3))
        self.assertEqual((ran.returncode, self.get("out")), (1, answers(1)))
        self.assertIn(b"is not the output", ran.stderr)

    def test_it_goes_on_on_another_machine(self):
        """Folder, followed file and output are copied, so all have other inodes."""
        words = ["--follow", "{}/rows", "--output", "{}/out"]
        for count, name in enumerate(("one", "two", "three"), 1):
            folder = self.path(name)
            shutil.copytree(self.path(before), folder, ignore=shutil.ignore_patterns("control")) if count > 1 else os.mkdir(folder)
            self.put(f"{name}/rows", rows(count), "ab")
            process = self.start(*(it.format(folder) for it in words), folder=f"{name}/kept")
            self.until(lambda: self.get(f"{name}/out") == answers(*range(1, count + 1)))
            self.end(process)
            before = name

    def test_a_standard_handle_that_is_closed_is_no_file_of_the_keeper(self):
        for closed, status in (("<&-", 0), (">&-", 1), ("2>&-", 0)):
            ran = subprocess.run(["sh", "-c", f'exec "$@" {closed}', "sh", *self.words(folder=f"kept{closed[0]}")], input=rows(1), capture_output=True, timeout=PATIENCE, check=False)
            self.assertEqual((ran.returncode, ran.stdout), (status, answers(1) if closed == "2>&-" else b""), ran.stderr)

    def test_a_folder_in_which_it_may_not_write(self):
        os.mkdir(self.path("kept"), 0o555)
        # root may write anywhere
        as_another = ["setpriv", "--bounding-set", "-dac_override"] if os.geteuid() == 0 else []
        ran = subprocess.run([*as_another, *self.words()], input=rows(1), capture_output=True, timeout=PATIENCE, check=False)
        self.assertEqual((ran.returncode, ran.stdout), (1, b""))
        self.assertIn(b"kept is a folder in which this user may not write", ran.stderr)

    def test_a_producer_that_begins_at_another_byte_is_refused(self):
        self.keep(given=rows(1, 2))
        self.assertEqual(self.keep("--from", "4", given=rows(2)).returncode, 1)
        self.assertEqual(self.keep("--from", "8", given=rows(3)).stdout, answers(3))

    def test_a_full_disk_is_told_with_its_path(self):
        """A file may have 2,000 bytes at most, so the output is full: what is there stays, and a run with more room goes on."""
        numbers = range(1, 1000)
        self.put("rows", rows(*numbers))
        words = self.words("--input", self.path("rows"), "--output", self.path("out"))
        ran = subprocess.run(["prlimit", "--fsize=2000:2000", *words], capture_output=True, timeout=PATIENCE, check=False)
        self.assertEqual(ran.returncode, 1)
        self.assertIn(self.path("out").encode(), ran.stderr)
        self.assertEqual(self.get("out"), answers(*numbers)[:2000])
        self.assertEqual(subprocess.run(words, capture_output=True, timeout=PATIENCE, check=False).returncode, 0)
        self.assertEqual(self.get("out"), answers(*numbers))

    def test_a_checkpoint_that_cannot_be_written_is_told_and_the_session_goes_on(self):
        self.put("script", SCRIPT)
        process = self.start("--every", "1", "--output", self.path("out"), stdin=subprocess.PIPE, limit=1200)
        for room in range(1, 40):
            process.stdin.write(b"Lim,%d,1\nTemp,%d,2\n" % (room, room))
            self.until(lambda: self.get("out").endswith(b"hot,%d\n" % room))
        self.until(lambda: b"no checkpoint could be written" in self.get("said"))
        self.assertIn(self.path("kept").encode(), self.get("said"))
        self.end(process, 1)
        ran = self.keep("--output", self.path("out"), given=b"")
        self.assertEqual((ran.returncode, self.get("out")), (0, b"".join(b"hot,%d\n" % it for it in range(1, 40))))


class Checkpoints(Faults):
    limits = b"Lim,7,40\nTemp,7,41\nLim,8,21\n"

    def setUp(self):
        super().setUp()
        self.put("script", SCRIPT)

    def test_a_changed_checkpoint_is_refused(self):
        self.keep(given=self.limits)
        for name in self.checkpoints()[:-1]:
            os.remove(self.path("kept/" + name))
        with open(self.newest(), "rb") as file:
            whole = file.read()
        lines = whole.splitlines(keepends=True)
        for changed in (whole.replace(b"< 40", b"< 42"), b"".join(lines[:-2] + lines[-1:]), b"".join(lines[:-1])):
            self.assertNotEqual(changed, whole)
            self.put("kept/" + self.checkpoints()[-1], changed)
            ran = self.keep(given=b"Temp,8,22\n")
            self.assertEqual((ran.returncode, ran.stdout), (1, b""))
            self.assertIn(b"whole", ran.stderr)

    def test_a_query_that_was_edited_is_refused_also_where_the_sum_fits(self):
        """Cells are numbered, so the contents of one query would answer for another."""
        self.keep(given=self.limits)
        for name in self.checkpoints()[:-1]:
            os.remove(self.path("kept/" + name))
        with open(self.newest(), "rb") as file:
            *lines, last = file.read().splitlines(keepends=True)
        front = b"".join(lines).replace(b"< 40", b"< 42")
        self.assertNotEqual(front, b"".join(lines))
        self.put("kept/" + self.checkpoints()[-1], front + re.sub(rb"[0-9a-f]{64}", hashlib.sha256(front).hexdigest().encode(), last))
        ran = self.keep(given=b"Temp,8,22\nTemp,7,9\n")
        self.assertEqual((ran.returncode, ran.stdout), (1, b""))
        self.assertIn(b"keeps hot otherwise", ran.stderr)

    def test_a_checkpoint_is_on_the_disk_behind_the_replies_before_it(self):
        """Whatever a power failure leaves: the replies are synced first, then the file, which is renamed, then its folder."""
        self.put("sitecustomize.py", f"""
import os
fsync, rename = os.fsync, os.rename
def note(text):
    with open({self.path("done")!r}, "a") as file:
        file.write(text + "\\n")
def noted_fsync(file):
    fsync(file)
    note("sync " + os.readlink("/proc/self/fd/%d" % (file if isinstance(file, int) else file.fileno())))
def noted_rename(old, new):
    rename(old, new)
    if str(new).endswith(".bq"):
        note(f"rename {{new}}")
os.fsync, os.rename = noted_fsync, noted_rename
""".encode())
        ran = subprocess.run(self.words("--output", self.path("out"), flags=()), input=self.limits, capture_output=True, timeout=PATIENCE, env={**os.environ, "PYTHONPATH": self.folder.name})
        self.assertEqual(ran.returncode, 0, ran.stderr)
        steps = []
        for name in (self.path("kept/" + it) for it in self.checkpoints()):
            steps += [f"sync {self.path('out')}", f"sync {name}.new", f"rename {name}", f"sync {self.path('kept')}"]
        self.assertEqual(self.get("done").decode().splitlines(), steps)

    def test_a_program_that_keeps_a_query_otherwise_is_refused(self):
        self.keep(given=self.limits)
        other = self.path("other-bq")
        self.put("other-bq", b"#!/bin/sh\n[ \"$1\" = --version ] && { echo bq 9; exit; }\nexec '%s' \"$@\" | sed -u 's/^dim \\|^  dim /&x/; s/^part/Part/'\n" % BQ.encode())
        os.chmod(other, 0o755)
        ran = self.keep("--program", other, given=b"Temp,8,22\n")
        self.assertEqual((ran.returncode, ran.stdout), (1, b""))
        self.assertIn(b"keeps hot otherwise", ran.stderr)

    def test_another_program_that_keeps_each_query_alike_goes_on(self):
        self.keep(given=self.limits)
        other = self.path("other-bq")
        self.put("other-bq", b"#!/bin/sh\n[ \"$1\" = --version ] && { echo bq 9; exit; }\nexec '%s' \"$@\"\n" % BQ.encode())
        os.chmod(other, 0o755)
        ran = self.keep("--program", other, given=b"Temp,8,22\n")
        self.assertEqual((ran.returncode, ran.stdout), (0, b"hot,8\n"))
        self.assertRegex(ran.stderr, rb"the program was bq .* and is bq 9; it keeps each query as before")

    def test_a_changed_script_is_told(self):
        self.keep(given=self.limits)
        self.put("script", SCRIPT + b"CREATE QUERY more AS SELECT Temp.val FROM Temp\n")
        ran = self.keep(given=b"Temp,8,22\n")
        self.assertEqual((ran.returncode, ran.stdout), (0, b"hot,8\n"))
        self.assertIn(b"was changed", ran.stderr)
        self.assertIn(b"CREATE QUERY more", ran.stderr)
        # the same statements in other words are no change
        self.put("script", SCRIPT.replace(b"CREATE STREAM", b"create  stream"))
        self.assertNotIn(b"was changed", self.keep(given=b"").stderr)

    def test_a_script_that_locks_is_refused(self):
        self.put("script", SCRIPT + b"LOCK 5\n")
        ran = self.keep(given=self.limits)
        self.assertEqual(ran.returncode, 1)
        self.assertIn(b"LOCK", ran.stderr)

    def test_a_clock_that_is_set_back(self):
        self.put("sitecustomize.py", b"import itertools, time\ncount = itertools.count(2e9, -1e6)\ntime.time = lambda: next(count)\n")
        text = self.limits + b"Temp,8,22\n"
        ran = subprocess.run(self.words("--every", "1", flags=()), input=text, capture_output=True, timeout=PATIENCE, env={**os.environ, "PYTHONPATH": self.folder.name})
        self.assertEqual((ran.stdout, ran.returncode), (b"hot,7\nhot,8\n", 0))


class Control(Faults):
    def test_what_the_operator_says_holds_over_a_kill(self):
        self.put("rows", rows(1))
        words = ["--seconds", "1000", "--follow", self.path("rows"), "--output", self.path("out")]
        process = self.start(*words)
        self.until(lambda: self.get("out") == answers(1))
        self.put("change", b"-- two more\nCREATE QUERY r AS SELECT S.a FROM S\nCREATE QUERY q AS SELECT S.a FROM S\nEXPLAIN q\nDROP QUERY q\n")
        ran = self.keep("--change", self.path("change"), script=None)
        self.assertEqual((ran.stdout, ran.returncode), (b"ok query r filter\nerror Duplicate\nCREATE and DROP lines alone\nok drop q\n", 1))
        self.put("rows", rows(2), "ab")
        self.until(lambda: self.get("out") == answers(1) + b"r,2\n")
        self.kill(process)
        process = self.start(*words)
        self.put("rows", rows(3), "ab")
        self.until(lambda: self.get("out") == answers(1) + b"r,2\nr,3\n")
        self.end(process)
        self.assertEqual(self.keep("--change", self.path("change"), script=None).returncode, 1)

    def test_a_change_is_made_once_more_at_its_place(self):
        """With no checkpoint behind it: all but the first are taken away."""
        self.put("rows", rows(1, 2))
        words = ["--seconds", "1000", "--follow", self.path("rows"), "--output", self.path("out")]
        process = self.start(*words)
        self.until(lambda: self.get("out") == answers(1, 2))
        first = self.get("kept/" + self.checkpoints()[0])
        self.put("change", b"CREATE QUERY r AS SELECT S.a FROM S\n")
        self.assertEqual(self.keep("--change", self.path("change"), script=None).stdout, b"ok query r filter\n")
        self.put("rows", rows(3), "ab")
        self.until(lambda: self.get("out") == answers(1, 2, 3) + b"r,3\n")
        self.kill(process)
        for name in self.checkpoints():
            os.remove(self.path("kept/" + name))
        self.put("kept/checkpoint-00000001.bq", first)
        self.put("rows", rows(4), "ab")
        process = self.start(*words)
        self.until(lambda: self.get("out") == answers(1, 2, 3) + b"r,3\n" + answers(4) + b"r,4\n")
        self.end(process)
        self.assertNotIn(b"is cut there", self.get("said"))
        # rows on both sides of it count, though they came at once
        self.assertEqual(self.keep("--where", script=None).stdout, b"rows 4 lines 4 bytes 16 output 24\n")

    def test_a_control_that_is_no_named_pipe_is_refused(self):
        self.put("control", b"DROP QUERY q\n")
        ran = self.keep("--control", self.path("control"), given=rows(1))
        self.assertEqual((ran.returncode, ran.stdout), (1, b""))
        self.assertIn(b"control is no named pipe", ran.stderr)

    def test_a_change_that_cannot_be_listed_is_told(self):
        """No file gets more than 700 bytes, so the list takes not all that is said."""
        process = self.start("--output", self.path("out"), stdin=subprocess.PIPE, limit=700)
        self.until(lambda: os.path.isdir(self.path("kept")) and self.checkpoints())
        self.put("change", b"EXPLAIN q\n" * 30)
        sending = subprocess.Popen(self.words("--change", self.path("change"), script=None), stdout=subprocess.PIPE, stderr=subprocess.PIPE)
        self.assertIn(b"no reply yet", sending.stderr.readline())
        sending.kill()
        self.assertRegex(sending.communicate()[0], rb"\A(CREATE and DROP lines alone\n){20,25}\Z")
        self.assertRegex(self.get("said"), rb"lines alone is not written, as ")
        process.stdin.write(rows(1))
        self.until(lambda: self.get("out") == answers(1))
        self.end(process)

    def test_a_change_stands_behind_the_replies_that_were_seen(self):
        """It comes before the rows come again whose replies stand there."""
        words = ["--seconds", "1000", "--output", self.path("out")]
        process = self.start(*words, stdin=subprocess.PIPE)
        process.stdin.write(rows(1, 2, 3))
        self.until(lambda: self.get("out") == answers(1, 2, 3))
        self.kill(process)
        os.remove(self.path("kept/metrics"))
        process = self.start(*words, stdin=subprocess.PIPE)
        self.until(lambda: self.get("kept/metrics"))
        with open(self.path("kept/control"), "wb") as control:
            control.write(b"CREATE QUERY r AS SELECT S.a FROM S\n")
        for count in (1, 2):
            # behind the second one it had time to read the statement
            process.send_signal(signal.SIGUSR1)
            self.until(lambda: self.get("said").count(b" rows, 0 a second") == count)
        process.stdin.write(rows(1, 2, 3))
        self.until(lambda: b"= ok query r" in self.get("kept/changes"))
        process.stdin.write(rows(4))
        self.until(lambda: self.get("out").endswith(b"r,4\n"))
        self.assertEqual(self.get("out"), answers(1, 2, 3, 4) + b"r,4\n")
        self.end(process)
        self.assertNotIn(b"is cut there", self.get("said"))


class Signals(Faults):
    def test_it_ends_while_the_consumer_stalls(self):
        process = self.start("--grace", "1", stdin=subprocess.PIPE, stdout=subprocess.PIPE)
        self.until(lambda: b"begins anew" in self.get("said"))
        os.set_blocking(process.stdin.fileno(), False)
        text = rows(*range(1000)) * 4

        def stalls():
            if select.select([], [process.stdin], [], 0)[1]:
                process.stdin.write(text[:4096])
            found = re.search(rb"\nkeep_unwritten_bytes (\d+)", self.get("kept/metrics"))
            return found and int(found[1]) > 900_000

        self.until(stalls)
        process.terminate()
        self.assertEqual(process.wait(PATIENCE), 1)
        self.assertIn(b"did not go on for 1 s", self.get("said"))

    def test_it_ends_while_a_disk_stalls(self):
        """The write of a reply does not come back, and no signal interrupts it."""
        self.put("sitecustomize.py", f"""
import ctypes, os
write, lock, mutex = os.write, ctypes.CDLL(None).pthread_mutex_lock, ctypes.create_string_buffer(64)
def stalls(fd, text):
    if b"q,7" in bytes(text):
        open({self.path("stalls")!r}, "w").close()
        lock(mutex), lock(mutex)
    return write(fd, text)
os.write = stalls
""".encode())
        process = self.start("--grace", "1", "--output", self.path("out"), flags=(), stdin=subprocess.PIPE, env={**os.environ, "PYTHONPATH": self.folder.name})
        process.stdin.write(rows(1, 7))
        self.until(lambda: os.path.exists(self.path("stalls")))
        self.end(process, 1)
        self.assertIn(b"did not go on for 1 s", self.get("said"))
        # what was answered stands there when it goes on
        self.assertEqual(self.keep("--output", self.path("out"), given=rows(1, 7)).returncode, 0)
        self.assertEqual(self.get("out"), answers(1, 7))

    def test_a_consumer_that_stalls_goes_on_where_it_was(self):
        """The input is sent by a thread, which waits as long as the consumer does."""
        process = self.start(stdin=subprocess.PIPE, stdout=subprocess.PIPE)
        numbers = range(300_000)
        feeding = threading.Thread(target=lambda: (process.stdin.write(rows(*numbers)), process.stdin.close()), daemon=True)
        feeding.start()
        self.until(lambda: (found := re.search(rb"\nkeep_unwritten_bytes (\d+)", self.get("kept/metrics"))) and int(found[1]) > 900_000)
        came = b"".join(iter(lambda: process.stdout.read(1 << 16), b""))
        self.assertEqual((process.wait(PATIENCE), came == answers(*numbers)), (0, True), self.get("said"))
        feeding.join()

    def test_it_minds_signals_from_when_it_says_where_it_begins(self):
        for begins in (b"begins anew", b"goes on", b"goes on"):
            process = subprocess.Popen(self.words(), stdin=subprocess.PIPE, stdout=subprocess.DEVNULL, stderr=subprocess.PIPE)
            self.running.append(process)
            self.assertIn(begins, process.stderr.readline())
            process.terminate()
            self.assertEqual(process.wait(PATIENCE), 0)

    def test_hup_and_usr1_do_not_end_it(self):
        process = self.start("--seconds", "1000", "--output", self.path("out"), stdin=subprocess.PIPE)
        process.stdin.write(rows(1, 2))
        self.until(lambda: self.get("out") == answers(1, 2))
        process.send_signal(signal.SIGHUP)
        self.until(lambda: self.has_bytes(8))
        process.send_signal(signal.SIGUSR1)
        self.until(lambda: b" rows, " in self.get("said"))
        self.end(process)

    def test_a_signal_to_the_whole_group_is_minded_by_the_keeper_alone(self):
        """As a terminal sends it, or a supervisor that names no process: bq takes its rows and its last checkpoint."""
        for count, one in enumerate((signal.SIGHUP, signal.SIGINT, signal.SIGTERM), 1):
            process = self.start("--output", self.path("out"), "--from", str(4 * count - 4), stdin=subprocess.PIPE, start_new_session=True)
            process.stdin.write(rows(count))
            self.until(lambda: self.get("out") == answers(*range(1, count + 1)))
            os.killpg(process.pid, one)
            if one == signal.SIGHUP:
                self.until(lambda: self.has_bytes(4))
                process.stdin.close()
            self.assertEqual(process.wait(PATIENCE), 0, self.get("said"))
            self.assertTrue(self.has_bytes(4 * count))
        self.assertNotIn(b"bq ended by itself", self.get("said"))

    def test_a_dead_bq_is_begun_again(self):
        for words, feeds in ((["--output", self.path("out")], True), (["--follow", self.path("rows"), "--output", self.path("out2")], False)):
            self.put("rows", rows(1, 2))
            process = self.start("--seconds", "1000", *words, stdin=subprocess.PIPE)
            out = "out" if feeds else "out2"
            if feeds:
                process.stdin.write(rows(1, 2))
            self.until(lambda: self.get(out) == answers(1, 2))
            for child in self.children(process):
                os.kill(child, signal.SIGKILL)
            process.stdin.write(rows(3)) if feeds else self.put("rows", rows(3), "ab")
            self.until(lambda: self.get(out) == answers(1, 2, 3))
            self.assertIn(b"it is begun again", self.get("said"))
            self.end(process)
            for name in os.listdir(self.path("kept")):
                os.remove(self.path("kept/" + name))

    def test_a_stuck_bq_is_begun_again(self):
        process = self.start("--stuck", "3", "--seconds", "0.2", "--output", self.path("out"), stdin=subprocess.PIPE)
        process.stdin.write(rows(1))
        self.until(lambda: self.get("out") == answers(1))
        for child in self.children(process):
            os.kill(child, signal.SIGSTOP)
        process.stdin.write(rows(2))
        self.until(lambda: self.get("out") == answers(1, 2))
        self.assertIn(b"did not answer", self.get("said"))
        self.end(process)


class Speed(Faults):
    """What does not depend on how busy the machine is; bench/keep has times."""

    def test_rows_are_answered_while_a_checkpoint_goes_to_the_disk(self):
        """The disk stands still until the file `disk` is there."""
        self.put("sitecustomize.py", f"""
import os, time
fsync = os.fsync
def slow(file):
    while not os.path.exists({self.path("disk")!r}):
        time.sleep(0.01)
    fsync(file)
os.fsync = slow
""".encode())
        self.put("disk", b"")
        process = self.start("--seconds", "1000", flags=(), stdin=subprocess.PIPE, stdout=subprocess.PIPE, env={**os.environ, "PYTHONPATH": self.folder.name})
        self.until(lambda: os.path.isdir(self.path("kept")) and self.checkpoints())
        os.remove(self.path("disk"))
        for number in range(300):
            if number == 1:
                process.send_signal(signal.SIGHUP)
                self.until(lambda: any(it.endswith(".new") for it in os.listdir(self.path("kept"))))
            process.stdin.write(rows(number))
            self.assertEqual(os.read(process.stdout.fileno(), 100), answers(number))
        self.assertFalse(self.has_bytes(4))
        self.put("disk", b"")
        self.until(lambda: self.has_bytes(4))
        self.end(process)

    def test_a_checkpoint_of_many_cells_takes_little_beside_what_bq_takes(self):
        """Of the processor, and of five the least: else the keeper would answer no row for long."""
        half, took = 20_000, []
        self.put("script", b"CREATE STREAM T (room, val)\nCREATE STREAM L (room, val)\n" + b"".join(
            b"CREATE COMPACT QUERY h%d AS SELECT DISTINCT T.room FROM T, L WHERE T.room = L.room AND T.val > L.val AND T.room > %d AND T.room <= %d\n" % it for it in ((1, 0, half), (2, half, 2 * half))))
        process = self.start("--every", "1000000000", "--seconds", "1000000", "--output", self.path("out"), stdin=subprocess.PIPE)
        process.stdin.write(b"".join(b"L,%d,9\nT,%d,5\n" % (it, it) for it in range(1, 2 * half + 1)) + b"T,1,10\n")
        self.until(lambda: self.get("out") == b"h1,1\n")
        for room in range(2, 7):
            before, known = list(self.spent(process)), self.checkpoints()
            process.stdin.write(b"T,%d,10\n" % room)
            process.send_signal(signal.SIGHUP)
            self.until(lambda: self.checkpoints()[-1] != known[-1])
            took.append([after - it for after, it in zip(self.spent(process), before)])
        self.assertLess(min(keeper / bq for keeper, bq in took), 4, took)
        self.end(process)

    def spent(self, process):
        """Nanoseconds of the processor that the keeper and its bq took."""
        for pid in (process.pid, *self.children(process)):
            with contextlib.ExitStack() as stack:
                files = [stack.enter_context(open(f"/proc/{pid}/task/{it}/schedstat", encoding="ascii")) for it in os.listdir(f"/proc/{pid}/task")]
                yield sum(int(it.read().split()[0]) for it in files)


class ToLookAt(Faults):
    def test_numbers_words_and_a_page(self):
        self.put("script", FLAT + SCRIPT)
        with socket.socket(socket.AF_UNIX, socket.SOCK_DGRAM) as ear:
            ear.bind(self.path("notify"))
            ear.settimeout(PATIENCE)
            process = self.start("--seconds", "0.1", "--metrics", self.path("numbers"), "--log", self.path("log"), "--output", self.path("out"), stdin=subprocess.PIPE,
                                 env={**os.environ, "NOTIFY_SOCKET": self.path("notify")})
            said = b""
            while b"READY=1" not in said:
                said += ear.recv(4096) + b"\n"
            process.stdin.write(b"S,1\nS\nS,x\n\nS,2\nTemp,1\n")
            self.until(lambda: b"\nkeep_rows_total 2\n" in self.get("numbers"))
            while b"WATCHDOG=1" not in said or b"STATUS=2 rows" not in said:
                said += ear.recv(4096) + b"\n"
        numbers = self.get("numbers").decode()
        for line in ('keep_errors_total{word="Arity"} 1', 'keep_errors_total{word="Value"} 1', 'keep_errors_total{word="Locked"} 1', 'keep_answers_total{query="q"} 2',
                     "keep_lines_total 6", "keep_up 1", "keep_restarts_total 0", "keep_pages_used 2"):
            self.assertIn(line + "\n", numbers)
        for name in ("rows_per_second", "lag_bytes", "checkpoint_age_seconds", "checkpoint_bytes", "checkpoint_seconds"):
            self.assertRegex(numbers, rf"(?m)^keep_{name} \d")
        self.assertRegex(self.get("log").decode(), r"\A\d{4}-\d\d-\d\dT\d\d:\d\d:\d\d\.\d{3}Z INFO begins anew")
        page = self.keep("--status", script=None)
        self.assertIn(b"a run has it", page.stdout)
        self.assertRegex(page.stdout, rb"rows total +2\n")
        self.end(process)
        self.assertIn(b"no run has it", self.keep("--status", script=None).stdout)

    def test_an_older_checkpoint_is_gone_on_from(self):
        body = FLAT + b"RESUME 2\nRESUME q AS 2\n"
        os.mkdir(self.path("kept"))
        self.put("kept/checkpoint-00000005.bq", body + f"-- whole rows 2 lines 2 bytes 8 output 8 lines of this file 4 sum {hashlib.sha256(body).hexdigest()}\n".encode())
        self.put("rows", rows(1, 2, 3))
        self.put("out", answers(1, 2))
        ran = self.keep("--input", self.path("rows"), "--output", self.path("out"))
        self.assertEqual((ran.returncode, self.get("out")), (0, answers(1, 2, 3)), ran.stderr)
        self.assertEqual(self.checkpoints()[-1], "checkpoint-00000006.bq")


resource.setrlimit(resource.RLIMIT_CORE, (0, 0))
if __name__ == "__main__":
    unittest.main()
