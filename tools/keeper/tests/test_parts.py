"""The parts of the keeper that need no bq: lines, files that are renamed, outputs, and the text of a checkpoint."""
import contextlib
import os
import random
import select
import sys
import tempfile
import time
import unittest
from types import SimpleNamespace
from unittest import mock

sys.dont_write_bytecode = True
sys.path.insert(0, os.path.dirname(os.path.dirname(os.path.dirname(os.path.abspath(__file__)))))

from keeper import Fault, source, stream  # noqa: E402
from keeper.checkpoint import Checkpoint, Mark, Place, choose, path_of, read, save, sum_of, written  # noqa: E402
from keeper.heard import Acks, Changes  # noqa: E402
from keeper.run import Run  # noqa: E402
from keeper.source import File, Source  # noqa: E402
from keeper.stream import LONGEST, Lines, Outlet, Sink, Way, pass_on  # noqa: E402


def plain_lines(text):
    """Lines as bq takes them: each with its end, and those that are too long are all alike."""
    pieces = text.split(b"\n")
    if not pieces[-1]:
        pieces.pop()
    return [it if len(it) <= LONGEST else None for it in pieces]


class LinesAreCut(unittest.TestCase):
    @staticmethod
    def cut(lines, piece):
        text = lines.cut(piece)
        lines.count(text)
        return text

    def test_in_any_pieces(self):
        one = random.Random(1)
        for _ in range(300):
            text = b"".join(one.choice([b"S,1", b"", b" \r", b"-- x", b"--@ 7 8", b"x" * one.randint(1020, 1030), b"y" * 5000]) + b"\n" for _ in range(one.randint(0, 9)))
            text += one.choice([b"", b"S,1", b"z" * 1024, b"z" * 3000])
            lines, sent, place = Source(None, Place()), b"", 0
            while place < len(text):
                length = one.choice([1, 7, 1024, 1025, 4000])
                sent += self.cut(lines, text[place:place + length])
                place += length
                self.assertEqual(lines.came, min(place, len(text)))
                self.assertEqual(lines.bytes, text.rfind(b"\n", 0, lines.came) + 1)
                self.assertLessEqual(len(lines.rest), LONGEST + 1)
            sent += self.cut(lines, lines.at_end())
            wanted = plain_lines(text)
            self.assertEqual(plain_lines(sent), wanted)
            self.assertEqual((lines.lines, lines.bytes), (len(wanted), len(text)))
            self.assertEqual(lines.token, b"7 8" if b"--@ 7 8\n" in text else b"")

    def test_a_mark_has_200_bytes_at_most(self):
        lines = Source(None, Place())
        self.cut(lines, b"--@ " + b"a" * 200 + b"\n")
        self.assertEqual(lines.token, b"a" * 200)
        self.cut(lines, b"--@ " + b"b" * 201 + b"\n")
        self.assertEqual(lines.token, b"a" * 200)


class InAFolder(unittest.TestCase):
    def setUp(self):
        self.folder = tempfile.TemporaryDirectory(prefix="keeper-test-")
        self.addCleanup(self.folder.cleanup)

    def path(self, name):
        return os.path.join(self.folder.name, name)

    def put(self, name, text, how="wb"):
        with open(self.path(name), how) as file:
            file.write(text)

    def rotate(self, *names):
        for old, new in zip(names, names[1:]):
            os.rename(self.path(new), self.path(old)) if os.path.exists(self.path(new)) else None


class FilesAreFollowed(InAFolder):
    def read_all(self, source):
        """What comes until the file rests at two looks."""
        text, rests = b"", 0
        while rests < 2:
            more = source.cut(os.read(source.fd, 1 << 16) or source.at_end())
            source.count(more)
            text += more
            rests = rests + 1 if source.is_at_rest else 0
            source.is_at_rest = False
        return text

    def follow(self, place=Place(), **how):
        source = File(self.path("rows"), True, place, **how)
        self.addCleanup(lambda: source.file.close())
        return source

    def place_of(self, source):
        return Place(lines=source.lines, bytes=source.bytes, mark=source.mark)

    def test_over_renamings_while_it_runs(self):
        self.put("rows.1", b"old\n")
        self.put("rows", b"a\n")
        source = self.follow()
        self.assertEqual(self.read_all(source), b"a\n")
        self.rotate("rows.2", "rows.1", "rows")
        self.put("rows.1", b"b\n", "ab")
        self.assertEqual(self.read_all(source), b"b\n")
        self.put("rows", b"")
        self.put("rows.1", b"c\n", "ab")
        self.assertEqual(self.read_all(source), b"c\n")
        self.put("rows", b"d\ne")
        self.assertEqual(self.read_all(source), b"d\n")
        self.rotate("rows.3", "rows.2", "rows.1", "rows")
        self.put("rows", b"f\n")
        self.assertEqual(self.read_all(source), b"e\nf\n")

    def test_over_renamings_while_none_runs(self):
        for names in (["rows.3", "rows.2", "rows.1", "rows"], ["rows-20260101", "rows-20260102", "rows-20260103", "rows"], ["rows.2026-01-01", "rows.2026-01-02", "rows.2026-02-01", "rows"]):
            for name in os.listdir(self.folder.name):
                os.remove(self.path(name))
            self.put("rows", b"a\nb\n")
            place = self.place_of(self.follow())
            source = self.follow(place)
            self.assertEqual(self.read_all(source), b"a\nb\n")
            place = self.place_of(source)
            os.rename(self.path("rows"), self.path(names[0]))
            for name, text in zip(names, (b"c\n", b"d\n", b"e\n", b"f\n")):
                self.put(name, text, "ab")
            self.assertEqual(self.read_all(self.follow(place)), b"c\nd\ne\nf\n", names)

    def test_a_file_that_is_another_or_shorter_is_refused(self):
        self.put("rows", b"a\nb\n")
        source = self.follow()
        self.read_all(source)
        place = self.place_of(source)
        for text in (b"a\n", b"x\ny\n", b""):
            self.put("rows", text)
            self.assertRaises(Fault, self.follow, place)
        self.assertEqual(self.read_all(self.follow(place, begins_anew=True)), b"")
        self.put("rows", b"new\n")
        self.assertEqual(self.read_all(self.follow(place, begins_anew=True)), b"new\n")

    def test_a_file_that_becomes_shorter_is_refused(self):
        self.put("rows", b"a\nb\n")
        source = self.follow()
        self.read_all(source)
        self.put("rows", b"a\n")
        self.assertRaises(Fault, self.read_all, source)

    def test_a_copy_is_known_by_what_is_in_it(self):
        self.put("rows", b"a\nb\n")
        source = self.follow()
        self.read_all(source)
        place = self.place_of(source)
        self.put("copy", b"a\nb\nc\n")
        os.rename(self.path("copy"), self.path("rows"))
        self.assertEqual(self.read_all(self.follow(place)), b"c\n")

    def test_what_comes_late_into_a_renamed_file_is_told(self):
        self.put("rows", b"a\n")
        source = self.follow()
        self.read_all(source)
        self.rotate("rows.1", "rows")
        self.put("rows", b"b\n")
        self.assertEqual(self.read_all(source), b"b\n")
        self.put("rows.1", b"late\n", "ab")
        with self.assertLogs("keep", "ERROR"):
            self.assertEqual(self.read_all(source), b"")

    def test_a_file_that_is_removed_is_read_to_its_end(self):
        self.put("rows.1", b"old\n")
        self.put("rows", b"a\n")
        source = self.follow()
        self.read_all(source)
        self.put("rows", b"b\n", "ab")
        os.remove(self.path("rows"))
        self.put("rows", b"c\n")
        self.assertEqual(self.read_all(source), b"b\nc\n")


class ChangesAreListed(InAFolder):
    def changes(self, is_anew=False):
        handle = os.open(self.folder.name, os.O_RDONLY)
        self.addCleanup(os.close, handle)
        changes = Changes(self.folder.name, handle, None, is_anew)
        self.addCleanup(os.close, changes.pipe.fd)
        return changes

    def hear(self, changes, lines, said):
        os.write(changes.pipe.fd, said + b"\n")
        changes.hear(lines)

    def test_whole_lines_are_known_again(self):
        changes = self.changes()
        said = [(0, b"CREATE QUERY q AS SELECT\rS.a FROM S"), (3, b"DROP QUERY q")]
        for lines, statement in said:
            self.hear(changes, lines, statement)
            changes.append(b"= ok\n")
        self.hear(changes, 5, b"EXPLAIN q")
        self.put("changes", b"7 DROP QUE", "ab")
        changes = self.changes()
        self.assertEqual((changes.known, changes.replied), (said, 2))
        self.hear(changes, 8, b"DROP QUERY r")
        self.assertEqual(self.changes().known, [*said, (8, b"DROP QUERY r")])
        self.assertEqual(self.changes(is_anew=True).known, [])
        self.assertEqual(self.changes().known, [])

    def test_a_line_that_no_keeper_wrote_is_refused(self):
        self.put("changes", b"DROP QUERY q\n")
        self.assertRaises(Fault, self.changes)


class AcknowledgementsAreRead(InAFolder):
    def test_the_last_whole_line_of_however_many(self):
        for text, number in ((b"", 0), (b"7", 0), (b"7\n12", 7), (b"".join(b"%d\n" % it for it in range(100_000)) + b"10", 99_999), (b"5\nmany\n", 0)):
            self.put("ack", text)
            self.assertEqual(Acks(self.path("ack")).number, number)
        self.assertEqual(Acks(self.path("none")).number, 0)
        self.assertIsNone(Acks(None).number)

    def test_what_is_no_number_leaves_the_one_before(self):
        self.put("ack", b"5\n")
        acks = Acks(self.path("ack"))
        for text, number in ((b"-9\n", 5), (b"many\n", 5), (b"8\n", 8), (b"9", 8), (b"0\n", 90)):
            self.put("ack", text, "ab")
            acks.read()
            self.assertEqual(acks.number, number)


class NobodyIsWaitedFor(unittest.TestCase):
    def test_what_a_full_pipe_does_not_take_stays_and_goes_first(self):
        """The handle is one that others share, so it is as it was: a write to it could wait."""
        of, to = os.pipe()
        with open(of, "rb", buffering=0) as reader, open(to, "wb", buffering=0):
            outlet, text = Outlet(to, "pipe"), b"".join(b"%d\n" % it for it in range(50_000))
            outlet.put(text[:7])
            outlet.put(text[7:200_000])
            outlet.put(text[200_000:])
            self.assertTrue(os.get_blocking(to))
            self.assertEqual((outlet.written + len(outlet.pending), bool(outlet.pending)), (len(text), True))
            came = b""
            while len(came) < len(text):
                came += reader.read(5000)
                outlet.put()
            self.assertEqual((came == text, outlet.written, len(outlet.pending)), (True, len(text), 0))

    def test_what_was_taken_in_part_goes_on_before_what_comes_next(self):
        """As where a row was written as it came."""
        of, to = os.pipe()
        with open(of, "rb", buffering=0) as reader, open(to, "wb", buffering=0):
            outlet, text = Outlet(to, "pipe"), b"S,1\n"
            outlet.put(b"S,0\n")
            outlet.took(text, os.write(to, text[:3]))
            self.assertEqual((bytes(outlet.pending), outlet.written), (b"\n", 7))
            outlet.put(b"S,2\n")
            self.assertEqual((reader.read(100), outlet.written, len(outlet.pending)), (b"S,0\nS,1\nS,2\n", 12, 0))

    def test_what_others_that_share_it_left_no_room_for_stays(self):
        of, to = os.pipe()
        with open(of, "rb", buffering=0) as reader, open(to, "wb", buffering=0) as other:
            os.set_blocking(to, False)
            outlet = Outlet(to, "pipe")
            outlet.put(b"a")
            while other.write(b"b" * 4096):
                pass
            outlet.put(b"c")
            self.assertEqual((outlet.written, bytes(outlet.pending)), (1, b"c"))
            while not reader.read(1 << 20).endswith(b"c"):
                outlet.put()
            self.assertEqual((outlet.written, bytes(outlet.pending)), (2, b""))


class LinesArePassedOn(unittest.TestCase):
    def setUp(self):
        """Rows come from a pipe, and go into another one."""
        (of, self.given), (self.taken, to) = os.pipe(), os.pipe()
        for fd in (of, self.given, self.taken, to):
            self.addCleanup(os.close, fd)
        self.lines, self.outlet, self.changed, self.counted = Lines(of), Outlet(to, "pipe"), [], []
        self.outlet.room = 4096

    def way(self, is_reply=False):
        return Way(self.lines, self.outlet, self.changed.append, self.counted.append, is_reply)

    def pass_on(self, way, *pieces, is_plain=True):
        """Passes on pieces that come one by one, and nothing behind them."""
        pieces, waits = list(pieces), []

        def look(pause):
            waits.append(pause)
            if pieces:
                os.write(self.given, pieces.pop(0))
            return select.select([self.lines.fd], [], [], 0)[0] and [(self.lines.fd, select.POLLIN)]

        result = pass_on({self.lines.fd: way.begin(is_plain)}, look, 100, time.monotonic() + 1000)
        way.end()
        return result, waits

    def test_whole_lines_go_on_as_they_came_and_are_counted_once(self):
        result, _ = self.pass_on(self.way(), b"S,1\n", b"S,2\nS, 3\n", b"S,4\n")
        self.assertEqual((result, os.read(self.taken, 100)), ((None, b""), b"S,1\nS,2\nS, 3\nS,4\n"))
        self.assertEqual((self.counted, self.lines.came, self.outlet.written), ([b"S,1\nS,2\nS, 3\nS,4\n"], 17, 17))
        self.assertEqual((self.outlet.room, self.changed), (4096 - 17, []))

    def test_what_has_to_be_changed_is_given_back(self):
        for is_reply, is_plain, room, piece in ((False, True, 4096, b"S,1\nS,"), (True, True, 4096, b"error 3 Value\n"), (False, False, 4096, b"S,1\n"), (False, True, 3, b"S,1\n")):
            self.outlet.room, way = room, self.way(is_reply)
            self.assertEqual((self.pass_on(way, piece, is_plain=is_plain)[0], self.counted), ((way, piece), []))

    def test_of_what_was_taken_in_part_the_rest_waits(self):
        os.set_blocking(self.outlet.fd, False)
        with contextlib.suppress(BlockingIOError):
            while os.write(self.outlet.fd, b"x" * 4096):
                pass
        self.pass_on(self.way(), b"S,1\n")
        self.assertEqual((bytes(self.outlet.pending), self.outlet.written, self.counted), (b"S,1\n", 0, [b"S,1\n"]))

    def test_what_follows_is_asked_for_only_while_waits_are_short(self):
        """A wait in which the clock stands still is short."""
        way, looks = self.way(), 5
        clock = iter(range(1000))
        with mock.patch.multiple(stream, LOOKS=looks, monotonic=lambda: next(clock)):
            # nothing follows, and it is told by the clock that the wait was long: from then on it sleeps at once
            self.assertEqual(self.pass_on(way, b"S,1\n")[1], [100] + [0] * (looks + 1) + [100])
            for _ in range(3):
                self.assertEqual(self.pass_on(way, b"S,1\n")[1], [100, 0, 100])
        with mock.patch.multiple(stream, LOOKS=looks, monotonic=lambda: 0):
            # as often as it was in vain it doubles how many short waits it wants to see
            for vain in (2, 4, 8):
                for _ in range(vain):
                    self.assertEqual(self.pass_on(way, b"S,1\n")[1], [100, 0, 100])
                self.assertEqual(self.pass_on(way, b"S,1\n")[1], [100] + [0] * (looks + 1) + [100])
            for _ in range(16):
                self.pass_on(way, b"S,1\n")
            # what is found by asking has it ask again
            self.assertEqual(self.pass_on(way, b"S,1\n", b"S,2\n")[1], [100, 0] + [0] * (looks + 1) + [100])
            self.assertEqual(way.vain, 1)


class LinesAreKept(unittest.TestCase):
    """For a bq that is to be begun again."""

    def test_no_more_than_so_many(self):
        """Where they are too many there are none, as a bq that lacks some cannot go on."""
        one = Source(None, Place())
        with mock.patch.object(source, "KEPT", 12):
            for text, left in ((b"S,1\n", 4), (b"S,2\nS,3\n", 12), (b"S,4\n", 0), (b"S,5\n", 4)):
                one.count(text)
                self.assertEqual(len(one.sent), left)
            self.assertEqual((one.lines, one.total), (5, 20))
            one.forget(16)
            self.assertEqual(bytes(one.sent), b"S,5\n")

    def test_those_behind_the_newest_checkpoint_whatever_was_asked_for_meanwhile(self):
        source, places = Source(None, Place()), []
        for text in (b"S,1\n", b"S,2\nS,3\n", b"S,4\n"):
            source.count(text)
            places.append(source.total)
        for place, left in zip((places[0], places[1], places[0], places[2]), (b"S,2\nS,3\nS,4\n", b"S,4\n", b"S,4\n", b"")):
            source.forget(place)
            self.assertEqual((bytes(source.sent), source.total), (left, 16))


class BqIsBegunAgain(unittest.TestCase):
    def test_after_a_pause_that_grows_and_is_short_where_the_one_before_lived(self):
        run = Run.__new__(Run)
        vars(run).update(keeping=None, kept=Checkpoint(number=1), is_told=False, source=Source(None, Place()), pause=0, begin_at=0, watch=SimpleNamespace(restarts=0))
        pauses, now = [], 1000
        for lived in [1] * 11 + [100, 1]:
            now += run.pause + lived
            run.session = SimpleNamespace(end=lambda: -9, is_closed=False)
            with mock.patch("time.monotonic", lambda: now), self.assertLogs("keep", "ERROR"):
                run.on_end_of_bq()
            pauses.append(round(run.pause, 1))
            self.assertEqual((run.session, run.begin_at), (None, now + run.pause))
        self.assertEqual((pauses, run.watch.restarts), ([0.1, 0.2, 0.4, 0.8, 1.6, 3.2, 6.4, 12.8, 25.6, 30, 30, 0.1, 0.2], 13))

    def test_only_from_all_lines_behind_the_checkpoint(self):
        source = Source(None, Place())
        source.count(b"S,1\nS,2\n")
        source.forget(4)
        for lines, is_told, holds in ((1, False, True), (0, False, False), (1, True, False)):
            run = Run.__new__(Run)
            vars(run).update(keeping=None, kept=Checkpoint(number=1, place=Place(lines=lines)), is_told=is_told, source=source, pause=0, begin_at=0, watch=SimpleNamespace(restarts=0),
                             session=SimpleNamespace(end=lambda: -9, is_closed=False))
            if holds:
                with self.assertLogs("keep", "ERROR"):
                    run.on_end_of_bq()
            else:
                self.assertRaises(Fault, run.on_end_of_bq)


class OutputsAreNeverCut(InAFolder):
    def sink(self, before, there):
        self.put("out", there)
        sink = Sink(self.path("out"))
        self.addCleanup(os.close, sink.fd)
        sink.begin(Checkpoint(b"", Place(output=before)), None)
        sink.behind = sink.written - before
        return sink

    def out(self):
        with open(self.path("out"), "rb") as file:
            return file.read()

    def test_what_stands_there_is_passed_by(self):
        sink = self.sink(2, b"a\nb\nc\n")
        for text in (b"b\n", b"c\nd\n", b"e\n"):
            sink.take(text)
        self.assertEqual((self.out(), sink.total, sink.written, bytes(sink.uncounted)), (b"a\nb\nc\nd\ne\n", 10, 10, b"d\ne\n"))

    def test_a_line_whose_front_stands_there_is_counted_whole(self):
        sink = self.sink(2, b"a\nb")
        sink.take(b"bcd\n")
        self.assertEqual((bytes(sink.uncounted), self.out(), sink.total), (b"bcd\n", b"a\nbcd\n", 6))

    def test_a_torn_end_is_cut_where_it_differs(self):
        sink = self.sink(2, b"a\nb\n\0\0\0\0")
        with self.assertLogs("keep", "ERROR"):
            sink.take(b"b\nc\n")
        self.assertEqual((self.out(), sink.total, sink.written), (b"a\nb\nc\n", 6, 6))

    def test_a_shorter_output_is_refused(self):
        self.assertRaises(Fault, self.sink, 7, b"a\nb\nc\n")

    def test_another_output_is_refused(self):
        self.put("out", b"x\ny\n")
        sink = Sink(self.path("out"))
        self.addCleanup(os.close, sink.fd)
        self.assertRaises(Fault, sink.begin, Checkpoint(b"", Place(output=2), output_sum=b"0" * 64), None)


class CheckpointsAreWhole(InAFolder):
    whole = Checkpoint(b"CREATE STREAM S (a)\nCREATE QUERY q AS SELECT S.a FROM S\nRESUME 3\n", Place(3, 4, 39, 20, 1, Mark(1, 2, 39, b"a" * 64), b"p 1 o 2"),
                       (b"reply ok stream S", b"reply ok query q filter", b"plan q " + b"b" * 64), b"bq 0.1.0", b"c" * 64, b"d" * 64, 7)

    def test_what_is_written_is_read(self):
        self.assertEqual(read(written(self.whole), 7), self.whole)

    def test_whatever_is_changed_shows(self):
        one, text = random.Random(1), written(self.whole)
        for _ in range(2000):
            place = one.randrange(len(text))
            changed = one.choice([text[:place], text[:place] + bytes([text[place] ^ 1 << one.randrange(8)]) + text[place + 1:], text[:place] + b"\n" + text[place:], text + b"x"])
            self.assertIsNone(read(changed, 7))

    def test_an_older_form_is_read(self):
        body = b"CREATE STREAM S (a)\nRESUME 3\n"
        tail = f"-- whole rows 3 lines 4 bytes 39 output 20 lines of this file 2 sum {sum_of(body).decode()}\n".encode()
        self.assertEqual(read(body + tail, 1), Checkpoint(body, Place(3, 4, 39, 20), number=1))
        self.assertIsNone(read(body + tail.replace(b"39", b"38").replace(b"lines of this file 2", b"lines of this file 3"), 1))

    def test_a_later_form_is_refused(self):
        front = written(self.whole).replace(b"-- keep 2", b"-- keep 3").rpartition(b"-- whole")[0]
        self.assertRaises(Fault, read, front + b"-- whole lines %d sum %s\n" % (front.count(b"\n"), sum_of(front)), 7)

    def test_the_newest_whole_one_whose_replies_are_acknowledged(self):
        for number, output in ((1, 0), (2, 20), (3, 50)):
            save(path_of(self.folder.name, number), written(Checkpoint(b"RESUME 1\n", Place(output=output, bytes=number), ())))
        for acked, begins, number in ((None, None, 3), (49, None, 2), (20, None, 2), (19, None, 1), (60, 2, 2)):
            self.assertEqual(choose(self.folder.name, acked, begins).number, number)
        self.assertRaises(Fault, choose, self.folder.name, 60, 9)
        os.truncate(path_of(self.folder.name, 3), 30)
        with self.assertLogs("keep", "WARNING"):
            self.assertEqual(choose(self.folder.name).number, 2)


if __name__ == "__main__":
    unittest.main()
