"""One run of the keeper: a loop that waits for all neighbours at once, and for none alone."""
import os
import re
import select
import signal
import threading
import time
from concurrent.futures import ThreadPoolExecutor

from keeper import Fault, log, require
from keeper.checkpoint import (Place, choose, creates_of, locked, numbers_in, path_of, plan_of, save, sum_at,
                               with_program, with_script, written)
from keeper.heard import Acks, Changes
from keeper.session import Session
from keeper.source import source_for
from keeper.stream import ERROR, Sink, Way, pass_on
from keeper.watch import Watch

# after how many bytes of the input a checkpoint is asked for, and of how many the replies may be unacknowledged
MUCH, NEWER = 16 << 20, 30
# seconds: the longest pause before bq is begun again, how long a good one lives, between two looks, and a file rests
LONGEST_PAUSE, SOON, TICK, REST = 30, 60, 0.1, 0.02
SIGNALS = {signal.SIGTERM: "is_told", signal.SIGINT: "is_told", signal.SIGHUP: "is_wanted", signal.SIGUSR1: "is_shown"}


class Run:
    """A session over as many programs as it takes, from its beginning to its end."""

    def __init__(self, options):
        self.options, folder = options, options.folder
        os.makedirs(folder, exist_ok=True)
        require(os.access(folder, os.W_OK), f"{folder} is a folder in which this user may not write: see its mode")
        self.lock, self.sink, self.acks = locked(folder), Sink(options.output), Acks(options.ack)
        kept = choose(folder, self.acks.number, options.begins)
        self.kept = with_script(options, with_program(options.program, kept))
        self.source = source_for(options, kept.place)
        if kept.number:
            self.sink.begin(kept, self.acks.number)
        # what the operator said, and how much of it this session has
        self.changes, self.applied = Changes(folder, self.lock, options.control, not kept.number), 0
        # no later run may go on from what is newer than the chosen one; what is older has fewer replies before it
        for path in (path_of(folder, it) for it in numbers_in(folder) if it > kept.number):
            path.rename(f"{path}.aside")
        self.standing = dict.fromkeys(reversed(numbers_in(folder)), kept.place.output)
        # where a checkpoint was asked for last, and when; one that is brought to the disk; and the bq that runs
        self.asked, self.asked_at, self.keeping, self.session = kept.place, time.monotonic(), None, None
        self.is_wanted = self.is_ending = self.is_told = self.is_shown = self.is_done = False
        self.pause = self.begin_at = self.next_tick = self.moved = self.stuck = 0
        self.disk, self.watch = ThreadPoolExecutor(1), Watch(self, options)

    def run(self):
        """Begins bq, and goes round until the run is done."""
        # all that begins from here on, bq too, leaves them to the thread that minds them
        signal.pthread_sigmask(signal.SIG_BLOCK, SIGNALS)
        threading.Thread(target=self.mind_signals, daemon=True).start()
        # who reads this may send signals
        if self.kept.number:
            log.info("goes on behind %d rows, %d lines or %d bytes of the input, with %d bytes of replies",
                     *self.kept.place[:4])
        else:
            log.info("begins anew with %s", self.options.script)
        try:
            self.begin()
            while not self.is_done:
                self.turn() if self.session else time.sleep(TICK)
                if (now := time.monotonic()) >= self.next_tick:
                    self.next_tick = now + TICK
                    self.tick(now)
        finally:
            if self.session:
                self.session.process.kill()
            self.watch.show(time.monotonic())

    def mind_signals(self):
        """In a thread: notes what signals ask for, and after its grace ends a run that waits for a disk or a reader."""
        while not self.is_told:
            setattr(self, SIGNALS[signal.sigwait(SIGNALS)], True)
        time.sleep(self.options.grace)
        if session := self.session:
            session.process.kill()
        # where somebody reads it
        if select.select([], [2], [], 0)[1]:
            os.write(2, b"keep: no last checkpoint: bq, disk or reader did not go on for %g s\n" % self.options.grace)
        os._exit(1)

    def turn(self):
        """Passes on what comes: replies where they go on, and rows where bq takes them; full outlets take more."""
        session, sink, source = self.session, self.sink, self.source
        full, ways, poll = [it for it in (sink, session) if it.pending], [], select.poll()
        if not sink.pending:
            ways.append(self.from_bq.begin(not (session.groups or sink.behind)))
        if not (session.pending or session.is_gone or self.is_ending or source.is_at_rest):
            ways.append(self.to_bq.begin(self.applied == len(self.changes.known)))
        for way in ways:
            poll.register(way.fd, select.POLLIN)
        for outlet in full:
            poll.register(outlet.fd, select.POLLOUT)
        pause, source.is_at_rest = 1000 * (REST if source.is_at_rest else TICK), False
        way, piece = pass_on({it.fd: it for it in ways}, poll.poll, pause, self.next_tick)
        for it in ways:
            it.end()
        for outlet in full:
            outlet.put()
        if way:
            way.change(piece)

    def feed(self, piece):
        """Sends what came, and has the last checkpoint taken where it ends."""
        text = self.source.cut(piece or self.source.at_end())
        self.session.put(self.say(text, self.source.lines))
        self.source.count(text)
        if self.source.is_ended:
            self.end()

    def receive(self, piece):
        """Takes replies, or the end of bq."""
        self.session.take(self.session.replies.cut(piece))
        if not piece:
            self.on_end_of_bq()

    def say(self, text, before):
        """Sends what the operator said among lines behind so many others, with those before it; gives the rest."""
        known = self.changes.known
        while self.applied < len(known) and known[self.applied][0] <= before + text.count(b"\n"):
            (place, statement), self.applied = known[self.applied], self.applied + 1
            rest = text.split(b"\n", place - before)[-1]
            self.session.put(text[:len(text) - len(rest)])
            self.session.ask(statement + b"\n", self.on_changed, statement, self.applied)
            text, before = rest, place
        return text

    def end(self):
        """Takes a last checkpoint, where one is needed, and tells bq that no more comes."""
        self.is_ending = True
        # the first one is asked for as a session begins
        if (self.kept.place.lines, self.kept.place.changes) != (self.source.lines, self.applied):
            self.ask()
        self.session.close()

    def begin(self):
        """Begins bq from the newest checkpoint and what came behind it, or from the script."""
        if self.pause:
            self.kept = with_program(self.options.program, self.kept)
        place = self.kept.place
        self.session = Session(self.options, self.kept.body, place.lines, self.sink.take)
        self.to_bq = Way(self.source, self.session, self.feed, self.source.count, False)
        self.from_bq = Way(self.session.replies, self.sink, self.receive, self.sink.count, True)
        self.applied, self.asked = place.changes, place
        if self.kept.number:
            self.sink.behind = self.sink.written - place.output
        else:
            # no reply may be out before a checkpoint says where replies begin
            self.ask()
        self.session.put(self.say(bytes(self.source.sent), place.lines))
        if self.is_ending:
            self.end()

    def on_end_of_bq(self):
        """Ends the run, or has bq be begun again."""
        session, status, now = self.session, self.session.end(), time.monotonic()
        self.session = None
        # a checkpoint that is under way may stand
        if self.keeping:
            self.settle()
        self.is_done = session.is_closed and status == 0 and not session.groups
        if self.is_done:
            return
        what = f"bq ended by itself, with {status}"
        require(self.kept.number, f"{what}, before the first checkpoint stood")
        is_kept = not self.is_told and self.source.sent.count(b"\n") >= self.source.lines - self.kept.place.lines
        require(is_kept, f"{what}, and what came behind the checkpoint is no more kept: start from where --where says")
        self.pause = min(LONGEST_PAUSE, 2 * self.pause) if self.pause and now - self.begin_at < SOON else 0.1
        log.error("%s; it is begun again in %.1f s from the newest checkpoint", what, self.pause)
        self.begin_at = now + self.pause
        self.watch.restarts += 1

    def look_at_bq(self, session):
        """Has a bq end that takes and gives nothing for long. Looks are counted: a busy machine has fewer."""
        if session.is_closed:
            session.close()
        moved = session.written + session.replies.came
        is_awaited = session.pending or session.groups or session.is_closed
        is_still = is_awaited and moved == self.moved and not self.sink.pending and not self.keeping
        self.moved, self.stuck = moved, self.stuck + 1 if is_still else 0
        if self.stuck > self.options.stuck / TICK:
            log.error("bq did not answer for %g s", self.options.stuck)
            session.process.kill()

    def ask(self):
        """Asks for a checkpoint of where the input stands."""
        at, self.asked_at, self.is_wanted = self.source, time.monotonic(), False
        self.asked = Place(0, at.lines, at.bytes, 0, self.applied, at.mark, at.token, at.total)
        self.session.ask(b"CHECKPOINT\n", self.on_checkpoint, self.asked)

    def on_checkpoint(self, place, body):
        """The reply came, so all replies to what was sent before came too."""
        place = place._replace(rows=int(re.search(rb"^RESUME (\d+)$", body, re.MULTILINE)[1]), output=self.sink.total)
        self.keeping = self.disk.submit(self.keep, self.kept, body, place)
        if not self.kept.number:
            self.settle()

    def keep(self, before, body, place):
        """In a thread: brings a checkpoint to the disk, behind the replies before it; gives it as it stands there."""
        options, sink, output_sum, plan = self.options, self.sink, b"", before.plan
        while sink.written < place.output:
            time.sleep(REST)
        began = time.monotonic()
        if options.output:
            os.fsync(sink.fd)
            output_sum = sum_at(sink.fd, place.output)
        if plan is None or creates_of(before.body) != creates_of(body):
            plan = plan_of(options.program, creates_of(body))
        number = max(self.standing, default=0) + 1
        checkpoint = before._replace(body=body, place=place, plan=plan, output_sum=output_sum, number=number)
        text = written(checkpoint)
        save(path_of(options.folder, number), text, self.lock)
        self.watch.stored = len(text), time.monotonic() - began, time.monotonic()
        self.standing[number] = place.output
        # of those whose replies are acknowledged the newest two stay, and of those that are newer so many and the last
        acked = self.acks.number
        covered = [it for it, output in self.standing.items() if acked is None or output <= acked]
        newer = [it for it in self.standing if it not in covered]
        for old in covered[:-2] + newer[NEWER:-1]:
            del self.standing[old]
            path_of(options.folder, old).unlink(missing_ok=True)
        return checkpoint

    def settle(self):
        """Lets go of the input before a checkpoint that was brought to the disk."""
        keeping, self.keeping = self.keeping, None
        try:
            self.kept = keeping.result()
            self.source.forget(self.kept.place.sent)
        except OSError as fault:
            self.watch.failures += 1
            if not self.kept.number or self.is_ending:
                raise
            log.error("no checkpoint could be written: %s; the one before it stands", fault)

    def on_changed(self, statement, number, said):
        said = ERROR.sub(rb"error \2", said.rstrip(b"\n"))
        log.info("%s: %s", said.decode(), statement.decode(errors="replace"))
        if number > self.changes.replied:
            self.changes.replied, self.is_wanted = number, True
            self.changes.append(b"= %s\n" % said)

    def tick(self, now):
        """What a clock, a signal or the operator asks for."""
        source = self.source
        self.acks.read()
        if self.keeping and self.keeping.done():
            self.settle()
        if self.session:
            self.look_at_bq(self.session)
        elif now >= self.begin_at or self.is_told:
            self.begin()
        if self.session and not self.is_ending:
            # what is said now stands behind what an earlier run heard, and behind rows whose replies may have been seen
            if self.applied == len(self.changes.known) and not self.sink.behind:
                self.changes.hear(source.lines)
                self.say(b"", source.lines)
            is_much = source.lines - self.asked.lines >= self.options.every or source.bytes - self.asked.bytes > MUCH
            is_late = source.lines != self.asked.lines and now - self.asked_at >= self.options.seconds
            if self.is_told:
                self.end()
            elif not (self.session.groups or self.keeping) and (self.is_wanted or is_much or is_late):
                self.ask()
        if self.is_shown:
            self.is_shown = False
            log.info("%s", self.watch.line())
        if now >= self.watch.next_look:
            self.watch.show(now)
