"""A worker: takes the partitions that an engine gives it, and runs one bq for each."""
import argparse
import os
import signal
import sys
import threading
import time

from sharding import Refused
from sharding.child import Ended
from sharding.engine import Lost
from sharding.partition import Partition


class Beat(threading.Thread):
    """Renews what is owned from a thread of its own, so that a long step or replay does not lose it."""

    def __init__(self, engine, pause):
        super().__init__(daemon=True)
        self.engine, self.pause, self.over = engine, pause, threading.Event()

    def run(self):
        while not self.over.wait(self.pause):
            try:
                self.engine.renew()
            except Lost:
                pass  # the next call of the worker meets the same


class Worker:
    """The partitions of one process."""

    def __init__(self, engine, words, script):
        self.engine, self.words, self.script = engine, words, script
        self.mine, self.is_over = {}, False
        # seconds from where the engine was lost to the next try
        self.pause = 0.3

    def say(self, text):
        print(f"worker {self.words.name}: {text}", file=sys.stderr, flush=True)

    def stop(self, *_):
        """Lets the run end behind a last state."""
        self.is_over = True

    def drop(self, number):
        """Leaves a partition as it is kept."""
        partition = self.mine.pop(number, None)
        if partition:
            partition.end()

    def turn(self):
        """Drops what was lost, begins what was gained, answers what came, and saves what is due."""
        for number in self.engine.lost():
            self.drop(number)
        for number in self.engine.gained(self.words.most - len(self.mine)):
            self.mine[number] = Partition(self.engine, number, self.script, self.words)
            self.say(f"partition {number} behind row {self.mine[number].rows}")
        for number, rows in self.engine.take({number: it.rows for number, it in self.mine.items()}):
            for row, word in self.mine[number].step(rows):
                self.say(f"partition {number} row {row}: {word}")
        for partition in self.mine.values():
            if partition.is_due():
                partition.save()

    def run(self):
        """Works until it is stopped; where the engine is lost, it begins again from what is kept."""
        beat = Beat(self.engine, self.words.lease / 4000)
        beat.start()
        while not self.is_over:
            try:
                self.engine.open()
                while not self.is_over:
                    self.turn()
                for number, partition in self.mine.items():
                    partition.save()
                    self.engine.release(number)
            except Lost as fault:
                self.say(f"begins again: {fault}")
                time.sleep(self.pause)
            finally:
                for number in list(self.mine):
                    self.drop(number)
                self.engine.close()
        beat.over.set()


def read_words(words, about, add_words):
    """The words that all workers have, and those that an engine adds."""
    parser = argparse.ArgumentParser(description=about, formatter_class=argparse.RawDescriptionHelpFormatter)
    parser.add_argument("--script", required=True, help="the lines that create streams and queries")
    parser.add_argument("--name", default=f"{os.uname().nodename}-{os.getpid()}")
    parser.add_argument("--parts", type=int, default=8, help="how many partitions there are; the same for all workers and producers")
    parser.add_argument("--most", type=int, default=1 << 16, help="how many partitions this worker takes at most")
    parser.add_argument("--every", type=int, default=20_000, help="rows of a partition from state to state")
    parser.add_argument("--seconds", type=float, default=5, help="seconds from state to state where rows came")
    parser.add_argument("--batch", type=int, default=2_000, help="rows that are asked for at once")
    parser.add_argument("--lease", type=int, default=5_000, help="milliseconds after which a worker that is silent loses its partitions")
    parser.add_argument("--program", default="bq")
    add_words(parser)
    return parser.parse_args(words)


def main(words, about, make_engine, add_words):
    """Runs a worker over the engine that `make_engine` makes of the words, and gives the status."""
    words = read_words(words, about, add_words)
    try:
        with open(words.script, "rb") as file:
            script = file.read().splitlines()
        worker = Worker(make_engine(words), words, script)
        for number in (signal.SIGTERM, signal.SIGINT):
            signal.signal(number, worker.stop)
        worker.run()
        return 0
    except (Refused, Ended) as fault:
        print(f"worker {words.name}: {fault}", file=sys.stderr)
        return 1
    except OSError as fault:
        print(f"worker {words.name}: {fault.filename or 'output'}: {fault.strerror}", file=sys.stderr)
        return 4
