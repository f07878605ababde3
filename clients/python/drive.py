#!/usr/bin/env python3
"""Drives `bq run` from a program: rows from standard input go in, batch by batch, and the replies come out as they are there.

    clients/python/drive.py SCRIPT < ROWS

One thread reads the replies while another writes the rows. Where one thread does both, the two processes come to wait for each other: `bq` cannot
go on when 64 KB of replies stand in the pipe unread, so it reads no rows, and a program that still writes rows never comes to read. BQ_PROGRAM
names the program where it is not `bq`. The status is that of `bq`.
"""
import os
import subprocess
import sys
import threading

# About a thousand rows. A smaller batch answers sooner, and costs a write and a read of a pipe more often.
BATCH = 16384


def take(replies):
    """Takes the replies as they come. A program would do its work here."""
    for line in replies:
        sys.stdout.write(line)


def drive(script, rows):
    words = [os.environ.get("BQ_PROGRAM", "bq"), "run", script]
    with subprocess.Popen(words, stdin=subprocess.PIPE, stdout=subprocess.PIPE, text=True) as session:
        reader = threading.Thread(target=take, args=(session.stdout,))
        reader.start()
        try:
            while batch := rows.read(BATCH):
                session.stdin.write(batch)
                # What is not flushed is not answered.
                session.stdin.flush()
            session.stdin.close()
        except BrokenPipeError:
            pass  # the session ended, and its status says why
        reader.join()
        return session.wait()


if __name__ == "__main__":
    if len(sys.argv) != 2:
        sys.exit(__doc__)
    sys.exit(drive(sys.argv[1], sys.stdin))
