"""Bytes out to several descriptors at once."""
import os
import queue
import threading

WAITING = 8


def write_all(target, data):
    """Writes all bytes to a descriptor."""
    view = memoryview(data)
    while view:
        view = view[os.write(target, view):]


class Writer(threading.Thread):
    """Writes to a descriptor what it is given, in order, while others go on. A reader that is slow holds up its own writer, until so many blocks wait."""

    def __init__(self, target):
        super().__init__(daemon=True)
        self.target, self.fault, self.blocks = target, None, queue.Queue(WAITING)
        self.start()

    def run(self):
        """Writes until None comes; behind a fault what comes is dropped, so that nobody waits for it."""
        for data in iter(self.blocks.get, None):
            try:
                if not self.fault:
                    write_all(self.target, data)
            except OSError as fault:
                self.fault = fault

    def put(self, data):
        """Takes a block, or raises the fault of one before."""
        if self.fault:
            raise self.fault
        self.blocks.put(data)

    def end(self):
        """Waits until all is written, or raises the fault."""
        self.blocks.put(None)
        self.join()
        if self.fault:
            raise self.fault
