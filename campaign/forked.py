"""A Python script in a fork of this process, which has its modules already: many can be started and killed where starting Python is most of the work."""
import os
import random
import runpy
import signal
import sys


class Forked:
    """A script that runs in a fork; told of and ended by the calls that subprocess.Popen has, as far as they are needed."""

    def __init__(self, script, words, errors):
        self.returncode, self.errors = None, errors
        source, target = os.pipe()
        self.pid = os.fork()
        if not self.pid:
            run_in_fork(script, words, source, errors)
        os.close(source)
        self.stdin = os.fdopen(target, "wb")

    def has_said(self):
        """Whether the script wrote to standard error."""
        return os.path.getsize(self.errors) > 0

    def poll(self):
        """The status where the script has ended, else None."""
        if self.returncode is None:
            pid, status = os.waitpid(self.pid, os.WNOHANG)
            self.returncode = os.waitstatus_to_exitcode(status) if pid else None
        return self.returncode

    def wait(self):
        """Waits until the script has ended."""
        if self.returncode is None:
            self.returncode = os.waitstatus_to_exitcode(os.waitpid(self.pid, 0)[1])

    def send_signal(self, number):
        """Sends a signal to the script where it has not ended."""
        if self.poll() is None:
            os.kill(self.pid, number)

    def kill(self):
        """Ends the script at once."""
        self.send_signal(signal.SIGKILL)


def run_in_fork(script, words, source, errors):
    """Runs a script as if it had been started, and ends the process. What the other process has open is closed, so that no pipe of it is held."""
    status = 70
    try:
        os.dup2(source, 0)
        os.dup2(os.open(errors, os.O_WRONLY | os.O_CREAT | os.O_APPEND, 0o644), 2)
        os.closerange(3, 1024)
        random.seed()
        sys.argv = [script, *words]
        runpy.run_path(script, run_name="__main__")
    except SystemExit as end:
        status = end.code or 0
    finally:
        os._exit(status)
