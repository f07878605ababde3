"""The worked cases that have files: NAME is the input, NAME.args the words, NAME.files the folder in which the program runs, NAME.stdout,
NAME.status and NAME.stderr what is wanted.
"""
import os
import shutil
import subprocess
import tempfile
from collections import namedtuple

from edge_judge import Result

Case = namedtuple("Case", "path words given wanted")
PATIENCE = 120


def read(path, default=None):
    if default is not None and not os.path.exists(path):
        return default
    with open(path, "rb") as file:
        return file.read()


def cases(folder):
    """The cases of a folder, in order."""
    for name in sorted(os.listdir(folder)):
        path = os.path.join(folder, name)
        if "." in name or not os.path.exists(path + ".args"):
            continue
        words = read(path + ".args").decode().split("\n")[:-1]
        yield Case(path, words, read(path), Result(read(path + ".stdout"), int(read(path + ".status")), read(path + ".stderr", b"")))


class Room:
    """A folder with the files of a case, or with those that are written into it."""

    def __init__(self, files=None):
        self.files = files

    def __enter__(self):
        self.folder = tempfile.mkdtemp(prefix="bq-edge-")
        if isinstance(self.files, str) and os.path.isdir(self.files):
            shutil.copytree(self.files, self.folder, dirs_exist_ok=True)
        elif isinstance(self.files, dict):
            for name, text in self.files.items():
                path = os.path.join(self.folder, name)
                os.makedirs(os.path.dirname(path), exist_ok=True)
                if text is None:
                    os.mkdir(path)
                    continue
                with open(path, "wb") as file:
                    file.write(text)
        return self.folder

    def __exit__(self, *error):
        shutil.rmtree(self.folder)


def result_of(program, words, folder, given):
    """What the program does in a folder."""
    try:
        ran = subprocess.run([program, *words], input=given, capture_output=True, timeout=PATIENCE, cwd=folder)
    except subprocess.TimeoutExpired:
        return Result(b"", f"no end in {PATIENCE} seconds", b"")
    return Result(ran.stdout, ran.returncode, ran.stderr)
