"""What the tests of the page share: where they stand, Node, and the count of what passed."""
import json
import os
import subprocess
import sys

HERE = os.path.dirname(os.path.abspath(__file__))
TOP = os.path.dirname(os.path.dirname(os.path.dirname(HERE)))
sys.path.insert(0, os.path.join(TOP, "tools"))

from playing.kit import NotMade  # noqa: E402

results = []


def check(what, is_right, shown=""):
    results.append(bool(is_right))
    if not is_right:
        print(f"FAILED: {what}: {str(shown)[:600]}")


def is_refused(act, *given):
    try:
        act(*given)
    except NotMade:
        return True
    return False


def ask_node(question, **asked):
    """What a part of the page answers, in Node."""
    ran = subprocess.run(["node", os.path.join(HERE, "in_node.mjs")], input=json.dumps({"question": question, **asked}), capture_output=True, text=True, check=False)
    if ran.returncode:
        raise RuntimeError(f"node: {ran.stderr[-1000:]}")
    return json.loads(ran.stdout)


def compare(where, cases, wanted, got):
    """Each answer has the status and the bytes of the program's."""
    for case, want, have in zip(cases, wanted, got):
        check(f"{where}: {' '.join(case.words)} < {os.path.relpath(case.input, TOP)}", want == have, (want, have))
    check(f"{where}: all were answered", len(got) == len(cases) > 0, len(got))
