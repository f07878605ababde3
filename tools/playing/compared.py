"""Compares what a program's WebAssembly answers with what the program itself does, over worked cases and examples."""
import base64
import json
import os
import subprocess
import tempfile
from collections import namedtuple
from concurrent.futures import ThreadPoolExecutor

from playing.kit import NotMade

HERE = os.path.dirname(os.path.abspath(__file__))
# A command over a file of input, in a folder of files or in none.
Case = namedtuple("Case", "words input folder")
Answer = namedtuple("Answer", "status output errors")
COMMANDS = (["run"], ["run", "--each"], ["advise"], ["certify"], ["lower", "3"])


def worked_cases(top):
    """The worked cases of conformance/, as conformance/run takes them."""
    cases = []
    for folder in sorted(it.path for it in os.scandir(os.path.join(top, "conformance")) if it.is_dir()):
        for name in sorted(it for it in os.listdir(folder) if it.endswith(".in")):
            case, words = os.path.join(folder, name[:-3]), ["run"]
            if os.path.exists(case + ".args"):
                with open(case + ".args", encoding="utf-8") as file:
                    words = file.read().split("\n")[:-1]
            cases.append(Case(words, case + ".in", case + ".files" if os.path.isdir(case + ".files") else None))
    return cases


def example_cases(examples, folder):
    """Each command over each example; the scripts are written into a folder."""
    cases = []
    for number, example in enumerate(examples):
        path = os.path.join(folder, f"{number}.bq")
        with open(path, "w", encoding="utf-8", newline="") as file:
            file.write(example["script"])
        cases += [Case(words, path, None) for words in COMMANDS]
    return cases


def native(program, case):
    """What the program itself answers."""
    with open(case.input, "rb") as given, tempfile.TemporaryDirectory() as empty:
        ran = subprocess.run([program, *case.words], stdin=given, capture_output=True, timeout=120, cwd=case.folder or empty, check=False)
    return Answer(ran.returncode, ran.stdout, ran.stderr)


def all_native(program, cases):
    with ThreadPoolExecutor(os.cpu_count()) as pool:
        return list(pool.map(lambda case: native(program, case), cases))


def decoded(told):
    return Answer(told["status"], base64.b64decode(told["output"]), base64.b64decode(told["errors"]))


def in_node(wasm, cases):
    """What a file of WebAssembly answers, in Node."""
    asked = json.dumps({"wasm": wasm, "cases": [case._asdict() for case in cases]})
    try:
        ran = subprocess.run(["node", os.path.join(HERE, "answers.mjs")], input=asked, capture_output=True, text=True, check=False)
    except FileNotFoundError:
        raise NotMade("node is missing, by which answers are compared") from None
    if ran.returncode:
        raise NotMade(f"node ended with status {ran.returncode}:\n{ran.stderr[-1000:]}")
    return [decoded(it) for it in json.loads(ran.stdout)]


def count_compared(wasm, program, top, examples):
    """Compares all cases, and gives how many there are; it throws at the first that is answered otherwise."""
    with tempfile.TemporaryDirectory(prefix="bq-compared-") as folder:
        cases = worked_cases(top) + example_cases(examples, folder)
        for case, want, got in zip(cases, all_native(program, cases), in_node(wasm, cases)):
            if want != got:
                raise NotMade(f"bq {' '.join(case.words)} < {case.input} is answered otherwise:\nby the program {want}\nby the page    {got}"[:2000])
    return len(cases)
