"""The parts of the page, each by itself: examples, pictures, numbers, links, marks, and how files are joined."""
import base64
import glob
import os
import re
import subprocess

from common import TOP, ask_node, check, is_refused
from drawing.explained import read_explained
from drawing.panels import drawn_whole
from playing.page import inside, joined

ADVISED = """CREATE STREAM Reading (room, celsius)
\t CREATE QUERY late AS SELECT Reading.celcius FROM Reading
Reading,2,31.5
CREATE STREAM Cap (room, celsius)
CREATE QUERY hot AS SELECT DISTINCT Reading.room FROM Reading, Cap WHERE Reading.room = Cap.room
"""
# By hand: line, kind, heading, column, and the first line of the text.
MARKS = [(2, "fault", "UnknownColumn", 30, "there is no column Reading.celcius; there are: room, celsius"),
         (3, "fault", "Value", 10, "field 2 has a point: count in smaller units, as 125 tenths for 12.5"),
         (5, "refused", "query hot is refused: C1 in part 1, Reading.room is selected and nothing bounds it", None, "leaves rows out, so take one that every row that counts meets:")]


def answer(program, words, script):
    return subprocess.run([program, *words], input=script, capture_output=True, text=True, check=False).stdout


def explained_texts(program, examples):
    """Texts of EXPLAIN with the name of each query: of all queries of the examples, and those among the worked cases."""
    texts = []
    for example in examples:
        replies = answer(program, ["run"], example["script"])
        names = re.findall(r"^ok query (\w+)", replies, re.M)
        texts.append(answer(program, ["run"], example["script"].rstrip("\n") + "\n" + "".join(f"EXPLAIN {name}\n" for name in names)))
    for path in sorted(glob.glob(os.path.join(TOP, "conformance", "*", "*.out"))):
        with open(path, encoding="utf-8", errors="replace") as file:
            texts.append(file.read())
    return [(text, name) for text in texts for name in sorted(set(re.findall(r"^explain (\w+)$", text, re.M)))]


def try_pictures(program, examples):
    texts = explained_texts(program, examples)
    check("pictures of many queries", len(texts) > 60, len(texts))
    for palette in (None, "light", "dark"):
        for (text, name), got in zip(texts, ask_node("pictures", texts=texts, palette=palette)):
            check(f"the picture of {name} is that of tools/draw", got == drawn_whole(read_explained(text.split("\n"), name), palette), text[:200])


def try_numbers():
    places = [0.25, 0.75, -0.25, 1.25, 12.35, 0.05, 2.5, 3.5, -0.04, -0.0, 1e6 + 0.25, 0.1 + 0.2, 4.35]
    sizes = [12.5, 8.123456789, 13, 9.99999951, 12.03125, 12.09375, 12345.25, 999999]
    got = ask_node("numbers", places=places, sizes=sizes)
    for number, said in zip(places + sizes, got):
        check(f"{number} is written as Python writes it", said == ([f"{number:.1f}", f"{number:.0f}"] if number in places else [f"{number:g}"]), said)


def try_links(examples):
    scripts = [it["script"] for it in examples] + ["", "-- é, 中, 🙂\n", "a\r\nb\0c", "Reading,1,2\n" * 20000]
    for script, (link, said) in zip(scripts, ask_node("links", scripts=scripts)):
        check("a link gives its script back", said == {"command": "lower 3", "script": script}, link[:200])
        check("a link is plain letters", re.fullmatch(r"#do=lower%203&[tz]=[\w-]*", link), link[:200])
    check("a link of many rows is short", len(link) < 1000, len(link))
    plain = "#do=run&t=" + base64.urlsafe_b64encode(b"A,1\n").decode().rstrip("=")
    check("a link where nothing is compressed", ask_node("plain", script="A,1\n") == plain)
    check("and a short script is not", ask_node("links", scripts=["A,1\n"])[0][0] == plain.replace("do=run", "do=lower%203"))
    asked = [plain, "#example=hot-rooms", "", "#do=run", "#do=run&t=*", "#do=run&z=AAAA", "#do=run&t=_w"]
    wanted = [{"command": "run", "script": "A,1\n"}, {"example": "hot-rooms"}, None, None, None, None, None]
    check("links without compression, of examples, and broken ones", ask_node("fragments", fragments=asked) == wanted)
    bomb = subprocess.run(["node", "-e", "process.stdout.write(require('zlib').deflateRawSync(Buffer.alloc(64 << 20)).toString('base64url'))"],
                          capture_output=True, text=True, check=True).stdout
    check("a link that grows too large is none", ask_node("fragments", fragments=[f"#do=run&z={bomb}"]) == [None])


def try_marks(program):
    advice, replies = answer(program, ["advise"], ADVISED), answer(program, ["run"], ADVISED)
    got = [(it["line"], it["kind"], it["heading"], it["column"], it["text"].split("\n")[0]) for it in ask_node("marks", advice=advice, script=ADVISED, replies=replies)]
    told = [it for it in got if it[:4] not in [mark[:4] for mark in MARKS]]
    check("marks stand where advice says", [it[:4] for it in got] == [it[:4] for it in MARKS], got)
    check("and say what it says", [it[4] for it in got[:2]] == [it[4] for it in MARKS[:2]], told)
    late = ask_node("marks", advice="", script="", replies="ok lock\nerror 7 Locked\nwarm,error 8\n")
    check("an error that advice does not tell", [(it["line"], it["heading"], it["column"]) for it in late] == [(7, "Locked", None)], late)
    check("queries that live", ask_node("live", replies="ok query a filter\nok query b filter\nok drop a\nok query c filter\na,1\n") == ["b", "c"])


def try_joined(folder):
    for name, text in (("one", 'const own = 1;\nexport const given = () => own;\n'), ("two", 'import { given } from "./one.mjs";\nconst own = 2;\nconsole.log(own + given());\n')):
        with open(os.path.join(folder, f"{name}.mjs"), "w", encoding="utf-8") as file:
            file.write(text)
    script = joined(folder, ["one", "two"])
    check("joined files keep their own names apart", subprocess.run(["node", "-e", script], capture_output=True, text=True, check=False).stdout == "3\n", script)
    check("a text that would end its element is refused", is_refused(inside, "a </SCRIPT>") and is_refused(inside, "<!-- a") and not is_refused(inside, "a < b"))


def try_examples(examples):
    names = [it["name"] for it in examples]
    check("each example has a name of its own", len(set(names)) == len(names), names)
    check("the tutorial's cases are there", sum(it["group"] == "Tutorial" for it in examples) >= 5, names)
    scripts = glob.glob(os.path.join(TOP, "examples", "*.bq")) + glob.glob(os.path.join(TOP, "examples", "everyday", "*.bq"))
    check("each script of examples/ is there", {os.path.basename(it)[:-3] for it in scripts} <= set(names), names)


def try_parts(program, examples, folder):
    try_examples(examples)
    try_pictures(program, examples)
    try_numbers()
    try_links(examples)
    try_marks(program)
    try_joined(folder)
