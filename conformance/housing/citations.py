"""Finds lemmas that nothing cites and public functions that nothing but tests calls. Both are judged by names."""
import collections
import os
import re

# A name of a definition or lemma: its letters are anything but brackets, points, commas and what else parts words.
WORD = re.compile(r"[^\s()\[\]{},;:.\"`|⟨⟩]+")
ITEM = re.compile(r"(?:(?:abbrev|record|opaque|data|pub|inductive|syntax) )*([^\s(){}\[\],:;]+)")


class Item:
    """A lemma or a definition that stands in a file of lemmas: its place, its name, and how often it has each word."""

    def __init__(self, path, line, name):
        self.path, self.line, self.name, self.words = path, line, name, collections.Counter()


def is_lemma_file(path):
    """Whether a file holds lemmas, and not the proof of a function, whose folder has the name of a module. Lib.antt lists what others may use."""
    if "/proofs/" not in path or not path.endswith(".antt") or path.endswith("/Lib.antt"):
        return False
    return all(part[0].isupper() for part in path.split("/proofs/")[1].split("/"))


def files_below(top):
    """The path and the lines, without comments, of each source, definition and proof."""
    for folder, folders, names in os.walk(os.path.join(top, "crates")):
        folders[:] = [name for name in folders if name not in ("out", "must-fail")]
        for name in names:
            if name.endswith((".rt", ".antt")):
                path = os.path.join(folder, name)
                mark = "--" if name.endswith(".antt") else "//"
                yield os.path.relpath(path, top), [line.split(mark)[0] for line in open(path)]


def items_of(path, lines):
    """The items of a file of lemmas, and the lines that belong to none, which are its imports. Equations of one name are one item."""
    item = None
    for number, line in enumerate(lines, 1):
        if not line.strip():
            continue
        if line.startswith("use "):
            item = None
            continue
        head = ITEM.match(line)
        if head and line[0] not in " )}#" and (item is None or item.name != head.group(1)):
            item = Item(path, number, head.group(1))
            yield item
        if item is not None:
            item.words.update(WORD.findall(line))


def uncited_lemmas(top):
    """The items of files of lemmas that no other text cites, those among them that only such items cite."""
    items, cited = [], collections.Counter()
    for path, lines in files_below(top):
        if is_lemma_file(path):
            items += items_of(path, lines)
        else:
            cited.update(word for line in lines for word in WORD.findall(line))
    for item in items:
        cited.update(item.words)
    uncited, more = [], True
    while more:
        more = [item for item in items if cited[item.name] <= item.words[item.name]]
        items = [item for item in items if item not in more]
        for item in more:
            cited.subtract(item.words)
        uncited += more
    return uncited


def uncalled(functions, texts):
    """Of these (path, name) those whose name no other place of the texts, by path, has. A clause that names a function counts as a call."""
    count = collections.Counter(word for text in texts.values() for word in re.findall(r"\w+", text))
    declared = collections.Counter(name for text in texts.values() for name in re.findall(r"\bfn (\w+)", text))
    return [(path, name) for path, name in functions if count[name] <= declared[name]]
