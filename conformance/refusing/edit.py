"""An edit of a crate: the function that the prover must refuse, and what the edit changes in the crate's files.

An edit is a file of lines. `only: FUNCTION` names the function by its path in the crate; `file: FILE` begins the changes of a file below src/, specs/ or
proofs/; each pair `old: TEXT` and `new: TEXT` changes what the pairs before it made. Each old text stands there exactly once. No other line is read.
"""
import os
import re


class EditFault(Exception):
    """Says why an edit cannot be tried."""


class Edit:
    """An edit that was read: its crate, its name, the function that must be refused, and its changes, each a path in the crate, an old text and a new one."""

    def __init__(self, crate, name, function, changes):
        self.crate, self.name, self.function, self.changes = crate, name, function, changes

    def files(self):
        return {path for path, _, _ in self.changes}


def function_of(text):
    """Returns the function that an edit names, or None where it names none."""
    found = re.findall(r"^only: *(\S+) *$", text, re.M)
    if len(found) > 1:
        raise EditFault("it names two functions")
    return found[0] if found else None


def changes_of(text):
    """Returns the changes that an edit names, in order."""
    changes, path, old = [], None, None
    for line in text.split("\n"):
        word, _, rest = line.partition(": ")
        if word == "file":
            path = rest.strip()
            if not re.match(r"(src|specs|proofs)/", path) or os.path.normpath(path) != path:
                raise EditFault(f"{path} is no file below src/, specs/ or proofs/")
        elif word == "old":
            old = rest
        elif word == "new" or line == "new:":
            if path is None or not old:
                raise EditFault("a new text stands before a file or an old text")
            changes.append((path, old, rest))
            old = None
    return changes


def changed_texts(changes, crate_folder):
    """Returns the texts that changes make, by their paths in the crate."""
    texts = {path: text_of(os.path.join(crate_folder, path), path) for path, _, _ in changes}
    first = dict(texts)
    for path, old, new in changes:
        if texts[path].count(old) != 1:
            raise EditFault(f"an old text stands {texts[path].count(old)} times in {path}")
        texts[path] = texts[path].replace(old, new)
    if texts == first:
        raise EditFault("it changes nothing")
    return texts


def text_of(file, path):
    if not os.path.isfile(file):
        raise EditFault(f"there is no file {path}")
    with open(file, encoding="utf-8") as opened:
        return opened.read()


def edits_below(top, crates):
    """Returns the edits of these crates that name a function, and for each that cannot be tried its name and why."""
    read, faults = [], []
    for crate in crates:
        folder = os.path.join(top, "campaign", "edits", crate)
        for file in sorted(os.listdir(folder)):
            text = text_of(os.path.join(folder, file), file)
            try:
                function = function_of(text)
                if function is not None:
                    changes = changes_of(text)
                    changed_texts(changes, os.path.join(top, "crates", crate))
                    read.append(Edit(crate, file.removesuffix(".edit"), function, changes))
            except EditFault as fault:
                faults.append((f"{crate}/{file}", str(fault)))
    return read, faults


def side_by_side(edits):
    """Returns the edits in groups that one check can try: those of a group break different functions in different files."""
    groups = []
    for edit in edits:
        for group in groups:
            if all(it.function != edit.function and not it.files() & edit.files() for it in group):
                group.append(edit)
                break
        else:
            groups.append([edit])
    return groups
