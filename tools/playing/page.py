"""Joins the parts of the page to one file that needs nothing else."""
import base64
import gzip
import hashlib
import json
import os
import re

from playing.kit import NotMade

PAGE = ["explained", "picture", "panels", "link", "marks", "runner", "page"]
WORKER = ["engine", "worker"]
IMPORT = re.compile(r'^import (\{[^}]*\}) from "\./(\w+)\.mjs";$', re.M)
EXPORT = re.compile(r"^export (?=(?:async )?(?:function|class|const) (\w+))", re.M)
PATH = "compiled to WebAssembly by a path that the toolchain does not offer. That path is not proved"
MODULE = {True: "It runs the module that the toolchain made of the proved program, ",
          False: "<strong>For trials alone:</strong> it runs a module of the program of which nothing was proved, "}


def read(folder, name):
    with open(os.path.join(folder, name), encoding="utf-8") as file:
        return file.read()


def joined(folder, names):
    """JavaScript modules as one script, in which each is a scope of its own; the last is run."""
    parts = []
    for name in names:
        text = IMPORT.sub(r"const \1 = $\2;", read(folder, f"{name}.mjs"))
        exports = ", ".join(EXPORT.findall(text))
        text = EXPORT.sub("", text)
        if re.search(r"^(import|export)\b", text, re.M):
            raise NotMade(f"{name}.mjs imports or exports in a form that is not joined")
        parts.append(f"{{\n{text}}}\n" if name == names[-1] else f"const ${name} = (() => {{\n{text}return {{ {exports} }};\n}})();\n")
    return "".join(parts)


def inside(text):
    """A text as it may stand in a script element, which it does not end."""
    if re.search(r"</script|<!--", text, re.I):
        raise NotMade("a text would end the element of the page that it stands in")
    return text


def hash_of(text):
    """What the page's policy says of a script or a style that it lets run."""
    return base64.b64encode(hashlib.sha256(text.encode()).digest()).decode()


def origin(is_proved, compared):
    """What the page says of where its program comes from; `compared` is how many answers were compared, or None where none was."""
    how = f"; {compared:,} of its answers were compared with those of the native program, byte for byte." if compared else ", and its answers were not compared."
    return MODULE[is_proved] + PATH + how


def whole_page(folder, wasm, said, examples):
    """The page of the sources in a folder, around a module of WebAssembly and what is said of it."""
    style, page = read(folder, "page.css"), joined(folder, PAGE)
    # An example may have any text.
    shown = json.dumps(examples, ensure_ascii=False).replace("<", "\\u003c")
    values = {"style": style, "page": page, "style hash": hash_of(style), "page hash": hash_of(page), "worker": joined(folder, WORKER),
              "program": base64.b64encode(gzip.compress(wasm, 9, mtime=0)).decode(), "examples": shown,
              "origin": said}
    for name in ("page", "worker", "examples"):
        inside(values[name])
    return re.sub(r"\{\{([a-z ]+)\}\}", lambda it: values[it[1]], read(folder, "page.html"))
