"""The examples that the page offers: the scripts of examples/, the common questions, and the worked cases of the tutorial."""
import os
import re

SCRIPT = re.compile(r"(create|drop|explain)\s", re.IGNORECASE)
HERE_DOCUMENT = re.compile(r"(?:bq (\w+)|cat > (\S+)) <<END\n(.*?)^END$", re.S | re.M)


def example(group, name, script, command="run"):
    return {"group": group, "name": name, "command": command, "script": script}


def of_folder(top, group, *folder):
    """The scripts of a folder, by their names."""
    at = os.path.join(top, *folder)
    found = []
    for name in sorted(it for it in os.listdir(at) if it.endswith(".bq")):
        with open(os.path.join(at, name), encoding="utf-8") as file:
            found.append(example(group, name[:-3], file.read()))
    return found


def blocks_of(page):
    """The blocks of a page that are indented by four spaces."""
    return [re.sub(r"^ {4}", "", block, flags=re.M) for block in re.findall(r"(?:^ {4}.*\n(?:^\n(?= {4}))?)+", page, flags=re.M)]


def of_tutorial(page):
    """The scripts of the tutorial, each named by its section; one that does not begin with CREATE STREAM goes on with the one before."""
    found = []
    for section in page.split("\n## ")[1:]:
        head, before = section.split("\n")[0], found[-1]["script"] if found else ""
        for block in blocks_of(section):
            inside = HERE_DOCUMENT.search(block)
            if inside:
                found.append(example("Tutorial", head, inside[3], inside[1] or "run"))
            elif SCRIPT.match(block):
                before = block if re.match(r"create\s+stream\s", block, re.IGNORECASE) else before + block
                found.append(example("Tutorial", head, before))
    return told_apart(found)


def told_apart(examples):
    """The same with the command behind the names that stand there more than once."""
    names = [it["name"] for it in examples]
    return [it if names.count(it["name"]) == 1 else {**it, "name": f"{it['name']} (bq {it['command']})"} for it in examples]


def all_examples(top):
    """All examples of a checkout. The first is the one that the page begins with."""
    with open(os.path.join(top, "docs", "TUTORIAL.md"), encoding="utf-8") as file:
        tutorial = of_tutorial(file.read())
    scripts = of_folder(top, "Examples", "examples")
    scripts.sort(key=lambda it: it["name"] != "hot-rooms")
    return scripts + tutorial + of_folder(top, "Common questions", "examples", "everyday")
