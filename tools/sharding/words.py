"""The words of tools/shard, and what each command does."""
import argparse
import os
import re
import sys

from sharding import Refused
from sharding.checkpoints import Kept, merged, split_up
from sharding.keys import Keys, check, judged
from sharding.placing import Placing
from sharding.routing import Router, route
from sharding.script import Script, asked, column_named, read_lines


def listed(text):
    """The pieces of a text between commas."""
    return [it.strip() for it in text.split(",") if it.strip()]


def range_of(text):
    """`LO..HI` as two integers."""
    found = re.fullmatch(r"([+-]?\d+)\.\.([+-]?\d+)", text)
    if not found or int(found[1]) > int(found[2]):
        raise argparse.ArgumentTypeError(f"{text} is no range, as 1..1000")
    return int(found[1]), int(found[2])


def count_of(text):
    """A number of shards."""
    if not re.fullmatch(r"[1-9]\d{0,4}", text):
        raise argparse.ArgumentTypeError(f"{text} is no number of shards, 1 to 99999")
    return int(text)


def read_words(words, about):
    """The words as an object with a field for each option."""
    here = os.path.dirname(os.path.dirname(os.path.dirname(os.path.realpath(__file__))))
    own = os.path.join(here, "crates", "bq", "out", "bq")
    parser = argparse.ArgumentParser(prog="shard", description=about, formatter_class=argparse.RawDescriptionHelpFormatter)
    parser.add_argument("command", choices=("judge", "route", "scripts", "merge", "split"))
    parser.add_argument("files", nargs="+")
    parser.add_argument("--keys", type=listed, default=[])
    parser.add_argument("--broadcast", type=listed, default=[])
    parser.add_argument("--parts", type=count_of)
    parser.add_argument("--ranges", type=range_of)
    parser.add_argument("--dedupe", action="store_true")
    parser.add_argument("--out")
    parser.add_argument("--program", default=own if os.access(own, os.X_OK) else "bq")
    found = parser.parse_args(words)
    if found.command in ("route", "scripts", "split") and not found.parts:
        parser.error(f"{found.command} wants --parts K")
    if found.command in ("scripts", "split") and not found.out:
        parser.error(f"{found.command} wants --out PREFIX")
    if found.command == "merge" and len(found.files) < 2 or found.command != "merge" and len(found.files) > 1:
        parser.error("merge wants a script and at least one checkpoint; the others want one file")
    return found


def narrowed(script, keys, placing, shard):
    """The lines of a shard's script: the range of its keys as domains, where there are ranges, and the queries that belong to it."""
    lines = []
    for stream in script.streams.values():
        columns = dict(stream.columns)
        key = keys.of_stream[stream.name]
        if key is not None and placing.ranges:
            low, high = placing.range_of(shard)
            own = columns[key]
            columns[key] = (max(low, own[0]), min(high, own[1])) if own else (low, high)
            if columns[key][0] > columns[key][1]:
                raise Refused(f"shard {shard} has the range {low}..{high}, and {stream.name}.{key} has no value in it")
        said = [name if domain is None else f"{name} IN {domain[0]}..{domain[1]}" for name, domain in columns.items()]
        lines.append(f"CREATE STREAM {stream.name} ({', '.join(said)})")
    return lines + [query.line for query in script.queries.values() if shard == 0 or judged(query, keys) != "home"]


def judge(script, keys, _):
    """Writes how the shards answer each query; the status is 1 where one is wrong."""
    found = {query.name: judged(query, keys) for query in script.queries.values()}
    for name, how in found.items():
        print(f"{name}: {how}")
    return 1 if "wrong" in found.values() else 0


def do_route(script, keys, words):
    """Deals the rows of standard input."""
    check(script, keys, words.dedupe)
    router = Router(script, keys, Placing(words.parts, words.ranges))
    if words.out is None:
        route(router, 0, [1])
        return 0
    targets = [os.open(f"{words.out}{shard}", os.O_WRONLY | os.O_CREAT | os.O_TRUNC, 0o644) for shard in range(words.parts)]
    route(router, 0, targets)
    for target in targets:
        os.close(target)
    return 0


def do_scripts(script, keys, words):
    """Writes the scripts of all shards, once bq has accepted every query of each."""
    check(script, keys, words.dedupe)
    placing = Placing(words.parts, words.ranges)
    texts = [narrowed(script, keys, placing, shard) for shard in range(words.parts)]
    for shard, lines in enumerate(texts):
        for line, reply in zip(lines, asked(words.program, lines)):
            if not reply.startswith("ok "):
                raise Refused(f"bq answers `{reply}` in shard {shard} to: {line}; another number of parts may be accepted, or a split by another key")
    for shard, lines in enumerate(texts):
        with open(f"{words.out}{shard}.bq", "w", encoding="utf-8") as file:
            file.write("".join(f"{line}\n" for line in lines))
    return 0


def do_merge(script, keys, words):
    """Writes the checkpoint that the shards' checkpoints come to."""
    script.check_taken(words.program)
    shards = [Kept(read_lines(path), words.program) for path in words.files[1:]]
    for line in merged(Kept(script.lines(), words.program), shards, keys).lines():
        print(line)
    return 0


def do_split(script, keys, words):
    """Writes a checkpoint for each shard."""
    placing = Placing(words.parts, words.ranges)
    whole = Kept(read_lines(words.files[0]), words.program)
    shards = [Kept(narrowed(script, keys, placing, shard), words.program) for shard in range(words.parts)]
    for shard, kept in enumerate(split_up(whole, shards, keys, placing)):
        with open(f"{words.out}{shard}.bq", "w", encoding="utf-8") as file:
            file.write("".join(f"{line}\n" for line in kept.lines()))
    return 0


def main(words, about):
    """Does what the words ask for, and gives the status."""
    words = read_words(words, about)
    does = {"judge": judge, "route": do_route, "scripts": do_scripts, "merge": do_merge, "split": do_split}[words.command]
    try:
        lines = [line for line in read_lines(words.files[0]) if not line.startswith("RESUME ")]
        script = Script(lines)
        return does(script, Keys(script, map(column_named, words.keys), words.broadcast), words)
    except Refused as error:
        print(f"shard: {error}", file=sys.stderr)
        return 1
    except OSError as error:
        print(f"shard: {error.filename or 'output'}: {error.strerror}", file=sys.stderr)
        return 4
