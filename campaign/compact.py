"""Compact queries: a query answers the same whether it is compact or not, and shared or not.

Each random query is created four times in one session: as it is, shared, compact, and both. The output
is compared with the evaluator's. Then the answers to each row are compared among those of the four that
were accepted. Where the whole form of a query fits, it has the same numbers and the same plan shared or not;
else it has its split form, of which it is counted how many parts there are. What one of the forms alone accepts
is counted. A share of the scripts is compared with the evaluator's output, too, with all integers moved to the ends of what may be written.
"""
import re
from collections import namedtuple

import crossed
import evaluator
import language
import linked
import outermost
import whole
from common import Part, fault_of, run as run_program, scaled
from evaluator import session_text
from generator import Writer
from language import COMPACT_SHARE, Refused

SCRIPTS = 1500
MOVED = 0.2
ROWS = [10, 15, 25, 40]
FORMS = {b"p": b"", b"s": b"SHARED ", b"c": b"COMPACT ", b"b": b"SHARED COMPACT "}
NUMBERS = re.compile(rb"ok query \w+ parts (\d+) cells (\d+) answers (\d+) work (\d+)\Z")
COUNTED = ["parts", "cells", "answers", "work"]

Outcome = namedtuple("Outcome", "reply answers plan is_dropped")


def write_streams(writer, is_linked):
    """Two or three streams at least, of few columns where comparisons are to tie them."""
    random = writer.random
    while len(writer.session.streams) < random.choice([2, 3]):
        if is_linked:
            writer.write(linked.stream_text(writer, random.choice([b"S", b"T", b"U", b"W"])))
        else:
            writer.stream(random.choice([2, 3, 4]))


def query_text(writer, is_linked):
    """A query over these streams, of one of the kinds that have a whole form or a split one."""
    kind = writer.random.random()
    if b"X" in writer.session.streams and kind < 0.5:
        return writer.extreme_query()
    if is_linked:
        return (crossed.query_text(writer) if kind < 0.6 else None) or linked.query_text(writer)
    return (writer.keyed_query() if kind < 0.75 else None) or writer.query_text()


def write(writer):
    """Streams, one to three queries in all forms, rows, and EXPLAIN of each; the texts by number."""
    random, texts = writer.random, []
    if writer.chance(0.3):
        writer.extremes(3)
    is_linked = writer.chance(0.5)
    write_streams(writer, is_linked)
    for number in range(random.choice([1, 2, 3])):
        text = query_text(writer, is_linked)
        texts.append(text)
        for form, words in FORMS.items():
            writer.write(b"CREATE " + words + b"QUERY %s%d AS " % (form, number) + text)
    for _ in range(random.choice(ROWS)):
        writer.row()
    for number in range(len(texts)):
        for form in FORMS:
            writer.write(b"EXPLAIN %s%d" % (form, number))
    return texts


def outcome_of(lines, name):
    """What a session said of a query: when it was created, to rows, and when it was explained."""
    replies = [it for it in lines if it.startswith((b"ok query " + name + b" ", b"refused " + name + b" "))]
    answers = [it[len(name):] for it in lines if it.startswith(name + b",")]
    head, end = b"explain " + name, b"end " + name
    plan = lines[lines.index(head) + 1:lines.index(end)] if head in lines else []
    return Outcome(replies[0] if replies else b"", answers, plan, b"ok drop " + name in lines)


def are_same_answers(one, other):
    """Whether two forms of a query answered the same as long as both were live."""
    if one.is_dropped or other.is_dropped:
        least = min(len(one.answers), len(other.answers))
        return one.answers[:least] == other.answers[:least]
    return one.answers == other.answers


def query_of(session, text):
    """A compact query as it is analysed, or None where it is refused before."""
    try:
        return session.resolve(language.parse(b"CREATE COMPACT QUERY q AS " + text))
    except Refused:
        return None


def forms_of(session, text):
    """Whether a query is read by its forms, as it is no filter, and whether its whole form fits."""
    query = query_of(session, text)
    has_forms = query is not None and (query.places > 1 or query.distinct)
    return has_forms, has_forms and whole.fitting(query) is not None


def count_split(part, reply):
    """Counts a query that is read by its split form, by the reply to it."""
    found = NUMBERS.match(reply)
    part.count("by the split form")
    part.count("of these accepted", int(bool(found)))
    part.count("of these without a part", int(bool(found) and found.group(1) == b"0"))
    part.count("of these by several parts", int(bool(found) and int(found.group(1)) > 1))
    part.count("refused by the split form in a later part", int(b" part " in reply and b" part 1 " not in reply))


def count_numbers(part, plain, compact):
    """Counts how a query that both forms accept differs in its numbers."""
    found = [NUMBERS.match(it.reply) for it in (plain, compact)]
    if not all(found):
        return
    for word, one, other in zip(COUNTED, *(it.groups() for it in found)):
        part.count(f"compact has fewer {word}", int(int(other) < int(one)))
        part.count(f"more {word}", int(int(other) > int(one)))


def judge(part, writer, lines, number, text):
    """Compares what the forms of one query said; what is wrong, or None."""
    of = {form: outcome_of(lines, b"%s%d" % (form, number)) for form in FORMS}
    accepted = {form: it for form, it in of.items() if it.reply.startswith(b"ok")}
    part.count("queries")
    part.count("plain and compact accepted", int(b"p" in accepted and b"c" in accepted))
    part.count("plain alone accepted", int(b"p" in accepted and b"c" not in accepted))
    part.count("compact alone accepted", int(b"c" in accepted and b"p" not in accepted))
    if b"p" in accepted and b"c" in accepted:
        count_numbers(part, of[b"p"], of[b"c"])
        part.count("answers of each", len(of[b"p"].answers))
    for one in accepted.values():
        for other in accepted.values():
            if not are_same_answers(one, other):
                return f"{one.reply} and {other.reply} answer differently"
    has_forms, is_whole = forms_of(writer.session, text)
    if has_forms and not is_whole:
        count_split(part, of[b"c"].reply)
    if is_whole:
        part.count("with a whole form")
        said = [of[form].reply.replace(b" %s%d " % (form, number), b" ") for form in (b"c", b"b")]
        is_live = not (of[b"c"].is_dropped or of[b"b"].is_dropped)
        if said[0] != said[1] or not said[0].startswith(b"ok query parts 1 ") or (is_live and of[b"c"].plan != of[b"b"].plan):
            return f"a whole form, and {of[b'c'].reply} differs from {of[b'b'].reply}"
    return None


def one_script(part, program):
    writer = Writer(part.random)
    texts = write(writer)
    if writer.chance(MOVED):
        moved_script(part, program, writer.text())
    ran = run_program(program, ["run"], writer.text())
    part.count("runs")
    fault = fault_of(ran, session_text(writer.text()))
    if fault:
        part.differs(fault, writer.text())
        return
    lines = ran[0].split(b"\n")
    # the pool may take some forms alone; the answers of those that it took are compared all the same
    for number, text in enumerate(texts):
        pool = any(it.endswith(b" limit pool") for it in lines)
        fault = None if pool else judge(part, writer, lines, number, text)
        part.count("queries with a full pool", int(pool))
        if fault:
            part.differs(fault, writer.text())


def moved_script(part, program, text):
    """The same script with its integers at the ends of what may be written."""
    text = outermost.moved(text, part.random)
    part.count("moved to the last integers")
    wanted = session_text(text)
    part.count("of these with a query of several parts", int(any(it.startswith(b"ok query c") and b" parts 1 " not in it for it in wanted.split(b"\n"))))
    fault = fault_of(run_program(program, ["run"], text), wanted)
    if fault:
        part.differs(fault, text)


def run(program, seed, scale):
    part = Part("compact", seed)
    part.count("runs", 0)
    for _ in range(scaled(SCRIPTS, scale) if COMPACT_SHARE else 0):
        # the verdicts of one script are of no use to another
        evaluator.VERDICTS.clear()
        one_script(part, program)
    return part
