"""Certificates: those of the program are judged by an own checker, changed ones by both.

Those of a compact query are of the form by which it is judged; of own making there are such of the other form too.
"""
import re
from collections import Counter

import branching
import checker
import compact
import language
import maker
import worked
from common import Part, compare, first_other_line, run as run_program, scaled
from generator import Writer
from lines import changed
from language import COMPACT_SHARE, Refused

RANDOM_QUERIES = 400
REFUSED_SCRIPTS = 1500
CHANGED_CERTIFICATES = 10
TWICE_CHANGED = 1500
OWN_CERTIFICATES = 600
MOST_OWN_PARTS, MOST_OWN_NODES = 60, 500
NUMBER = re.compile(rb"[0-9]+")


def wanted_decision(script, shown):
    """What `check` must say of a good certificate that shows this form, by the analysis instead of the leaves."""
    name = script.statement.name
    parts, failure = branching.decision(script.query, shown)
    if failure is None:
        return b"certified %s bounded parts %d\n" % (name, parts)
    number, condition, column = failure
    named = script.session.column_name(script.statement.streams, column)
    return b"certified %s part %d %s %s\n" % (name, number, condition.encode(), named)


def certify(part, program, text):
    """Lets the program certify a script; the certificate, or None where it is refused."""
    refusal = checker.certify_refusal(text)
    if refusal is not None:
        part.count("scripts that certify refuses")
        compare(part, program, text, refusal, 1, ("certify",))
        return None
    part.count("runs")
    output, status, noise = run_program(program, ["certify"], text)
    if status != 0 or noise:
        part.differs(f"certify: status {status}", text)
        return None
    script = checker.read_script(text, False)
    part.count("with a domain", int(bool(script.query.domains)))
    part.count("compact", int(script.query.compact))
    statements = checker.printed_statements(script)
    if not output.startswith(statements):
        part.differs(f"certify: {first_other_line(output, statements)}", text)
    return output


def judge(part, program, text):
    """A script is certified, and both checkers take the certificate with the right decision."""
    certificate = certify(part, program, text)
    if certificate is None:
        return None
    part.count("certificates")
    script = checker.read_script(text, False)
    form = branching.judged(script.query)
    part.count(f"of a {form} form" if form != branching.PLAIN else "of parts")
    wanted = wanted_decision(script, form)
    own, status = checker.certificate_reply(certificate)
    too_long = any(len(it) > language.LONGEST_LINE for it in certificate.split(b"\n"))
    if not too_long and (own, status) != (wanted, 0):
        part.differs(f"own checker: {own!r}, wanted {wanted!r}", text)
    if not status:
        part.count("bounded" if own.split()[2] == b"bounded" else "with a violation")
    compare(part, program, certificate, own, status, ("check",))
    return certificate


def changes(lines):
    """Every one-line change of a certificate's lines."""
    for place, line in enumerate(lines):
        front, back = lines[:place], lines[place + 1:]
        yield front + back
        yield front + [line, line] + back
        if back:
            yield front + [back[0], line] + back[1:]
        for found in NUMBER.finditer(line):
            for step in (-1, 1):
                number = b"%d" % (int(found.group()) + step)
                yield front + [line[:found.start()] + number + line[found.end():]] + back
        word = line.split(b" ")[0]
        if word in checker.WORDS:
            yield from (front + [it + line[len(word):]] + back for it in checker.WORDS if it != word)


def decision_shown(text):
    """What `check` must say of a text if its certificate is good."""
    script = checker.read_script(text, True)
    return wanted_decision(script, branching.shown_by(script.query, script.nodes))


def try_changed(part, program, lines):
    """Both checkers must agree on a changed certificate."""
    text = b"\n".join(lines) + b"\n"
    wanted, status = checker.certificate_reply(text)
    if status == 0 and wanted != decision_shown(text):
        part.differs(f"own checker: {wanted!r} of a changed certificate is not so", text)
    words = wanted.split()
    part.count({b"no": "changed, no", b"error": "changed, error"}.get(words[0], "changed, still yes"))
    compare(part, program, text, wanted, status, ("check",))


def choose(part, certificates):
    """Ten certificates of middle length, of different decisions where there are such."""
    middle = [it for it in certificates if 12 <= it.count(b"\n") <= 80 and b"split" in it
              and len(max(it.split(b"\n"), key=len)) <= language.LONGEST_LINE]
    part.random.shuffle(middle)
    kinds = Counter()
    for text in middle:
        kind = checker.certificate_reply(text)[0].split()
        kind = kind[4] if kind[2] == b"part" else kind[2], b"against" in text, b" IN " in text
        if kinds[kind] < 3 or len(middle) <= CHANGED_CERTIFICATES:
            kinds[kind] += 1
            yield text
        if sum(kinds.values()) == CHANGED_CERTIFICATES:
            return


def compact_query(part):
    """A one-query script with a compact query that has one form or the other."""
    writer = Writer(part.random)
    if writer.chance(0.3):
        writer.extremes(3)
    is_linked = writer.chance(0.5)
    compact.write_streams(writer, is_linked)
    streams = [it for it in map(language.strip_line, writer.lines) if it.upper().startswith(b"CREATE STREAM")]
    return b"\n".join([*streams, b"CREATE COMPACT QUERY q AS " + compact.query_text(writer, is_linked)]) + b"\n"


def random_query(part):
    """A one-query script with a random query."""
    writer = Writer(part.random)
    if COMPACT_SHARE and writer.chance(COMPACT_SHARE):
        return compact_query(part)
    while not writer.session.streams:
        writer.stream(3)
    for _ in range(part.random.randint(0, 2)):
        writer.stream(3)
    streams = [it for it, reply in zip(writer.lines, writer.replies) if reply.startswith(b"ok")]
    writer.query(b"q")
    return b"\n".join([*streams, writer.lines[-1]]) + b"\n"


def refused_script(part):
    """A one-query script with something changed: a character, a line out of place, or its end."""
    random = part.random
    lines = random_query(part).split(b"\n")[:-1]
    more = [b"DROP QUERY q", b"EXPLAIN q", b"S,1", b"-- x", b"", b"CREATE STREAM q (a)", b"x" * 1025,
            b"DROP QUERY " + b"n" * 25, b"split 1", lines[-1], lines[0]]
    kind = random.random()
    place = random.randrange(len(lines) + 1)
    if kind < 0.4 or place == len(lines):
        lines.insert(place, random.choice(more))
    elif kind < 0.6:
        del lines[place]
    else:
        lines[place] = changed(random, lines[place]).replace(b"\n", b"")
    return b"\n".join(lines) + random.choice([b"", b"\n", b"\n\n", b"\r\n"])


def judge_queries(part, program, scale):
    """Worked and random queries are certified and judged; the certificates of those taken."""
    scripts = worked.queries()
    part.count("worked queries", len(scripts))
    if scale < 1:
        scripts = part.random.sample(scripts, scaled(len(scripts), scale))
    certificates = [judge(part, program, it) for it in scripts]
    for _ in range(scaled(RANDOM_QUERIES, scale)):
        certificates.append(judge(part, program, random_query(part)))
    return [it for it in certificates if it]


def change_certificates(part, program, certificates, scale):
    """Every one-line change of some certificates, and double changes at random."""
    chosen = list(choose(part, certificates))
    for text in chosen[:scaled(CHANGED_CERTIFICATES, scale)]:
        part.count("certificates changed in each line")
        for lines in changes(text.split(b"\n")[:-1]):
            try_changed(part, program, lines)
    for _ in range(scaled(TWICE_CHANGED, scale)):
        lines = part.random.choice(chosen).split(b"\n")[:-1]
        once = part.random.choice(list(changes(lines)))
        try_changed(part, program, part.random.choice(list(changes(once))))


def small_query(part):
    """A random one-query script, what is read of it and a form for a certificate of it; None where it is refused or has many parts."""
    head = random_query(part)
    try:
        script = checker.read_script(head, False)
        forms = [branching.WHOLE, branching.SPLIT] if branching.goes_by_form(script.query) else [branching.PLAIN]
        shown = part.random.choice(forms)
        if shown == branching.PLAIN:
            checker.analysis.walk_parts(script.query, MOST_OWN_PARTS)
        elif branching.nodes_of(script.query, shown) > MOST_OWN_NODES:
            return None
        return head, script, shown
    except (Refused, checker.analysis.TooManyParts):
        return None


def judge_own_certificates(part, program, scale):
    """Certificates of the campaign's own making, some of them with strays, must be judged alike."""
    for _ in range(scaled(OWN_CERTIFICATES, scale)):
        found = small_query(part)
        if found:
            head, script, shown = found
            strays = part.random.choice([0, 0.02, 0.1, 0.25])
            lines = maker.certificate(script.query, part.random, strays, shown)
            part.count("own certificates")
            part.count(f"own certificates, {shown}")
            try_changed(part, program, head.split(b"\n")[:-1] + lines)


def run(program, seed, scale):
    part = Part("certificates", seed)
    certificates = judge_queries(part, program, scale)
    for _ in range(scaled(REFUSED_SCRIPTS, scale)):
        judge(part, program, refused_script(part))
    change_certificates(part, program, certificates, scale)
    judge_own_certificates(part, program, scale)
    return part
