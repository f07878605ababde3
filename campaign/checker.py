"""An own reader of one-query scripts and an own checker of certificates.

`certificate_reply(text)` says what `check` must write and its exit status.
"""
import re

import analysis
import branching
import evaluator
import language
from branching import MOST_NODES, Branching
from language import CreateQuery, CreateStream, Refused

LARGEST_NUMBER = 65_535
LEAST_COUNT = {"infeasible": 1, "path": 3}
GREATEST_COUNT = {"infeasible": 13, "path": 14}
WORDS = [b"split", b"infeasible", b"against", b"leaf", b"path"]
LINE = re.compile(rb"(" + b"|".join(WORDS) + rb")((?: [0-9]+)*)\Z")


class Fault(Exception):
    """A certificate breaks a rule at a place."""

    def __init__(self, place, reason):
        super().__init__(place, reason)
        self.place, self.reason = place, reason


class Script:
    """The statements of a one-query script, and the certificate lines behind them."""

    def __init__(self):
        self.session = evaluator.Session()
        self.streams, self.statement, self.query, self.query_line = [], None, None, None
        self.nodes = []

    def take(self, number, line, with_certificate):
        """Reads one line; Refused where it is not taken."""
        if len(line) > language.LONGEST_LINE:
            raise Refused("LineTooLong")
        stripped = language.strip_line(line)
        if language.says_nothing(stripped):
            return
        if self.statement is not None:
            if not with_certificate:
                raise Refused("Syntax")
            self.take_node(stripped)
            return
        if language.row_name(stripped):
            raise Refused("Syntax")
        self.take_statement(number, stripped)

    def take_statement(self, number, stripped):
        tokens = language.tokens_of(stripped)
        kind = type(language.read_statement(language.Reader(tokens)))
        if kind not in (CreateStream, CreateQuery):
            raise Refused("Syntax")
        statement = language.parse(stripped)
        if kind is CreateStream:
            self.session.create_stream(statement)
            self.streams.append(statement)
            return
        self.query = self.session.resolve(statement)
        self.statement, self.query_line = statement, number

    def take_node(self, stripped):
        """Reads one line of a certificate: a word and numbers."""
        found = LINE.match(stripped)
        if not found:
            raise Refused("Syntax")
        word = found.group(1).decode()
        numbers = [int(it) for it in found.group(2).split()]
        if any(it > LARGEST_NUMBER for it in numbers) or not counts_fit(word, len(numbers)):
            raise Refused("Syntax")
        if word == "path":
            if not self.nodes or self.nodes[-1][0] != "leaf":
                raise Refused("Syntax")
            self.nodes[-1][1].append(numbers)
            return
        if len(self.nodes) >= MOST_NODES:
            raise Refused("Limit")
        self.nodes.append((word, [] if word == "leaf" else numbers))


def counts_fit(word, count):
    """Whether a certificate line with this word may have so many numbers."""
    if word in LEAST_COUNT:
        return LEAST_COUNT[word] <= count <= GREATEST_COUNT[word]
    return count == (0 if word == "leaf" else 1)


class Tree:
    """Walks the nodes of a certificate in preorder and gathers its leaves."""

    def __init__(self, query, nodes):
        self.query, self.nodes = query, nodes
        self.over = Branching(query, branching.shown_by(query, nodes))
        self.pairs, self.size = self.over.pairs, self.over.size
        # the signs of each leaf, and its bounds
        self.leaves = []

    def walk(self):
        """Goes through the whole tree; Fault at the first place that breaks a rule."""
        if not self.over.has_room():
            raise Fault(1, "Shape")
        waiting, place = [("", self.over.base)], 0
        while waiting:
            signs, constraints = waiting.pop()
            depth = len(signs)
            place += 1
            if place > len(self.nodes):
                raise Fault(place, "Shape")
            word, numbers = self.nodes[place - 1]
            if word == "split":
                if numbers[0] != depth + 1 or depth >= len(self.pairs):
                    raise Fault(place, "Shape")
                left, right = self.pairs[depth]
                for sign in reversed(analysis.SIGNS):
                    more = analysis.constraints_of(left, sign, right, self.over.numbers)
                    waiting.append((signs + sign, constraints + more))
            elif word == "infeasible":
                self.try_cycle(place, numbers, constraints)
            elif word == "against":
                self.try_against(place, numbers[0], signs)
            else:
                self.try_leaf(place, signs, numbers, constraints)
        if place < len(self.nodes):
            raise Fault(place + 1, "Shape")

    def try_cycle(self, place, numbers, constraints):
        if any(not 1 <= it <= len(constraints) for it in numbers):
            raise Fault(place, "Cycle")
        chain = [constraints[it - 1] for it in numbers]
        following = chain[1:] + chain[:1]
        closes = all(one[1] == other[0] for one, other in zip(chain, following))
        if not closes or sum(it[2] for it in chain) >= 0:
            raise Fault(place, "Cycle")

    def try_against(self, place, number, signs):
        """A node that names the comparison, by its number among all, that is false there."""
        named = self.over.atoms[number - 1:number] if number else ()
        if not any(self.over.is_false(it, signs) for it in named):
            raise Fault(place, "Cycle")

    def try_leaf(self, place, signs, paths, constraints):
        if len(signs) != len(self.pairs) or any(self.over.is_false(it, signs) for it in self.over.atoms):
            raise Fault(place, "Shape")
        at = [[0 if i == j else None for j in range(self.size)] for i in range(self.size)]
        before = (-1, -1)
        for i, j, *numbers in paths:
            if i == j or i >= self.size or j >= self.size or (i, j) <= before:
                raise Fault(place, "Path")
            at[i][j] = self.chain_sum(place, i, j, numbers, constraints)
            before = (i, j)
        for a, b, bound in constraints:
            for j in range(self.size):
                if at[b][j] is not None and (at[a][j] is None or at[a][j] > bound + at[b][j]):
                    raise Fault(place, "Bound")
        self.leaves.append((signs, at))

    def chain_sum(self, place, i, j, numbers, constraints):
        """The sum of the bounds of a path from i to j."""
        if any(not 1 <= it <= len(constraints) for it in numbers):
            raise Fault(place, "Path")
        total, here = 0, i
        for number in numbers:
            left, right, bound = constraints[number - 1]
            if left != here:
                raise Fault(place, "Path")
            total, here = total + bound, right
        if here != j:
            raise Fault(place, "Path")
        return total

    def decision(self):
        """The first condition that a leaf fails, as (part, condition, attribute), or None."""
        for number, leaf in enumerate(self.leaves, 1):
            violation = self.over.violation(*leaf)
            if violation:
                return (number, *violation)
        return None


def read_script(text, with_certificate):
    """The script of a text; Refused carries the line's number as `line`."""
    script = Script()
    lines = language.lines_of(text)
    for number, line in enumerate(lines, 1):
        try:
            script.take(number, line, with_certificate)
        except Refused as refusal:
            refusal.line = number
            raise
    if script.statement is None:
        refusal = Refused("Syntax")
        refusal.line = len(lines) + 1
        raise refusal
    return script


def refusal_line(refusal):
    return b"error %d %s\n" % (refusal.line, refusal.word.encode())


def judge(script):
    """What `check` says of a script that was read, and its exit status."""
    tree = Tree(script.query, script.nodes)
    name = script.statement.name
    try:
        tree.walk()
    except Fault as fault:
        return b"no %d %s\n" % (fault.place, fault.reason.encode()), 1
    decision = tree.decision()
    if decision is None:
        return b"certified %s bounded parts %d\n" % (name, len(tree.leaves)), 0
    number, condition, column = decision
    named = script.session.column_name(script.statement.streams, column)
    return b"certified %s part %d %s %s\n" % (name, number, condition.encode(), named), 0


def certificate_reply(text):
    """What `check` must write about a text, and its exit status."""
    try:
        script = read_script(text, True)
    except Refused as refusal:
        return refusal_line(refusal), 1
    return judge(script)


def certify_refusal(text):
    """What `certify` must write where it refuses a script, else None."""
    head = None
    try:
        script = read_script(text, False)
        query, line = script.query, script.query_line
    except Refused as refusal:
        head, query, line = refusal, *query_before(text, refusal.line)
    if query is not None and branching.is_too_large(query):
        return b"error %d Limit\n" % line
    return refusal_line(head) if head else None


def query_before(text, refused):
    """The query of a script that is refused at a later line, and its line."""
    try:
        script = read_script(b"\n".join(language.lines_of(text)[:refused - 1]), False)
    except Refused:
        return None, None
    return script.query, script.query_line


def printed_statements(script):
    """The statements of a script in their printed form."""
    statements = [*script.streams, script.statement]
    return b"".join(language.print_statement(it) + b"\n" for it in statements)
