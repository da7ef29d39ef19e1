"""Clauses: which of a contract's a goal is of, which are left open in what the prover said, and which a wrong body breaks.

A clause is named by its function, as the prover names it but for the crate, and then by its own name: of `ensures NAME { .. }`
that is NAME, of an `ensures` without a name `ensures`, and of all else the name that the prover gives the goal, as
`invariant_of-result`, `push-requires` or `loop-t-preserved`. That a function ends, which one that calls itself has to prove by
a measure, is its clause `measure`.
"""
import re

from edits import functions_of

# Goals that what a function ensures holds where it returns. One goal stands for a clause on one way out.
RETURNS = re.compile(r"returns(-.*)?")
NAMED = re.compile(r".*-clause-([\w']+?)(?:-\d+)?")

# A line on a goal that no search proved, with what is said of it; a line on an answer by hand, or on what rests on one; and
# how a function stands.
UNPROVED = re.compile(r"note: \S+?:\d+:\d+: .*\(`([^`]+)`\)(.*)")
REFUSED = re.compile(r"(?:\./)?proofs/(\S+)/Answers\.antt:\d+:\d+: error: `([^`]+)`: (.*)")
RESTING = re.compile(r"(?:\./)?proofs/(\S+)/Answers\.antt:\d+:\d+: error: \d+ declarations? that depends? on `([^`]+)`.* not checked: (.*)")
STANDS = re.compile(r"fn ([\w:+]+): (.*)")

# What an answer is refused with that names what is no longer there. It says nothing of the clause.
MISNAMED = re.compile(r"can be named from here|is not in scope|has no field|has no `|is no name")

# What is known of an open goal: values make it false; search ended without a proof, or at a limit; its answer by hand was
# refused, or names what isn't there; or it rests on what was refused.
VALUES, SEARCHED, LIMIT, ANSWER, RESTS, FORM = "values", "searched", "limit", "answer", "rests", "form"


def clause_of(goal):
    """The clause that a goal is of."""
    if not RETURNS.fullmatch(goal):
        return goal
    named = NAMED.fullmatch(goal)
    return named[1] if named else "ensures"


def mark_of(said):
    """What is known of a goal that no search proved, by the end of its line."""
    if "allow values" in said:
        return VALUES
    return LIMIT if "one of its limits" in said else SEARCHED


def answers_file(function):
    """The file with a function's answers by hand."""
    return f"proofs/{function.replace('::', '/')}/Answers.antt"


def blocks_of(text):
    """The declarations of a file of answers, each with the name that it declares, or None, and its lines."""
    found = [(None, [])]
    for line in text.split("\n"):
        declares = re.match(r"(?:pub )?([^\s:(]+) :", line)
        if declares:
            found.append((declares[1], []))
        elif re.match(r"--", line):
            found.append((None, []))
        found[-1][1].append(line)
    return found


def goals_answered(texts, function):
    """The goals to which a function has answers by hand, in the order of their file."""
    return [name for name, lines in blocks_of(texts.get(answers_file(function), "")) if name and f": goal.{name}" in lines[0]]


def is_by_hand(texts, function, clause):
    """Whether an answer by hand proves this clause on some way out."""
    return any(clause_of(name) == clause for name in goals_answered(texts, function))


def without_answers(texts, function, clause):
    """The texts without the answers by hand to this clause, so that search alone is asked."""
    path = answers_file(function)
    left = [(name, lines) for name, lines in blocks_of(texts[path]) if not name or clause_of(name) != clause]
    if not any(name for name, _ in left):
        # Nothing but imports, which may name what is no longer there: nothing of the crate would be read.
        return {it: text for it, text in texts.items() if it != path}
    return {**texts, path: "\n".join(line for _, lines in left for line in lines)}


def resting_on(texts, function, name):
    """The declarations of a function's file of answers that cite this one, or one that does."""
    blocks = [(it, set(re.findall(r"[^\s(),.{}]+", " ".join(lines)))) for it, lines in blocks_of(texts.get(answers_file(function), ""))]
    found, fresh = set(), {name}
    while fresh:
        found |= fresh
        fresh = {it for it, words in blocks if it and it not in found and words & fresh}
    return found - {name}


class Found:
    """What the prover left open, as it is read line by line: of each clause, by its function and its name, what is known."""

    def __init__(self, crate, texts):
        self.crate, self.texts, self.open = crate, texts, {}
        # Goals of which the function is told behind them, and the declarations beside answers that are refused for a name.
        self.pending, self.misnamed = [], set()

    def add(self, function, goal, mark):
        """Notes what is known of a function's goal."""
        self.open.setdefault((function.removeprefix(f"{self.crate}::"), clause_of(goal)), set()).add(mark)

    def refuse(self, function, name, said):
        """Notes that an answer, or a declaration beside it, is refused."""
        mark = FORM if MISNAMED.search(said) else ANSWER
        self.misnamed |= {(function, name)} if mark == FORM else set()
        resting = resting_on(self.texts, function, name)
        for goal in goals_answered(self.texts, function):
            if goal == name:
                self.add(function, goal, mark)
            elif goal in resting:
                self.add(function, goal, FORM if mark == FORM else RESTS)

    def rest(self, function, below, names):
        """Notes the answers that rest on what was refused. The prover names three of them at most."""
        for goal in re.findall(r"(?:^|, )([^\s,]+)", names):
            if goal in goals_answered(self.texts, function):
                self.add(function, goal, FORM if (function, below) in self.misnamed else RESTS)

    def stand(self, function, said):
        """Notes how a function stands: what was told before is of its goals."""
        for goal, mark in self.pending + [("measure", SEARCHED)] * ("expected a measure in" in said):
            self.add(function, goal, mark)
        self.pending = []

    def read(self, line):
        """Reads a line."""
        unproved, refused, resting, stands = (it.match(line) for it in (UNPROVED, REFUSED, RESTING, STANDS))
        if refused:
            self.refuse(refused[1].replace("/", "::"), refused[2], refused[3])
        elif resting:
            self.rest(resting[1].replace("/", "::"), resting[2], resting[3])
        elif unproved:
            self.pending.append((unproved[1], mark_of(unproved[2])))
        elif stands:
            self.stand(stands[1], stands[2])


def open_clauses(crate, texts, said):
    """Of each clause that is left open in what the prover said, what is known of it, by its function and its name."""
    found = Found(crate, texts)
    for line in said.split("\n"):
        found.read(line)
    return found.open


def is_of(crate, edit, function):
    """Whether an edit changes this function, or the module that has it."""
    return any(f"{crate}::{function}" == it or f"{crate}::{function}".startswith(f"{it}::") for it in edit.touched)


def evidence(crate, texts, edit, found):
    """Whether an edit leaves its clause open, which is of what it changes; and where an answer by hand stands for the clause,
    so that search alone is to be asked too, the marks that this must leave."""
    marks, by_search = found.get(edit.clause, set()), {VALUES, SEARCHED, LIMIT}
    if not is_of(crate, edit, edit.clause[0]):
        return False, None
    if not edit.is_of_bodies:
        return bool(marks - {FORM}), None
    if not is_by_hand(texts, *edit.clause):
        return bool(marks & by_search), None
    # Where the answers by hand only name what is no longer there, another form alone may be refused.
    return bool(marks), by_search if marks & {ANSWER, RESTS, VALUES} else {VALUES}


def unnamed(edits):
    """The edits that name no clause."""
    return [edit for edit in edits if not edit.clause]


def ensured(crate, texts, function):
    """The names of what a function ensures, in the order of its contract."""
    for path in (it for it in texts if it.startswith("src/")):
        inside = functions_of(crate, path, texts[path])
        lines = [line for line, name in zip(texts[path].split("\n"), inside) if name == f"{crate}::{function}"]
        if lines:
            return re.findall(r"^ +ensures\*? (\w+) \{", "\n".join(lines), re.M)
    return []


def proposed(crate, texts, edit, found):
    """The clauses that an edit leaves open, the likeliest first: what a function ensures before all else, what is surest to be
    false before the rest, and then in the order of the contract."""
    order = (VALUES, SEARCHED, LIMIT, ANSWER, RESTS, FORM)

    def rank(clause):
        names = ensured(crate, texts, clause[0])
        place = names.index(clause[1]) if clause[1] in names else len(names)
        return "-" in clause[1], min(order.index(it) for it in found[clause]), place

    return sorted((clause for clause in found if is_of(crate, edit, clause[0])), key=rank)
