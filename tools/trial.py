"""A trial of a crate's wrong bodies: which of them the prover refuses, many in a check."""
import time

from clauses import evidence, open_clauses, proposed, without_answers
from edits import changed, made_together


class NoTime(Exception):
    """The minutes are over before a check."""


def first_batch(texts, edits):
    """Edits that can be tried together, the crate's texts with them, and those that are left."""
    now, left, touched = [], [], set()
    for edit in edits:
        goes_along = not now or edit.is_of_bodies and now[0].is_of_bodies and not edit.touched & touched
        if goes_along and made_together(texts, [*now, edit]):
            now, touched = [*now, edit], touched | edit.touched
        else:
            left.append(edit)
    return now, made_together(texts, now), touched, left


class Trial:
    """The edits of one crate as they are tried: what became of each, by its name, and in how many checks."""

    def __init__(self, name, texts, prover, names_clauses, until):
        self.name, self.texts, self.prover, self.names_clauses, self.until = name, texts, prover, names_clauses, until
        # Of each edit that was tried to its end what is wrong: nothing where it was refused.
        self.checks, self.outcomes = 0, {}

    def ask(self, texts, touched):
        """What the prover says of these functions and modules."""
        if time.monotonic() >= self.until:
            raise NoTime
        self.checks += 1
        return self.prover.check(texts, touched)

    def try_edits(self, edits):
        """Tries these edits, as far as there is time."""
        try:
            again, alone = self.try_together(edits)
            for edit, said in again:
                marks = self.try_again(edit, said)
                alone += [(edit, marks)] if marks else []
            self.try_by_search(alone)
        except NoTime:
            # What was not tried to its end has no outcome.
            pass

    def name_clause(self, edit, found):
        """Names the likeliest clause that this edit leaves open, in its file too, and shows all of them."""
        open_ones = proposed(self.name, self.texts, edit, found)
        for clause in open_ones:
            print(f"{self.name}/{edit.name}: {' '.join(clause)} ({', '.join(sorted(found[clause]))})", flush=True)
        if open_ones:
            edit.clause = open_ones[0]
            edit.file.write_text(edit.file.read_text().rstrip("\n") + f"\nclause: {' '.join(edit.clause)}\n")

    def judged(self, edit, said):
        """Whether an edit is refused as far as this check shows, and the marks that its clause must leave by search alone."""
        found = open_clauses(self.name, self.texts, said.text)
        if self.names_clauses and not edit.clause:
            self.name_clause(edit, found)
        return evidence(self.name, self.texts, edit, found) if edit.clause else (said.is_refused(edit.touched), None)

    def try_together(self, edits):
        """Tries edits, many in a check. Those that no check refused, and those to be tried by search alone with the marks."""
        again, alone = [], []
        while edits:
            now, wrong, touched, edits = first_batch(self.texts, edits)
            said, left = self.ask(wrong, touched), []
            for edit in now:
                is_refused, marks = self.judged(edit, said)
                left += [] if is_refused else [edit]
                alone += [(edit, marks)] if is_refused and marks else []
                self.outcomes |= {edit.name: None} if is_refused and not marks else {}
            # Where nothing was refused, a later check would be this one again.
            later = [it for it in left if len(left) < len(now) and not it.clause and said.waits(it.touched)]
            edits += later
            again += [(it, said) for it in left if it not in later]
        return again, alone

    def try_again(self, edit, said):
        """Tries an edit alone that nothing refused together with others. The marks for search alone, if there are any."""
        if edit.is_of_bodies:
            said = self.ask(changed(self.texts, edit.changes), edit.touched)
        is_refused, marks = self.judged(edit, said)
        if is_refused and marks:
            return marks
        why = f"it does not leave {' '.join(edit.clause)} open" if edit.clause else f"{', '.join(sorted(edit.touched))} is proved with it"
        unread = None if said.functions else f"the prover cannot read it: {said.first_error()}"
        self.outcomes[edit.name] = unread or (None if is_refused else f"NOT REFUSED: {why}")
        return None

    def try_by_search(self, pairs):
        """Tries edits without the answers by hand to their clauses."""
        marks_of, edits = {id(edit): marks for edit, marks in pairs}, [edit for edit, _ in pairs]
        while edits:
            now, wrong, touched, edits = first_batch(self.texts, edits)
            for edit in now:
                wrong = without_answers(wrong, *edit.clause)
            found = open_clauses(self.name, self.texts, self.ask(wrong, touched).text)
            for edit in now:
                self.outcomes[edit.name] = fault_by_search(edit, found.get(edit.clause, set()), marks_of[id(edit)])


def fault_by_search(edit, open_by_search, marks):
    """What is wrong with an edit of which search alone leaves these marks of its clause, if these are wanted."""
    clause = " ".join(edit.clause)
    if not open_by_search:
        return f"NOT REFUSED: search alone proves {clause}"
    if not open_by_search & marks:
        return f"NOT REFUSED: the answers by hand to {clause} only name what is no longer there, and search finds no values that make it false"
    return None
