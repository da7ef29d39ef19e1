"""What pfair must tell behind a run in notes, and by `check --run`, from docs/COMMANDS.md: over the messages of sentences.py."""
import messages_model
import model
import sentences


def words(_, checks):
    """The words that ask for a check, or for notes."""
    return ["check", "--run"] if checks else ["run", "-f", "denials", "--notes"]


def meaning(script, checks):
    """What is written then, what is told, and the status."""
    if not sentences.is_good(script):
        written, status = messages_model.checked(script, "; not run")
        return (written, b"", status) if checks else (b"", messages_model.first(script), status)
    run = sentences.carried(script)
    if checks:
        lines = [*sentences.in_whole(sentences.told(run)), f"{len(run.lines)} records, 0 faults, {sums(run)}"]
        return text_of(lines), b"", int(len(lines) > 1)
    return model.denials_table(run.placed).encode(), notes(script), 0


def sums(run):
    return f"{run.refused()} refused, {run.denied()} denied, {run.missed()} missed"


def notes(script):
    """What is told behind the answer to a good script."""
    run = sentences.carried(script)
    lines = sentences.in_short(list(sentences.told(run)))
    return text_of([*lines, f"-: {sums(run)}"] if lines else [])


def text_of(lines):
    return "".join(f"{it}\n" for it in lines).encode()
