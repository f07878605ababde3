"""What the output of a check of some functions shows."""
import re

# What a proof file says where the edit took a name away: that shows nothing of a contract.
NAMES = re.compile(r"is not in scope|has no field|has no `|was not admitted")


def is_proved(status, output):
    """Whether the functions that were asked for are proved, and those that they call."""
    return status == 0 and bool(re.search(r"^only=(\d+) proved=\1$", output, re.M))


def homes_of(function):
    """Returns the folders of a function's proof files, written by hand and by a tactic: for `a::T::f` proofs/a/T/f and proofs/a/T/+f."""
    *above, name = function.split("::")
    return tuple("/".join(["proofs", *above, last, ""]) for last in (name, "+" + name))


def refusals(output, files, function):
    """Returns what the check says at the edited files and in the function's own proof files that is no matter of names."""
    found = []
    for line in output.split("\n"):
        place = re.match(r"(?:note: )?(?:\./)?((?:src|specs|proofs)/[^:]*):\d+:\d+: ", line)
        is_own = place and (place[1] in files or place[1].startswith(homes_of(function)))
        if is_own and not NAMES.search(line) and ("error" in line or "it is not proved that" in line):
            found.append(line)
    return found


def compiles(output):
    """Returns whether no error of the compiler stands in what a check wrote."""
    return not re.search(r"\berror\[[\w-]+\]", output)


def fault_of(status, output, files, crate, function):
    """Says why a check with an edit shows no refusal of the function, or gives None where it does."""
    last = output.rstrip("\n").split("\n")[-1]
    if status == 2:
        return f"the prover judged nothing: {last[:200]}"
    if is_proved(status, output):
        return "it is still proved"
    if not compiles(output):
        return "the edited text does not compile"
    if status != 1 or not re.fullmatch(r"only=\d+ proved=\d+", last):
        return f"it came to no result (status {status}): {last[:200]}"
    is_open = re.search(rf"^fn {re.escape(crate)}::{re.escape(function)}: (not proved|no proof)", output, re.M)
    if not is_open or not refusals(output, files, function):
        return f"no clause and no goal of {function} refuses it"
    return None
