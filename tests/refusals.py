"""Whether the prover refuses a must-fail edit at the clause that the edit names.

Other scripts import this file. What `rt` says of an edit is a line with the first goal that wasn't proved. A goal is a name of words with `-` between them, as
`returns-in-Ok-clause-bytes`. The edit's line `clause: WORDS` has whole words of it, and the name of the clause if the goal has one.
"""
import re

TRIED = re.compile(r"^rt: must-fail (\S+): (.*)", re.MULTILINE)
REFUSED = "refused, as it must be: "  # `rt` goes on with a parenthesis if only a limit of the prover, or a proof that lost a name, has refused the edit
GOAL = re.compile(r": error: `([^`]+)|\(`([^`]+)")
CLAUSE = re.compile(r"^clause: (.+)\n", re.MULTILINE)


def is_of(goal: str, clause: str) -> bool:
    """Returns whether a goal is of a clause."""
    return f"-{clause}-" in f"-{goal}-" and ("clause-" in clause or "-clause-" not in f"-{goal}")


def fault_of(edit: str, said: str) -> str:
    """Returns why an edit with this text doesn't count as refused, by what `rt` said of it. Returns an empty text if it counts."""
    clause, goal = CLAUSE.search(edit), GOAL.search(said)
    if clause is None:
        return f"it has no line `clause: WORDS`; {said}"
    if said.startswith(REFUSED) and (goal is None or not is_of(goal[1] or goal[2], clause[1])):
        return f"not at {clause[1]}; {said}"
    return "" if said.startswith(REFUSED) else said


def faults_of(edits: dict[str, str], output: str) -> dict[str, str]:
    """Returns the fault of each of these edits, by its crate and its file's name. The output is all that `rt` printed."""
    said = dict(TRIED.findall(output))
    last = output.rstrip().rpartition("\n")[2]
    return {name: fault_of(edit, said.get(name, f"it wasn't tried; {last}")) for name, edit in edits.items()}
