"""Wrong bodies of a crate tried some at a time: each in a function of its own, since a function is proved by its own body and the contracts of others.

A check of the crate with all of a round's bodies in place tells of each function whether it is proved. What this leaves undecided is tried alone, by
the kit's gate (try_wrong.py): a body outside of a function, one that doesn't compile, one that the prover gives up on by a limit, one that is
refused only because a proof names what it took away, and one that is proved. RT in the environment names another command than rt.
"""
import os
import re
import subprocess

FUNCTION = re.compile(r"^( *)(?:pub(?:\([a-z]+\))? )?(?:const )?(?:unsafe )?fn (\w+)")
NAMES = re.compile(r"^(?:note: )?(?:\./)?proofs/\S*?(\w+)/\w+\.antt:.*(?:has no field|is not in scope|has no `|was not admitted)")
LIMITS = re.compile(r"antt ran out of|outgrew the memory limit|stopped at the step limit")


def pairs_of(edit):
    """Returns what an edit changes: file, old and new text of each of its pairs."""
    found, path, old = [], "", ""
    with open(edit, encoding="utf-8") as it:
        for line in it.read().split("\n"):
            if line.startswith("file: "):
                path = line[len("file: ") :].strip()
            elif line.startswith("old: "):
                old = line[len("old: ") :]
            elif line.startswith("new:"):
                found.append((path, old, line[len("new:") :].removeprefix(" ")))
    return found


def function_at(text, place):
    """Returns the function that a place of a source file stands in: its name, or None."""
    lines = text.split("\n")
    at = text.count("\n", 0, place)
    for first in range(at, -1, -1):
        found = FUNCTION.match(lines[first])
        if found:
            end = next((k for k in range(first, len(lines)) if lines[k] == found[1] + "}"), len(lines))
            return found[2] if at <= end else None
    return None


def functions_of(folder, edit):
    """Returns the functions that an edit changes, each by the path of its module and its name, or None where one stands in no function."""
    found = set()
    for path, old, _ in pairs_of(edit):
        file = f"{folder}/{path}"
        text = open(file, encoding="utf-8").read() if os.path.isfile(file) else ""
        name = function_at(text, text.find(old)) if path.startswith("src/") and text.count(old) == 1 else None
        if not name:
            return None
        found.add((path[len("src/") : -len(".rt")].replace("/", "::"), name))
    return found


def rounds_of(folder, edits):
    """Returns the edits in rounds, no function twice in one, and those that have to be tried alone. Each with its functions."""
    rounds, alone = [], []
    for name, edit in sorted(edits.items()):
        own = functions_of(folder, edit)
        if own is None:
            alone.append(name)
            continue
        free = next((it for it in rounds if not any(own & other for other in it.values())), None)
        if free is None:
            rounds.append(free := {})
        free[name] = own
    return rounds, alone


def check(folder):
    """Checks a crate; returns what the check said and whether it reached a verdict."""
    ran = subprocess.run([os.environ.get("RT", "rt"), "check"], cwd=folder, stdin=subprocess.DEVNULL, stdout=subprocess.PIPE, stderr=subprocess.STDOUT, text=True, errors="replace")
    return ran.stdout, re.search(r"^logic=(\S+)", ran.stdout, re.M)


def is_refused(crate, own, said):
    """Returns whether the check said that a function of the edit's isn't proved, and gave a reason of the function's own that is no name and no limit."""
    for module, name in own:
        path = "::".join(it for it in (crate, module if module != "lib" else "") if it)
        told = re.search(rf"^fn {path}::(?:\w+::)*{name}: (?:not proved|no proof).*", said, re.M)
        if not told:
            continue
        lines = said.split("\n")
        failed = any(re.match(rf"(?:\./)?proofs/\S*/{name}/\w+\.antt:\d+:\d+: error", line) for line in lines)
        weak = any(found[1] == name for found in map(NAMES.match, lines) if found)
        # (a function that calls one which isn't proved has no proof either)
        if ("did not prove" in told[0] or failed) and not weak and not LIMITS.search(said):
            return True
    return False


def tried(crate, folder, edits):
    """Tries edits of a crate, whose folder is in a clone of its own, in rounds. Returns the names of those that are refused."""
    rounds, _ = rounds_of(folder, edits)
    said, verdict = check(folder) if rounds else ("", None)
    if not rounds or not verdict or verdict[1] != "proved":
        return set()
    found = set()
    while rounds:
        some = rounds.pop(0)
        texts = {}
        for name in some:
            for path, old, new in pairs_of(edits[name]):
                file = f"{folder}/{path}"
                with open(file, encoding="utf-8") as it:
                    text = it.read()
                texts.setdefault(file, text)
                with open(file, "w", encoding="utf-8") as out:
                    out.write(text.replace(old, new))
        try:
            said, verdict = check(folder)
        finally:
            for file, text in texts.items():
                with open(file, "w", encoding="utf-8") as out:
                    out.write(text)
        if verdict and verdict[1] == "not-proved":
            found |= {name for name, own in some.items() if is_refused(crate, own, said)}
        elif len(some) > 1:
            # (one of them doesn't compile)
            rounds += [{name: own} for name, own in some.items()]
    return found
