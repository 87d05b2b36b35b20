"""The standard's constant tables, as `samples/tables` has them."""
import functools
import pathlib

TOP = pathlib.Path(__file__).resolve().parents[2]
FOLDER = TOP / "samples" / "tables"


@functools.cache
def tables():
    """All tables by name, flat."""
    found = {}
    for line in (FOLDER / "tables.txt").read_text().splitlines():
        if line.startswith("# "):
            entries = found.setdefault(line.split()[1], [])
        else:
            entries += map(int, line.split())
    return found


def table(name):
    return tables()[name]


def rows(name, width):
    """A table in rows of so many."""
    entries = table(name)
    return [entries[at:at + width] for at in range(0, len(entries), width)]


@functools.cache
def coefficients():
    """The probabilities of coefficients that are used: band 0 has three contexts, the others six."""
    found = []
    for number, row in enumerate(rows("prob_coef", 18)):
        used = row[:9] if number % 6 == 0 else row
        assert all(used) and not any(row[len(used):])
        found += used
    return found


@functools.cache
def flows():
    """The rows of each flow, by its kind and size: a word and numbers."""
    found = {}
    for line in (FOLDER / "flows.txt").read_text().splitlines():
        word, *rest = line.split()
        if word == "flow":
            steps = found.setdefault((rest[0], int(rest[1])), [])
        else:
            steps.append((word, [int(number) for number in rest]))
    return found
