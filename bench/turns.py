"""What the figures of bench/*/run.sh share: programs are run by turns, and the least processor time of each on each line counts."""
import os
import resource
import subprocess
import sys

WORK = os.environ["BENCH_WORK"]
# what the lines of the program that is timed begin with
PREFIX = os.environ["BENCH_PREFIX"]


class Program:
    """A built program, with words behind its name and before each line of its input."""

    def __init__(self, name, words=(), before=""):
        self.command, self.before = [f"{WORK}/{name}", *words], before


def in_c(name="c"):
    return Program(name)


def in_rattle(name="rattle", before=""):
    return Program(name, before=PREFIX + before)


def spent():
    used = resource.getrusage(resource.RUSAGE_CHILDREN)
    return used.ru_utime + used.ru_stime


def once(program, line):
    """The processor seconds of a run, and what it prints."""
    begin = spent()
    answer = subprocess.run(program.command, input=f"{program.before}{line}\n", capture_output=True, text=True, check=True).stdout
    return spent() - begin, answer


def least(programs, lines, runs):
    """By a program's name and a line: the least seconds of so many runs, and what is printed."""
    seconds, answers = {}, {}
    for _ in range(runs):
        for name, program in programs.items():
            for line in lines:
                taken, answers[name, line] = once(program, line)
                seconds[name, line] = min(taken, seconds.get((name, line), taken))
    return seconds, answers


def same(what, answers):
    """Ends where programs print different things."""
    if len(set(answers.values())) > 1:
        sys.exit(f"{what}: " + ", ".join(f"{name} printed {answer!r}" for name, answer in answers.items()))


def each(programs, nothing, full, count, runs, part=str):
    """The seconds of one of `count`, by a program's name: of the line `full`, less those of the line `nothing`. All programs have to
    print the same, or the same part of it."""
    seconds, answers = least(programs, (nothing, full), runs)
    same(full, {name: part(answers[name, full]) for name in programs})
    return {name: max(seconds[name, full] - seconds[name, nothing], 1e-9) / count for name in programs}


def end(worst, most):
    """The status of a script whose worst ratio has to be at most so much."""
    sys.exit(0 if worst <= most else f"slower than {most} times C")
