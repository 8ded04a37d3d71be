"""What the benchmarks share: the least time of several runs, the time of one round, and a C program."""
import os
import resource
import subprocess
import time


def least(runs, *commands, **options):
    """The least time, in seconds, of so many runs of the commands, one after another."""
    best = None
    for _ in range(runs):
        start = time.perf_counter()
        for words in commands:
            subprocess.run(words, check=True, stdout=subprocess.DEVNULL, **options)
        taken = time.perf_counter() - start
        best = taken if best is None else min(best, taken)
    return best


def round_of(runs, words, few, many):
    """The time, in seconds, of one round of a program that takes a number of rounds as its last word: two
    numbers are timed, and the difference is divided, so that starting the program does not count."""
    return (least(runs, words + [str(many)]) - least(runs, words + [str(few)])) / (many - few)


def busy():
    """The seconds that processors spent on programs that were started here and have ended."""
    used = resource.getrusage(resource.RUSAGE_CHILDREN)
    return used.ru_utime + used.ru_stime


def least_of_both(runs, words):
    """The least time, in seconds, of so many runs, by the clock and of processors."""
    times = []
    for _ in range(runs):
        start, used = time.perf_counter(), busy()
        subprocess.run(words, check=True, stdout=subprocess.DEVNULL)
        times.append((time.perf_counter() - start, busy() - used))
    return [min(column) for column in zip(*times)]


def both_of_a_round(runs, words, few, many):
    """The same as `round_of`, by the clock and of processors."""
    pairs = zip(least_of_both(runs, words + [str(few)]), least_of_both(runs, words + [str(many)]))
    return [(last - first) / (many - few) for first, last in pairs]


def compiled(text, folder):
    """A program of that C text in the folder."""
    source, program = os.path.join(folder, "program.c"), os.path.join(folder, "program")
    with open(source, "w", encoding="ascii") as file:
        file.write(text)
    subprocess.run(["cc", "-O2", "-o", program, source], check=True)
    return program
