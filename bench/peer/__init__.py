"""What the benches of sets beside others share: how they build the programs here, and run them."""
import os
import statistics
import subprocess
import sys

SOURCES = os.path.dirname(os.path.realpath(__file__))
TOP = os.path.join(SOURCES, "..", "..")
OUT = os.path.join(TOP, "out", "peers")

# The servers that make no call but look-ups, and those that remove no key.
LOOKING = {"tbb", "pinned", "several"}
UNCHANGING = {"tbb"}


def run(*words):
    """Runs a command, and ends the program with its output if it fails."""
    made = subprocess.run(words, capture_output=True, text=True)
    if made.returncode != 0:
        sys.exit(" ".join(words) + "\n" + made.stdout + made.stderr)


def has_header(name):
    """Returns whether the compiler for C++ finds a header."""
    command = ["g++", "-x", "c++", "-E", "-"]
    asked = subprocess.run(command, input=f"#include <{name}>", capture_output=True, text=True)
    return asked.returncode == 0


def library():
    """Returns the place of the library for C, which is built if it is not there."""
    named = os.environ.get("NM_SET") or os.path.join(TOP, "out", "c", "libnm_set.a")
    if not os.path.exists(named):
        run(os.path.join(TOP, "c", "pack"))
    return named


def compiled(name, *links):
    """Compiles a program in C++ with the library; returns its place."""
    os.makedirs(OUT, exist_ok=True)
    program = os.path.join(OUT, name)
    command = ["g++", "-std=c++17", "-O2", "-pthread", "-I", os.path.join(TOP, "c", "include")]
    run(*command, os.path.join(SOURCES, name + ".cpp"), library(), *links, "-o", program)
    return program


def compiled_in_rust(name):
    """Compiles a program in Rust; returns its place."""
    program = os.path.join(OUT, name + "-rust")
    run("rustc", "-O", os.path.join(SOURCES, name + ".rs"), "-o", program)
    return program


def compiled_in_java(name):
    """Compiles a class in Java; returns the command that runs it."""
    run("javac", "-d", OUT, os.path.join(SOURCES, name + ".java"))
    return ["java", "-cp", OUT, name]


def answer(command, row):
    """Runs a program for one row; returns the number that it prints."""
    made = subprocess.run(command, input=row + "\n", capture_output=True, text=True)
    if made.returncode != 0:
        sys.exit(" ".join(command) + "\n" + made.stderr)
    return float(made.stdout)


def load():
    """Returns the load of the machine in the last minute."""
    with open("/proc/loadavg", encoding="ascii") as file:
        return file.read().split()[0]


class Server:
    """A program that answers rows until its input ends."""

    def __init__(self, command):
        self.process = subprocess.Popen(
            command, stdin=subprocess.PIPE, stdout=subprocess.PIPE, text=True
        )

    def rate(self, *row):
        print(*row, file=self.process.stdin, flush=True)
        return float(self.process.stdout.readline())


def measured(servers, asked, row, churn=0):
    """Of each server the rates of all rounds, by turns, where it can do what the row asks. The second
    number of a row is how many of 100 calls are look-ups, and some servers can make nothing else. With
    churn, so many changes for each key are made before, half of them inserts."""
    last = (churn,) if churn else ()
    able = {name for name in servers if name not in LOOKING or row[1] == 100}
    if churn:
        able -= UNCHANGING
    found = {name: [] for name in servers if name in able}
    for _ in range(asked.rounds):
        for name, rates in found.items():
            rates.append(servers[name].rate(*row, asked.millis, *last))
    return found


def medians(found):
    """The rate of the first server, and of each other one its ratio to it."""
    (first, own), *others = found.items()
    ratios = {name: [a / b for a, b in zip(rates, own)] for name, rates in others}
    medians_of_ratios = {name: statistics.median(it) for name, it in ratios.items()}
    return statistics.median(own), medians_of_ratios
