"""Counts the instructions of calls of the library for C by valgrind's callgrind. A program of bench/
makes the calls (counted.h), each in a function of its own that is not inlined."""
import os
import re
import shutil
import subprocess
import sys
import tempfile

TOP = os.path.join(os.path.dirname(os.path.realpath(__file__)), "..")


def library():
    """Returns the file that NM_SET names, or the library that c/pack makes of dist/."""
    named = os.environ.get("NM_SET") or os.path.join(TOP, "out", "c", "libnm_set.a")
    if not os.path.exists(named):
        subprocess.run([os.path.join(TOP, "c", "pack")], check=True)
    return named


def build(name):
    """Compiles bench/NAME.c and links it with the library; returns the program's path."""
    if not shutil.which("valgrind"):
        sys.exit(f"bench/{name}: there is no valgrind, which counts the instructions")
    program = os.path.join(TOP, "out", "c", name)
    os.makedirs(os.path.dirname(program), exist_ok=True)
    compiler = [os.environ.get("CC", "cc"), "-std=c11", "-O2", "-Wall", "-Wextra", "-Werror"]
    subprocess.run([*compiler, "-I", os.path.join(TOP, "c", "include"), os.path.join(TOP, "bench", f"{name}.c"),
                    library(), "-o", program], check=True)
    return program


def instructions(program, function, words, calls):
    """Runs the program with these words and this number of calls; returns the instructions of a call
    of the function, on average. Ends the script if not each call did what it should, by the
    program's output."""
    name = os.path.basename(program)
    with tempfile.TemporaryDirectory() as folder:
        counts = os.path.join(folder, "counts")
        command = ["valgrind", "--tool=callgrind", f"--toggle-collect={function}",
                   f"--callgrind-out-file={counts}", program, *map(str, words), str(calls)]
        made = subprocess.run(command, capture_output=True, text=True, check=False)
        if made.returncode != 0:
            sys.exit(f"bench/{name}: {' '.join(command)}\n{made.stdout}{made.stderr}")
        if int(made.stdout) != calls:
            sys.exit(f"bench/{name}: {made.stdout.strip()} of {calls} calls of {function} with"
                     f" {' '.join(map(str, words))} did what they should")
        with open(counts, encoding="utf-8") as file:
            return int(re.search(r"^totals: (\d+)", file.read(), re.M)[1]) / calls
