"""Instructions of a program of this repository on a text, counted by valgrind's callgrind with no part of the machine in them.

Counted is from the beginning of `main` on, or in each call of one function, with all symbols bound before, and with the memory functions of
bench/memory.s instead of those of the machine's C library, which take other ways on other machines.
"""
import collections
import os
import re
import subprocess
import sys
import tempfile

MEMORY = os.path.join(os.path.dirname(os.path.abspath(__file__)), "memory.s")

# what a program took, and what it wrote on standard output and standard error
Counted = collections.namedtuple("Counted", "instructions output errors")


class Counter:
    """Its folder, which holds the memory functions and the texts, goes with it."""

    def __init__(self):
        self.folder = tempfile.TemporaryDirectory()
        self.library = self.at("memory.so")
        subprocess.run(["gcc", "-shared", "-nostdlib", "-Wl,-z,noexecstack", "-o", self.library, MEMORY], check=True)

    def at(self, name):
        return os.path.join(self.folder.name, name)

    def run(self, program, text):
        """What the whole program takes."""
        done, log = self.valgrind(program, text, ["--toggle-collect=main", "--callgrind-out-file=/dev/null"])
        found = re.search(r"Collected : ([1-9]\d*)$", log, re.M)
        if not found:
            sys.exit("valgrind gave no count for %s: %s" % (program, log[-500:]))
        return Counted(int(found.group(1)), done.stdout, done.stderr)

    def calls(self, program, text, function):
        """What each call of a function takes, in their order, and what the program wrote on standard output."""
        with tempfile.TemporaryDirectory() as folder:
            out = os.path.join(folder, "call")
            done, _ = self.valgrind(program, text, ["--toggle-collect=" + function, "--dump-after=" + function, "--callgrind-out-file=" + out])
            # call.1, call.2, .. and at last `call`, with what came behind the last call
            counts = [total_of("%s.%d" % (out, number)) for number in range(1, len(os.listdir(folder)))]
        return counts, done.stdout

    def valgrind(self, program, text, options):
        """The text comes from a file, so that every run reads it in the same pieces."""
        with open(self.at("text"), "w+b") as file:
            file.write(text)
            file.seek(0)
            environment = {"PATH": os.environ["PATH"], "LC_ALL": "C", "LD_BIND_NOW": "1", "LD_PRELOAD": self.library}
            words = ["valgrind", "--tool=callgrind", "--log-file=" + self.at("log")] + options + [program]
            done = subprocess.run(words, stdin=file, capture_output=True, env=environment)
        with open(self.at("log")) as file:
            log = file.read()
        if done.returncode != 0:
            sys.exit("valgrind did not run %s (exit status %d): %s" % (program, done.returncode, log[-500:]))
        return done, log


def total_of(path):
    """The instructions of one file of callgrind's."""
    with open(path) as file:
        return int(re.search(r"^totals: (\d+)$", file.read(), re.M).group(1))
