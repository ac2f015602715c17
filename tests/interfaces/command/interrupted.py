"""A signal ends the command as its caller sees it, and nothing is left behind."""
import fcntl
import os
import re
import resource
import signal
import subprocess

from common import get, put
from places import COMMAND
from tally import check


class Held:
    """A run that stands still, with a temporary file for the sheet and one for the report: its error text is in a pipe, more than the pipe takes."""

    def __init__(self, folder, old=("sheet", "numbers"), **how):
        self.folder = folder
        for name in old:
            put(os.path.join(folder, name), b"old")
        self.reader, writer = os.pipe()
        fcntl.fcntl(writer, fcntl.F_SETPIPE_SZ, 4096)
        self.process = subprocess.Popen([COMMAND, "-o", "sheet", "--report", "numbers"], cwd=folder, stdin=subprocess.PIPE, stdout=subprocess.DEVNULL, stderr=writer, **how)
        os.close(writer)
        self.process.stdin.write(b"errprint(`" + b"e" * 20000 + b"')x")
        self.process.stdin.close()
        os.read(self.reader, 1)

    def others(self):
        return sorted(re.sub(r"\d+-", "", name) for name in os.listdir(self.folder) if name not in ("sheet", "numbers"))

    def let_go(self):
        with os.fdopen(os.dup(self.reader), "rb") as rest:
            rest.read()

    def ended(self):
        status = self.process.wait(60)
        os.close(self.reader)
        return status, get(os.path.join(self.folder, "sheet")), get(os.path.join(self.folder, "numbers")), self.others()


def signals(folder):
    no_core = lambda: resource.setrlimit(resource.RLIMIT_CORE, (0, 0))
    for number in (signal.SIGHUP, signal.SIGINT, signal.SIGQUIT, signal.SIGUSR1, signal.SIGUSR2, signal.SIGALRM, signal.SIGTERM, signal.SIGXCPU):
        held = Held(folder, preexec_fn=no_core)
        check("before %s there are two temporary files" % number.name, held.others(), [".quenhovach-0", ".quenhovach-1"])
        held.process.send_signal(number)
        check("%s ends the process, and leaves no temporary file" % number.name, held.ended(), (-number, b"old", b"", []))
    held = Held(folder, preexec_fn=lambda: signal.signal(signal.SIGHUP, signal.SIG_IGN))
    held.process.send_signal(signal.SIGHUP)
    held.let_go()
    check("an ignored SIGHUP stays ignored", held.ended(), (0, b"x", b"0 0 5 20013 1 20000\n", []))
    os.remove(os.path.join(folder, "sheet"))
    held = Held(folder, old=["numbers"])
    put(os.path.join(folder, "sheet"), b"other")
    held.let_go()
    check("a new sheet does not replace what was made there meanwhile", held.ended(), (63, b"other", b"", []))
    for name in ("sheet", "numbers"):
        os.remove(os.path.join(folder, name))
    sleeper = subprocess.Popen([COMMAND], stdin=subprocess.PIPE)
    sleeper.send_signal(signal.SIGTERM)
    check("SIGTERM without a temporary file", sleeper.wait(60), -signal.SIGTERM)
    sleeper.stdin.close()
