"""A long run: on a terminal a line says that it goes on, and is gone when it ends; elsewhere nothing is written. A signal ends it and leaves nothing."""
import fcntl
import os
import pty
import re
import resource
import select
import signal
import struct
import subprocess
import termios
import time

from common import get, put
from places import COMMAND
from tally import check

LINE = re.compile(r"quenhovach: still expanding, (\d+) s")
ENDLESS = b"define(`l',`l')l"


def loop(turns, text=b""):
    """A text that takes its time: so many times translit over 30,000 bytes, then `done`."""
    return b"define(`x',`" + b"a" * 30000 + b"')define(`t',`')define(`l',`ifelse($1,0,,`t(translit(x,`a',`b'))l(decr($1))')')" + text + b"l(%d)done" % turns


def turns_a_second():
    """How many turns of the loop this machine makes in a second of its processor, at its best of three."""
    def took():
        before = resource.getrusage(resource.RUSAGE_CHILDREN).ru_utime
        subprocess.run([COMMAND], input=loop(2000), stdout=subprocess.DEVNULL, check=True)
        return resource.getrusage(resource.RUSAGE_CHILDREN).ru_utime - before
    return 2000 / min(took() for _ in range(3))


class Terminal:
    """A terminal and the process that it controls, with what was written to it and when, and what that leaves on its screen."""

    def __init__(self, command, columns=80, here=("stdin", "stderr"), **how):
        self.ours, theirs = pty.openpty()
        self.columns = columns
        fcntl.ioctl(theirs, termios.TIOCSWINSZ, struct.pack("HHHH", 24, columns, 0, 0))
        self.open = True
        self.came = []
        self.began = time.monotonic()
        streams = {name: theirs if name in here else subprocess.PIPE for name in ("stdin", "stdout", "stderr")}
        self.process = subprocess.Popen(command, start_new_session=True, preexec_fn=lambda: fcntl.ioctl(theirs, termios.TIOCSCTTY, 0), pass_fds=[theirs], **streams, **how)
        os.close(theirs)

    def take(self):
        try:
            self.came.append((time.monotonic() - self.began, os.read(self.ours, 1000)))
        except OSError:
            self.open = False
            self.lasted = time.monotonic() - self.began

    def type(self, byte):
        os.write(self.ours, byte)

    def end(self):
        """Exit status and standard output of the process when it has ended, and its standard error."""
        watch([self])
        out, err = self.process.communicate(timeout=60)
        os.close(self.ours)
        return self.process.returncode, out, err

    def shown(self):
        return b"".join(piece for _, piece in self.came).decode()

    def seconds(self):
        """The seconds that the line told, in order."""
        return [int(n) for n in LINE.findall(self.shown())]

    def screen(self):
        """The rows as they are seen, but for empty ones."""
        rows, row, column = [[]], 0, 0
        for character in self.shown():
            if character == "\r":
                column = 0
            elif character == "\n":
                row += 1
            else:
                if column == self.columns:
                    row, column = row + 1, 0
                rows += [[] for _ in range(row + 1 - len(rows))]
                rows[row] += " " * (column + 1 - len(rows[row]))
                rows[row][column] = character
                column += 1
        return [line for line in ("".join(cells).rstrip() for cells in rows) if line]


def watch(terminals, seconds=60, enough=lambda: False):
    """Takes what comes, for so many seconds, or until that is enough or no process has a terminal open any more."""
    end = time.monotonic() + seconds
    while any(terminal.open for terminal in terminals) and time.monotonic() < end and not enough():
        ready = select.select([terminal.ours for terminal in terminals if terminal.open], [], [], max(0, end - time.monotonic()))[0]
        for terminal in terminals:
            if terminal.ours in ready:
                terminal.take()


def begin_finite(folder, turns):
    """Three runs that end by themselves: with error text, refused, and with a terminal that is stopped."""
    for name, more, before, after in [("told", 1.5, b"errprint(`a note\n')", b""), ("refused", 1, b"", b"\n`"), ("stopped", 1, b"", b"")]:
        put(os.path.join(folder, name), loop(int(turns * more), before) + after)
    told = Terminal([COMMAND, "-o", "sheet", "told"], cwd=folder)
    refused = Terminal([COMMAND, "refused"], cwd=folder, columns=20)
    stopped = Terminal([COMMAND, "stopped"], cwd=folder)
    stopped.type(b"\x13")
    return told, refused, stopped


def finished(folder):
    """Runs that end by themselves. Where they were too short to have a line, since the machine is faster than it was, longer ones are tried."""
    turns = 2.4 * turns_a_second()
    long_enough = False
    while not long_enough:
        told, refused, stopped = runs = begin_finite(folder, turns)
        watch(runs)
        long_enough = told.lasted > 3.2 and min(refused.lasted, stopped.lasted) > 2.2
        turns *= 1.5
    check("a long run ends as others do", (told.end(), get(os.path.join(folder, "sheet"))), ((0, b"", None), b"done"))
    check("its line comes after two seconds", 1.9 < told.came[0][0] < 3.9, True)
    check("it tells how long, each second anew", told.seconds()[:2] == [2, 3] and told.seconds() == sorted(set(told.seconds())), True)
    check("and it is gone in the end", told.screen(), ["a note"])
    check("a long run is refused as others are", refused.end(), (69, b"", None))
    check("the line is cut where the terminal is narrow", refused.shown().startswith("\rquenhovach: still e\r"), True)
    check("and is not among the message", refused.screen()[:2], ["quenhovach: refused:", "2:1: refused: a quot"])
    check("a run does not wait for a terminal that is stopped", (stopped.end(), stopped.came), ((0, b"done", None), []))


def short(folder):
    put(os.path.join(folder, "short"), b"errprint(`a note')x")
    terminal = Terminal([COMMAND, "short"], cwd=folder)
    check("a short run has no line", (terminal.end(), terminal.shown()), ((0, b"x", None), "a note"))
    put(os.path.join(folder, "shim.c"), SHIM)
    subprocess.run(["gcc", "-shared", "-fPIC", "-w", "-o", "shim.so", "shim.c"], cwd=folder, check=True)
    terminal = Terminal([COMMAND, "short"], cwd=folder, env=without_threads(folder))
    check("a run where no thread can be had", (terminal.end(), terminal.shown()), ((0, b"x", None), "a note"))


SHIM = b"""#include <errno.h>
#include <pthread.h>
int pthread_create(pthread_t *thread, const pthread_attr_t *how, void *(*begin)(void *), void *with) { return EAGAIN; }
"""


def without_threads(folder):
    return dict(os.environ, LD_PRELOAD=os.path.join(folder, "shim.so"))


def endless(folder, name):
    """The command on a text without end, with an old sheet and an old report of its own."""
    for kind in (".sheet", ".report"):
        put(os.path.join(folder, name + kind), b"old")
    return [COMMAND, "--budget", "4294967295", "-o", name + ".sheet", "--report", name + ".report", "endless"]


def nothing_left(folder, name):
    """Whether the old sheet stands, the old report is emptied, and no temporary file is there."""
    texts = [get(os.path.join(folder, name + kind)) for kind in (".sheet", ".report")]
    return texts == [b"old", b""] and not any(other.startswith(".") for other in os.listdir(folder))


def interrupted(folder):
    """Runs without end, all at once; each is ended before its line comes or while it is shown."""
    short(folder)
    put(os.path.join(folder, "endless"), ENDLESS)
    run_and_tell = ["sh", "-c", 'trap : INT; "$0" "$@"; echo "status $?" >&2']
    plain = {n: subprocess.Popen(endless(folder, n.name), cwd=folder, stdout=subprocess.PIPE, stderr=subprocess.PIPE) for n in (signal.SIGINT, signal.SIGTERM, signal.SIGHUP)}
    early = Terminal(run_and_tell + endless(folder, "early"), cwd=folder)
    late = Terminal(run_and_tell + endless(folder, "late"), cwd=folder)
    halted = Terminal(endless(folder, "halted"), cwd=folder)
    background = Terminal(["sh", "-c", 'set -m; "$0" "$@" & sleep 2.7; kill $!; wait $!'] + endless(folder, "background"), cwd=folder)
    elsewhere = Terminal(endless(folder, "elsewhere"), cwd=folder, here=("stdin", "stdout"))
    alone = Terminal(endless(folder, "alone"), cwd=folder, env=without_threads(folder))
    all_of_them = [early, late, halted, background, elsewhere, alone]
    watch(all_of_them, 1)
    early.type(b"\x03")
    check("Ctrl-C ends a run at once", (early.end()[:2], early.screen(), nothing_left(folder, "early")), ((0, b""), ["^Cstatus 130"], True))
    all_of_them.remove(early)
    for number, process in plain.items():
        running = process.poll() is None
        process.send_signal(number)
        out, err = process.communicate(timeout=60)
        check("%s ends a long run" % number.name, (running, process.returncode, out, err, nothing_left(folder, number.name)), (True, -number, b"", b"", True))
    watch(all_of_them, 20, lambda: late.seconds() and halted.seconds())
    watch(all_of_them, 0.3)
    check("a line is shown", [len(one.screen()) == 1 and bool(LINE.fullmatch(one.screen()[0])) for one in (late, halted)], [True, True])
    late.type(b"\x03")
    check("Ctrl-C ends a run whose line is shown", (late.end()[:2], nothing_left(folder, "late")), ((0, b""), True))
    check("and nothing of the line stays", late.screen(), ["status 130"])
    halted.type(b"\x13")
    watch([halted], 0.2)
    halted.process.terminate()
    check("a signal ends a run whose terminal is stopped", (halted.end()[:2], nothing_left(folder, "halted")), ((-signal.SIGTERM, b""), True))
    elsewhere.process.terminate()
    alone.process.terminate()
    check("nothing is told where standard error is no terminal", (elsewhere.end(), elsewhere.shown()), ((-signal.SIGTERM, None, b""), ""))
    check("nothing is told where no thread can be had", (alone.end(), alone.shown()), ((-signal.SIGTERM, b"", None), ""))
    check("nothing is told in the background", (background.end()[0], "quenhovach" in background.shown()), (128 + signal.SIGTERM, False))
