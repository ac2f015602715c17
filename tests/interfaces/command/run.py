#!/usr/bin/env python3
"""The crate in rust/ and the command `quenhovach`: builds both offline, runs the crate's tests, and tries the command from outside.

Every expected text and number is written by hand from the rules. The judges are in the other files of this folder. The last line is 'N passed, M failed'.
"""
import os
import signal
import sys
import tempfile

sys.dont_write_bytecode = True
sys.path.insert(0, os.path.join(os.path.dirname(os.path.abspath(__file__)), "..", "..", "shared"))
import answers  # noqa: E402
import apart  # noqa: E402
import copies  # noqa: E402
import crate  # noqa: E402
import files  # noqa: E402
import hints  # noqa: E402
import included  # noqa: E402
import interrupted  # noqa: E402
import long_runs  # noqa: E402
import several  # noqa: E402
import sheets  # noqa: E402
import usage  # noqa: E402
import widths  # noqa: E402
from tally import finish  # noqa: E402

PARTS = [
    answers.endings, answers.places, widths.lines, widths.table, files.inputs, files.sheets, files.reports, files.limits, files.standard_output, apart.told_apart, apart.harmless,
    apart.written_through, several.joined, several.places, several.too_long, several.unreadable, several.read_first, several.clashes, hints.refused, hints.warned, hints.beside, hints.linear, hints.known, copies.missing,
    included.folders, included.written, included.failing, included.too_long, included.sets, included.clashes, included.refused, included.warned, sheets.good, sheets.refused, sheets.hints, sheets.ended, sheets.readings, sheets.absent, sheets.untouched, sheets.beside, sheets.clashes, interrupted.signals, long_runs.finished, long_runs.interrupted, usage.usage,
]


def as_from_the_start():
    """What the command inherits: who runs these tests may have signals ignored, as nohup does, and a shell for what it runs in the background."""
    for number in (signal.SIGHUP, signal.SIGINT, signal.SIGQUIT):
        if signal.getsignal(number) == signal.SIG_IGN:
            signal.signal(number, signal.SIG_DFL)


def main():
    as_from_the_start()
    for part in [crate.missing_archive, crate.build, crate.tests, crate.habits] + PARTS:
        with tempfile.TemporaryDirectory() as folder:
            part(folder)
    finish()


main()
