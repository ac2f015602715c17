#!/usr/bin/env python3
"""definitions.py [FILE..]: computes lines of vectors with the definitions of crates/rules and compares every answer.

FILE is a table like tests/vectors.tsv, of runs, like tests/lines.tsv, of the index of lines, like tests/sheets.tsv, of sheets, or like
tests/histories.tsv, of the numbers of bytes; these four are the default. Their heads say what stands in their columns, which are separated by tabs. The definitions are computed by the prover: a crate with one statement for each line is made
outside the tree and checked. Of the runs two kinds of line are left out, as they are out of reach of a computation over lists: a text or a set of more
than 65,536 bytes, and a result of 2147483647 bytes. Ends with 'N passed, M failed'; exit status 0 only if M is 0.
"""
import os
import re
import shutil
import subprocess
import sys
import tempfile

sys.dont_write_bytecode = True
sys.path.insert(0, os.path.join(os.path.dirname(os.path.abspath(__file__)), "..", "shared"))
from places import ROOT  # noqa: E402
from tally import count, fail, finish  # noqa: E402

LEFT_OUT = (lambda text, lent: max(len(text), len(lent)) > 65536, lambda text, lent: re.search(rb"eval\(-?1(/[1-9])?,\d+,2147483647\)", text))

HEAD = """-- Made by tests/book/definitions.py.
use Rattle.std.specs.Prelude.{ℕ, ◌≡◌, Bool, true, ◌&&◌, List, [], ◌∷◌, ◌++◌, map, eqb, ℤ, pos, negsuc, length, replicate, None, Some, Result}
use mathlib.Core.Path.{refl}
use lib.Count.{ones_in, count_trailing_zeros}
use lib.Ieee.{binary64, of_bits, of_fields, span, climb, size, odd, units, round, neg, div, of_int}
use Rattle.rules.specs.declared.Entry.{Entry}
use Rattle.rules.specs.declared.Sheet.{Sheet}
use Rattle.rules.specs.declared.SheetError.{SheetError}
use Rattle.rules.specs.declared.Value.{Value}
use Rattle.rules.specs.declared.Value.TheVariants as value
use Rattle.rules.specs.declared.IndexError.{IndexError}
use Rattle.rules.specs.Bytes.{Bytes, same_bytes}
use Rattle.rules.specs.Answers.{answer_number, answer_detail}
use Rattle.rules.specs.Streams.{Change}
use Rattle.rules.specs.State.{fresh_start}
use Rattle.rules.specs.Run.{Setting, Ended, run}
use Rattle.rules.specs.Contract.{output_of, errors_of}
use Rattle.rules.specs.Lines.{index_number, index_value, words_of, totals_of, building, held_by, line_of, start_of}
use Rattle.rules.specs.Sheets.{sheet_number, sheet_detail, sheet_of, sheet_in, sheet_read, sheet_after, sheet_report_of, question}
use Rattle.rules.specs.History.{history_of, output_numbers, value_in, given_in, counting_from, route_of}
use Rattle.rules.proofs.Book.{book}

setting : ℕ → ℕ → ℕ → ℕ → ℕ → ℕ → ℕ → ℕ → Setting
setting a b c d e f g n = record { pending = a; calls = b; definitions = c; streams = d; wrap = e; errors = f; output = g; budget = n }

meets : ℕ → ℕ → ℕ → ℕ → Bytes → Bytes → Ended → Bool
unfolding book
meets number detail steps place output errors e =
    eqb (answer_number e.answer) number && eqb (answer_detail e.answer) detail && eqb e.steps steps && eqb e.state.source.taken place
    && same_bytes (output_of e) output && same_bytes (errors_of e) errors

answers : ℕ → ℕ → Result ℕ IndexError → Bool
unfolding book
answers number value a = eqb (index_number a) number && eqb (index_value a) value

builds : ℕ → ℕ → Bytes → List ℕ → List ℕ → List ℕ → List ℕ → Bool
unfolding book
builds number value text words totals w t =
    eqb (index_number (building text words totals)) number && eqb 0 value
    && same_bytes (held_by (building text words totals) (words_of text) words) w && same_bytes (held_by (building text words totals) (totals_of text) totals) t

-- what a text read as a sheet comes to: number, detail and lines
reads : ℕ → ℕ → List Entry → Result Sheet SheetError → Type 0
reads number detail lines r = (sheet_number r ≡ number) × (sheet_detail r ≡ detail) × (sheet_in r ≡ sheet_of lines)

-- the same of a run, with its steps and place, output and error text
follows : ℕ → ℕ → ℕ → ℕ → Bytes → Bytes → List Entry → Ended → Type 0
follows number detail steps place output errors lines e =
    reads number detail lines (sheet_after e) × reads number detail lines (sheet_report_of e).answer
    × ((sheet_report_of e).steps ≡ steps) × ((sheet_report_of e).place ≡ place) × ((sheet_report_of e).output ≡ length output) × ((sheet_report_of e).errors ≡ length errors)
    × (output_of e ≡ output) × (errors_of e ≡ errors)

-- how a run ends, the numbers of its output, their values, and the route of each number that is given, its last stream first
numbers : ℕ → ℕ → Bytes → List ℕ → List (List ℤ) → Ended → List Change → Type 0
numbers number detail output ns routes e h =
    (answer_number e.answer ≡ number) × (answer_detail e.answer ≡ detail) × (output_of e ≡ output) × (output_numbers h ≡ ns) × (map (value_in h) ns ≡ output)
    × (map (λ k. route_of k h) (counting_from 0 (given_in h)) ≡ routes)
"""
# what the second column of the index of lines has, that of sheets, and that of histories; a run has a text there, in hexadecimal
INDEX = ("build", "line", "start")
SHEETS = ("read", "sheet", "question")
HISTORY = ("history",)


def listed(data):
    return "(" + "".join("%d ∷ " % b for b in data) + "[])"


def unhex(word):
    return b"" if word == "-" else bytes.fromhex(word)


def left_out(fields):
    return fields[1] not in INDEX + SHEETS + HISTORY and any(left(unhex(fields[1]), unhex(fields[2])) for left in LEFT_OUT)


def of_run(fields):
    """That a run gives what the line says, as a test that comes out true."""
    _, text, lent, lengths, budget, answer, detail, steps, place, output, errors = fields
    started = "(run (fresh_start %s %s) (setting %s %s))" % (listed(unhex(text)), listed(unhex(lent)), lengths.replace(",", " "), budget)
    return "meets %s %s %s %s %s %s %s" % (answer, detail, steps, place, listed(unhex(output)), listed(unhex(errors)), started)


def repeated(word, base):
    """The numbers of a column: those between commas, V*N for V repeated N times."""
    parts = [] if word == "-" else [part.partition("*") for part in word.split(",")]
    lists = ["replicate %s %d" % (count or 1, int(value, base)) for value, _, count in parts]
    return "(" + " ++ ".join(lists or ["[]"]) + ")"


def of_index(fields):
    """That the index of lines answers what the line says, and leaves what it says."""
    _, function, text, asked, words, totals, number, value, words_after, totals_after, _ = fields
    lent = "%s %s" % (repeated(words, 16), repeated(totals, 10))
    if function == "build":
        data = repeated(text, 16) if "*" in text else listed(unhex(text))
        return "builds %s %s %s %s %s %s" % (number, value, data, lent, repeated(words_after, 16), repeated(totals_after, 10))
    if (words, totals) != (words_after, totals_after):
        sys.exit("a question writes nothing: %s" % fields)
    return "answers %s %s (%s %s %s %s)" % (number, value, {"line": "line_of", "start": "start_of"}[function], text, lent, asked)


def of_integer(number):
    return "(%s)" % ("pos %d" % number if number >= 0 else "negsuc %d" % (-number - 1))


def of_history(fields):
    """That a run has the numbers and routes that the line says: a statement, and how many parts it has."""
    _, _, text, lent, lengths, budget, number, detail, output, numbers, routes, _ = fields
    started = "(fresh_start %s %s) (setting %s %s)" % (listed(unhex(text)), listed(unhex(lent)), lengths.replace(",", " "), budget)
    ran = "(run %s) (history_of %s)" % (started, started)
    streams = [[int(stream) for stream in route.split(">")] for route in ([] if routes == "-" else routes.split(","))]
    newest_first = ["(%s[])" % "".join("%s ∷ " % of_integer(stream) for stream in reversed(route)) for route in streams]
    expected = "(%s[])" % "".join("%s ∷ " % route for route in newest_first)
    output_numbers = listed([int(k) for k in ([] if numbers == "-" else numbers.split(","))])
    return "numbers %s %s %s %s %s %s" % (number, detail, listed(unhex(output)), output_numbers, expected, ran), "(refl, refl, refl, refl, refl, refl)"


def of_value(reading):
    """A reading of tests/sheets.tsv, as the book writes it."""
    kind, _, rest = reading.partition(" ")
    if kind == "number":
        return "(value.Number %s)" % of_integer(int(rest))
    if kind == "decimal":
        return "(value.Decimal (of_bits binary64 %d))" % int(rest, 16)
    if kind != "word":
        sys.exit("no reading: %s" % reading)
    return "(value.Word %s %s)" % tuple(rest.split("+"))


def of_lines(word):
    """The lines of a sheet; no sheet has none."""
    entries = []
    for line in [] if word in ("[]", "none") else word.split(";"):
        name, _, reading = line.partition(" ")
        entries.append("record { name = %s; length = %s; value = %s }" % (*name.split("+"), of_value(reading)))
    return "(" + "".join("%s ∷ " % entry for entry in entries) + "[])"


def of_sheet(fields):
    """That a text read, a run or a question gives what the line says: a statement, and how many parts it has."""
    _, function, text, lent, name, number, detail, steps, place, output, errors, result, _ = fields
    data = listed(unhex(text))
    if function == "question":
        found = "None" if result == "absent" else "Some %s" % of_value(result)
        return "question (sheet_of %s) %s %s ≡ %s" % (of_lines(lent), data, listed(unhex(name)), found), "refl"
    if function == "read":
        return "reads %s %s %s (sheet_read %s)" % (number, detail, of_lines(result), data), "(refl, refl, refl)"
    run = "(run (fresh_start %s (0 ∷ [])) (setting %s 16777216))" % (data, lent.replace(",", " "))
    said = "follows %s %s %s %s %s %s %s %s" % (number, detail, steps, place, listed(unhex(output)), listed(unhex(errors)), of_lines(result), run)
    return said, "((refl, refl, refl), (refl, refl, refl), refl, refl, refl, refl, refl, refl)"


def statement(number, fields):
    if fields[1] in SHEETS + HISTORY:
        said, shown = (of_sheet if fields[1] in SHEETS else of_history)(fields)
    else:
        said, shown = "%s ≡ true" % (of_index(fields) if fields[1] in INDEX else of_run(fields)), "refl"
    opened = "book ones_in meets setting answers builds"
    if fields[1] in SHEETS:
        opened += " reads follows of_bits of_fields span climb size odd units round neg div of_int count_trailing_zeros"
    if fields[1] in HISTORY:
        opened += " numbers"
    return "\nline%d : %s\nunfolding %s\nline%d = %s\n" % (number, said, opened, number, shown)


def read(path):
    rows = []
    for line in open(path, encoding="utf-8"):
        if line.strip() and not line.startswith("#"):
            rows.append(line.rstrip("\n").split("\t"))
    if all(left_out(fields) for fields in rows):
        sys.exit("%s has no line that is computed" % path)
    return rows


def check(rows):
    """The numbers of the rows whose statement is refused, with the prover's word on each."""
    with tempfile.TemporaryDirectory() as folder:
        shutil.copytree(os.path.join(ROOT, "crates", "rules"), os.path.join(folder, "crates", "rules"), ignore=shutil.ignore_patterns("out", "must-fail"))
        computed = os.path.join(folder, "crates", "computed")
        os.makedirs(os.path.join(computed, "src"))
        os.makedirs(os.path.join(computed, "proofs"))
        with open(os.path.join(folder, "crates.txt"), "w") as f:
            f.write("rules:\ncomputed: rules\n")
        with open(os.path.join(computed, "src", "lib.rt"), "w") as f:
            f.write("// Made by tests/book/definitions.py.\n#![tactic(auto)]\n\npub struct Line {\n    pub number: u32,\n}\n")
        with open(os.path.join(computed, "proofs", "Lib.antt"), "w") as f:
            f.write("pub mod Lines\n")
        with open(os.path.join(computed, "proofs", "Lines.antt"), "w") as f:
            f.write(HEAD + "".join(statement(i, fields) for i, fields in rows))
        run = subprocess.run(["rt", "check"], cwd=computed, capture_output=True, text=True, errors="replace")
    wrong = {}
    for line in (run.stdout + run.stderr).split("\n"):
        found = re.search(r"error: (?:in )?`line(\d+)`(.*)", line)
        if found:
            wrong.setdefault(int(found.group(1)), found.group(2).strip(": ")[:300])
    if run.returncode != 0 and not wrong:
        sys.exit("the crate of statements could not be checked:\n" + run.stdout + run.stderr)
    return wrong


def main():
    tables = sys.argv[1:] or [os.path.join(ROOT, "tests", name) for name in ("vectors.tsv", "lines.tsv", "sheets.tsv", "histories.tsv")]
    rows = [fields for path in tables for fields in read(path)]
    kept = [(i, fields) for i, fields in enumerate(rows) if not left_out(fields)]
    wrong = check(kept)
    for i in sorted(wrong):
        fail("wrong: %s: %s" % ("  ".join(rows[i])[:400], wrong[i]))
    print("%d lines left out (out of reach of a computation)" % (len(rows) - len(kept)))
    count(len(kept) - len(wrong), 0)
    finish()


main()
