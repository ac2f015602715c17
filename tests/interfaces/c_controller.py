"""The controller of examples/c: what it says of templates, by hand from document 02."""
import os
import re
import subprocess

from tally import check

GOOD = b"mast=tall\nsway_gain=0.5\nfrozen_after_ms=80\n"
TAKEN = b"mast tall: sway gain 0.5, a sensor frozen for 80 ms is distrusted\n"

# what is tried, the template, standard output, and what standard error is behind the program's name and the file's
RUNS = [
    ("three settings", GOOD, TAKEN, b""),
    ("no last newline, other settings among them", b"guys=6\n" + GOOD + b"yard=north", TAKEN, b""),
    ("the ends of ranges", b"mast=" + b"m" * 31 + b"\nsway_gain=-0.0\nfrozen_after_ms=-2147483648",
     b"mast " + b"m" * 31 + b": sway gain -0, a sensor frozen for -2147483648 ms is distrusted\n", b""),
    ("diverted and worked out", b"divert(1)frozen_after_ms=eval(4*20)\ndivert(0)mast=tall\nsway_gain=substr(10.55,1,3)\n", TAKEN, b""),
    ("a blank in the third line", b"mast=tall\nguys=6\nsway_gain =0.5\n", b"", b"line 3 of the output is no setting: sway_gain =0.5"),
    ("an empty line", GOOD + b"\n", b"", b"line 4 of the output is no setting: "),
    ("a line that cannot be shown", b"\xff\t\x7f\r", b"", b"line 1 of the output is no setting: ????"),
    ("a long line that is not ended", b"mast=tall\n" + b"a" * 70, b"", b"line 2 of the output is no setting: " + b"a" * 60),
    ("16 digits", b"sway_gain=0.000000000000001", b"", b"line 1 of the output is no setting: sway_gain=0.000000000000001"),
    ("a name given twice", GOOD + b"mast=short", b"", b"line 4 of the output gives a setting again: mast=short"),
    ("257 lines", b"".join(b"n%d=1\n" % i for i in range(257)), b"", b"the output has more than 256 lines"),
    ("m4exit", GOOD + b"m4exit(3)", b"", b"the template ends itself by m4exit(3)"),
    ("an unclosed quote", GOOD + b"`", b"", b"the template is refused after 43 bytes (answer 5 1)"),
    ("a template that is too long", b"1" * 65537, b"", b"the template is refused after 0 bytes (answer 2 0)"),
    ("no gain", b"mast=tall\nfrozen_after_ms=80", b"", b"there is no setting sway_gain"),
    ("the front of a name, and more than it", b"mas=tall\nmasts=tall", b"", b"there is no setting mast"),
    ("no line at all", b"", b"", b"there is no setting mast"),
    ("a gain that is a number", GOOD.replace(b"0.5", b"1"), b"", b"sway_gain is not a decimal"),
    ("a gain that is a word", GOOD.replace(b"0.5", b"low"), b"", b"sway_gain is not a decimal"),
    ("a time that is a decimal", GOOD.replace(b"80", b"80.0"), b"", b"frozen_after_ms is not a number"),
    ("a mast that is a number", GOOD.replace(b"tall", b"12"), b"", b"mast is not a word"),
    ("a mast of 32 bytes", GOOD.replace(b"tall", b"m" * 32), b"", b"mast is longer than 31 bytes"),
]


def blocks(text):
    """The blocks of a page that are set in by four blanks."""
    return [re.sub(r"(?m)^    ", "", block) for block in re.findall(r"(?:^    .*\n)+", text, re.M)]


def try_templates(program, folder):
    template = os.path.join(folder, "template.m4")
    for name, text, output, told in RUNS:
        with open(template, "wb") as f:
            f.write(text)
        done = subprocess.run([program, template], capture_output=True)
        errors = b"controller: %s: %s\n" % (template.encode(), told) if told else b""
        check("the controller: " + name, (done.stdout, done.stderr, done.returncode), (output, errors, 1 if told else 0))
    with open(template, "wb") as f:
        f.write(b"errprint(`old gains\n')" + GOOD)
    done = subprocess.run([program, template], capture_output=True)
    check("the controller: error text", (done.stdout, done.stderr, done.returncode), (TAKEN, b"old gains\n", 0))
    for name, words, redirection, message in [
        ("no file named", "", "", b"usage: controller FILE\n"),
        ("a file that is not there", "nothing-here", "", b"controller: nothing-here: the file could not be read\n"),
        ("a folder", "/", "", b"controller: /: the file could not be read\n"),
        ("a full disk", '"$1"', ">/dev/full", b"old gains\ncontroller: %s: the settings could not be written\n" % template.encode()),
    ]:
        done = subprocess.run(["sh", "-c", '"$0" %s %s' % (words, redirection), program, template], cwd=folder, capture_output=True)
        check("the controller: " + name, (done.stdout, done.stderr, done.returncode), (b"", message, 1))


def try_readme(program, folder, root, shown):
    """The README's template, and its output with a bad line."""
    run, sheet, made, told = shown
    done = subprocess.run([program, os.path.join(root, run.split("\n")[1].split()[1])], capture_output=True, text=True)
    guyed = "mast guyed: sway gain 0.35, a sensor frozen for 100 ms is distrusted\n"
    check("the settings in the README", (done.stdout, done.stderr, done.returncode, sheet), (guyed, "", 0, guyed))
    done = subprocess.run(["sh", "-c", made.replace("target/controller", program).replace("target/", "./")], cwd=folder, capture_output=True, text=True)
    bad = "controller: target/blanks.m4: line 2 of the output is no setting: sway_gain = 0.35\n"
    check("the bad line in the README", (done.stdout, done.stderr, done.returncode, told), ("", bad.replace("target/", "./"), 1, bad))
