"""The crate in rust/: it is built offline, with std and without, its own tests pass, and a missing archive is named."""
import os
import re
import subprocess

from common import CRATE
from places import RUST
from tally import check, count, finish

ENVIRONMENT = dict(os.environ, CARGO_TARGET_DIR=RUST)


def cargo(*arguments, **environment):
    """A cargo command in the crate's folder; exit status and all that it said."""
    done = subprocess.run(["cargo"] + list(arguments), cwd=CRATE, env=dict(ENVIRONMENT, **environment), stdout=subprocess.PIPE, stderr=subprocess.STDOUT)
    return done.returncode, done.stdout.decode(errors="replace")


def cargo_passes(name, *arguments, **environment):
    status, said = cargo(*arguments, **environment)
    if status != 0:
        print(said)
    check(name, status, 0)


def build(_):
    status, said = cargo("build", "--release", "--offline", "--locked")
    check("the crate is built", status, 0)
    if status != 0:
        print(said)
        finish()


def tests(_):
    """Adds up the crate's own tests, those in its documentation too."""
    status, said = cargo("test", "--release", "--offline", "--locked")
    results = re.findall(r"^test result: .* (\d+) passed; (\d+) failed;", said, re.M)
    good, bad = (sum(int(r[i]) for r in results) for i in (0, 1))
    if status != 0:
        print(said)
        bad = max(bad, 1)
    print("the crate's own tests: %d passed, %d failed" % (good, bad))
    count(good, bad)
    check("tests in the library, the command, six files and the documentation", [int(r[0]) > 0 for r in results], [True] * 9)


def habits(_):
    for name, features in [("core alone", []), ("a heap and no std", ["--features", "alloc"])]:
        less = ["--release", "--offline", "--locked", "--lib", "--no-default-features"] + features
        cargo_passes("the library's tests with " + name, "test", *less)
        cargo_passes("cargo clippy with " + name, "clippy", *less, "--", "-D", "warnings")
    cargo_passes("cargo clippy", "clippy", "--release", "--offline", "--all-targets", "--", "-D", "warnings")
    cargo_passes("cargo fmt", "fmt", "--check")
    cargo_passes("cargo doc", "doc", "--release", "--offline", "--no-deps", "--lib", RUSTDOCFLAGS="-D warnings")


def missing_archive(folder):
    status, said = cargo("build", "--offline", QUENHOVACH_LIB_DIR=folder, CARGO_TARGET_DIR=os.path.join(folder, "built"))
    check("without the archive nothing is built", status != 0, True)
    check("and the message says how to build it", "rt lib" in said and os.path.join(folder, "libquenhovach.a") in said, True)
