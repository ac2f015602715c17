"""Where the tests find the repository and what was built of it."""
import os
import subprocess

ROOT = os.path.dirname(os.path.dirname(os.path.dirname(os.path.abspath(__file__))))
# the library, from `rt lib` in crates/quenhovach
ARCHIVE = os.path.join(ROOT, "crates", "quenhovach", "out", "libquenhovach.a")
# the crate in rust/ is built here, and the command with it
RUST = os.path.join(ROOT, "target", "rust")
COMMAND = os.path.join(RUST, "release", "quenhovach")


def program(name):
    """A program, from `rt ci`, or from `rt run` in its crate."""
    return os.path.join(ROOT, "crates", name, "out", name)


def build_command():
    """Builds the command if need be, and says whether that went well."""
    cargo = ["cargo", "build", "--release", "--offline", "--locked", "--quiet"]
    return subprocess.run(cargo, cwd=os.path.join(ROOT, "rust"), env=dict(os.environ, CARGO_TARGET_DIR=RUST)).returncode == 0
