#!/usr/bin/env python3
"""./install: what it installs is found by pkg-config, linked, run and read; what it took is given back; a run that fails says what it left.

Installs what the gate built (crates/quenhovach/out, target/rust) into folders of its own, and builds nothing. Expected texts are written by hand.
Ends with 'N passed, M failed'; exit status 0 only if M is 0.
"""
import fcntl
import os
import re
import shutil
import stat
import subprocess
import sys
import tempfile

sys.dont_write_bytecode = True
sys.path.insert(0, os.path.join(os.path.dirname(os.path.abspath(__file__)), "..", "shared"))
from places import ARCHIVE, COMMAND, ROOT, RUST  # noqa: E402
from tally import check, finish  # noqa: E402

FIVE = b"define(`n',`5')n"
HEADER = os.path.join(ROOT, "include", "quenhovach.h")
EXPORTED = ["quenhovach_expand", "quenhovach_lines_build", "quenhovach_lines_line_of", "quenhovach_lines_start_of",
            "quenhovach_sheet_expand", "quenhovach_sheet_find", "quenhovach_sheet_read"]
NO_BUILD = tempfile.TemporaryDirectory()  # tools that must not be called

# a call in just the room that document 01 names for this text, and the numbers that it names; then the line of a place, which is the second
PROGRAM = r"""
#include <quenhovach.h>
#include <stdio.h>
int main(void)
{
    static const uint8_t text[] = "define(`n',`5')n";
    static const uint8_t set[] = {0};
    uint8_t pending[1], calls[8], definitions[2], output[1];
    uint32_t r[QUENHOVACH_REPORT_LENGTH];
    uint32_t n = quenhovach_expand(text, 16, set, 1, pending, 1, calls, 8, definitions, 2, NULL, 0, NULL, 0, NULL, 0, output, 1, 8, r);
    uint64_t words[1], line;
    uint32_t totals[1];
    uint32_t m = quenhovach_lines_build((const uint8_t *)"a\nb", 3, words, 1, totals, 1);
    m += quenhovach_lines_line_of(3, words, 1, totals, 1, 2, &line);
    printf("%s %c %d %d %d %d, %d %d\n", QUENHOVACH_VERSION, output[0], (int)n, (int)r[1], (int)r[2], (int)r[3], (int)m, (int)line);
    return 0;
}
"""


def get(path):
    with open(path, "rb") as file:
        return file.read()


def put(path, text, mode=0o644):
    os.makedirs(os.path.dirname(path), exist_ok=True)
    with open(path, "wb") as file:
        file.write(text)
    os.chmod(path, mode)


VERSION = re.search(r'^version = "(.*)"', get(os.path.join(ROOT, "rust", "Cargo.toml")).decode(), re.M)[1]
SONAME = "libquenhovach.so." + VERSION.split(".")[0]
FILES = {
    "bin/quenhovach": 0o755,
    "include/quenhovach.h": 0o644,
    "lib/libquenhovach.a": 0o644,
    "lib/libquenhovach.so." + VERSION: 0o755,
    "lib/pkgconfig/quenhovach.pc": 0o644,
    "share/man/man1/quenhovach.1": 0o644,
    "share/quenhovach/installed": 0o644,
}
LINKS = {"lib/" + SONAME: "libquenhovach.so." + VERSION, "lib/libquenhovach.so": SONAME}


def tree(folder):
    """Everything below a folder: a link's target, or mode and bytes."""
    found = {}
    for at, folders, files in os.walk(folder):
        for name in folders + files:
            path = os.path.join(at, name)
            mode = os.lstat(path).st_mode
            what = os.readlink(path) if stat.S_ISLNK(mode) else get(path) if stat.S_ISREG(mode) else None
            found[os.path.relpath(path, folder)] = what if isinstance(what, str) else (stat.S_IMODE(mode), what)
    return found


def install(*words, script=ROOT, stubs="", target=RUST, variables=(), **how):
    """./install, with tools of the test before the others, and none that builds: exit status, standard output, standard error."""
    environment = {name: value for name, value in os.environ.items() if name not in ("DESTDIR", "QUENHOVACH_LIB_DIR", "CARGO_TARGET_DIR")}
    environment.update(variables, PATH=":".join(filter(None, [stubs, NO_BUILD.name, os.environ["PATH"]])))
    if target:
        environment["CARGO_TARGET_DIR"] = target
    done = subprocess.run([os.path.join(script, "install"), *words], env=environment, capture_output=True, text=True, timeout=60, **how)
    return done.returncode, done.stdout, done.stderr


def stub(folder, name, script):
    put(os.path.join(folder, name), ("#!/bin/sh\n" + script).encode(), 0o755)


def on_call(folder, name, number, action):
    """A tool that does something else when it is called for the given time."""
    real = shutil.which(name)
    stub(folder, name, 'echo >>"$0.calls"\n[ "$(wc -l <"$0.calls")" -ne %d ] || { %s; }\nexec %s "$@"\n' % (number, action, real))


def furnished(folder):
    """A prefix that others use, with an empty folder too; and what it holds."""
    prefix = os.path.join(folder, "prefix")
    put(os.path.join(prefix, "bin", "other"), b"other", 0o755)
    put(os.path.join(prefix, "lib", "pkgconfig", "other.pc"), b"other")
    os.makedirs(os.path.join(prefix, "include"))
    return prefix, tree(prefix)


def output(*command, **how):
    """Exit status and standard output; standard error must stay empty."""
    done = subprocess.run(command, stdout=subprocess.PIPE, stderr=subprocess.PIPE, text=True, **how)
    return done.returncode, done.stdout + done.stderr


# ---------------------------------------------------------------- what is installed


def whole(folder):
    prefix, before = furnished(folder)
    status, out, err = install("--built", prefix, umask=0o077)
    paths = sorted(re.findall(r"^  (.*)$", out, re.M))
    check("it installs", (status, out.split("\n")[0], err), (0, "installed:", ""))
    check("it says what it installed", paths, sorted(os.path.join(prefix, place) for place in [*FILES, *LINKS]))
    check("and that the loader must be told", "link with -Wl,-rpath,%s/lib or set LD_LIBRARY_PATH" % prefix in out, True)
    after = tree(prefix)
    new = {place: what for place, what in after.items() if place not in before and what != (0o755, None)}
    check("files, modes and links", {place: what if isinstance(what, str) else what[0] for place, what in new.items()}, {**FILES, **LINKS})
    check("what others have is as before", {place: after.get(place) for place in before}, before)
    for place, source in [("bin/quenhovach", COMMAND), ("lib/libquenhovach.a", ARCHIVE), ("include/quenhovach.h", HEADER)]:
        check(place, after.get(place, ("", b""))[1] == get(source), True)
    linked(folder, prefix)
    command = os.path.join(prefix, "bin", "quenhovach")
    check("the installed command", output(command, input=FIVE.decode()), (0, "5"))
    check("its version", output(command, "--version"), (0, "quenhovach %s\n" % VERSION))
    page = output("groff", "-t", "-man", "-Tascii", "-ww", os.path.join(prefix, "share/man/man1/quenhovach.1"))
    check("the installed manual page", (page[0], "EXIT STATUS" in re.sub(".\b", "", page[1])), (0, True))
    check("a second time", (install("--built", prefix), tree(prefix)), ((0, out, ""), after))
    status, out, err = install("--uninstall", prefix)
    check("it uninstalls, and says what", (status, sorted(re.findall(r"^removed: (.*)$", out, re.M)), err), (0, paths, ""))
    check("the folder is as before", tree(prefix), before)
    status, out, err = install("--uninstall", prefix)
    check("nothing is left to uninstall", (status, out, "nothing is installed under " + prefix in err), (1, "", True))


def linked(folder, prefix):
    """The README's line, against the shared object and, with -static, against the archive."""
    put(os.path.join(folder, "mast.c"), PROGRAM.encode())
    environment = dict(os.environ, PKG_CONFIG_PATH=os.path.join(prefix, "lib", "pkgconfig"))
    environment.pop("PKG_CONFIG_SYSROOT_DIR", None)
    readme = get(os.path.join(ROOT, "README.md")).decode()
    line = re.search(r"^    (gcc -o mast mast.c .*pkg-config.*)$", readme, re.M)[1]
    told = (0, "%s 5 0 0 8 16, 0 2\n" % VERSION)
    check("the header's version", re.findall(r'^#define QUENHOVACH_VERSION "(.*)"$', get(HEADER).decode(), re.M), [VERSION])
    check("pkg-config has the version", output("pkg-config", "--modversion", "quenhovach", env=environment), (0, VERSION + "\n"))
    check("a program with the shared object", output("sh", "-c", line, cwd=folder, env=environment), (0, ""))
    needed = output("readelf", "-d", "mast", cwd=folder)[1]
    check("asks for the soname", "Shared library: [%s]" % SONAME in needed, True)
    check("and runs", output("sh", "-c", "./mast", cwd=folder, env=dict(environment, LD_LIBRARY_PATH=os.path.join(prefix, "lib"))), told)
    check("a program with the archive", output("sh", "-c", line.replace("gcc", "gcc -static", 1), cwd=folder, env=environment), (0, ""))
    check("asks for no library", "NEEDED" in output("readelf", "-d", "mast", cwd=folder)[1], False)
    check("and runs", output("sh", "-c", "./mast", cwd=folder), told)
    shared = os.path.join(prefix, "lib", "libquenhovach.so")
    tags = output("readelf", "-dlW", shared)[1]
    check("its soname", re.findall(r"Library soname: \[(.*)\]", tags), [SONAME])
    check("no code that has to be patched, no stack that can be run", ("TEXTREL" in tags, re.findall(r"GNU_STACK .* (R\S*) ", tags)), (False, ["RW"]))
    check("what it exports", re.findall(r" T (\S+)", output("nm", "-D", shared)[1]), EXPORTED)
    example = get(os.path.join(ROOT, "examples", "python", "quenhovach.py")).decode()
    check("the name that Python asks for", re.findall(r'^LIBRARY = "(.*?)"', example, re.M), [SONAME])


def elsewhere(folder):
    """A prefix that isn't there, named from its parent; and one under DESTDIR."""
    check("a new prefix", install("--built", "a/b/../new", cwd=folder)[0], 0)
    check("lies where it was said", output(os.path.join(folder, "a/new/bin/quenhovach"), input=FIVE.decode()), (0, "5"))
    check("and goes with all its folders", (install("--uninstall", "a/new", cwd=folder)[0], os.listdir(folder)), (0, []))
    check("a prefix under DESTDIR", install("--built", "/nowhere/here", cwd=folder, variables={"DESTDIR": "sta ge"})[0], 0)
    config = get(os.path.join(folder, "sta ge/nowhere/here/lib/pkgconfig/quenhovach.pc"))
    check("is named without it", (config.startswith(b"prefix=/nowhere/here\n"), os.path.exists("/nowhere")), (True, False))
    status = install("--uninstall", "/nowhere/here", cwd=folder, variables={"DESTDIR": "sta ge"})[0]
    check("and goes too", (status, os.listdir(os.path.join(folder, "sta ge"))), (0, []))


# ---------------------------------------------------------------- what goes wrong


def refused(folder):
    """Others' files stay, on the way in and on the way out."""
    prefix, before = furnished(folder)
    for place in ("bin/quenhovach", "lib/libquenhovach.so"):
        path = os.path.join(prefix, place)
        put(path, b"another's")
        status, out, err = install("--built", prefix)
        check("another's " + place, (status, out, path + " is there and not from here" in err, "nothing was installed" in err), (1, "", True, True))
        os.remove(path)
        check("and nothing else", tree(prefix), before)
    check("installed for once", install("--built", prefix)[0], 0)
    page = os.path.join(prefix, "share/man/man1/quenhovach.1")
    put(page, b"changed")
    check("a changed file is not replaced", (install("--built", prefix)[0], get(page)), (1, b"changed"))
    put(os.path.join(prefix, "share/man/man1/other.1"), b"other")
    status, out, err = install("--uninstall", prefix)
    stays = re.findall(r"^stays, as (.*): (.*)$", out, re.M)
    shared = [("others use it", os.path.join(prefix, place)) for place in ("share/man/man1", "share/man", "share")]
    check("a changed file and a folder with others' files stay", (status, stays, err), (0, [("it was changed since", page)] + shared, ""))
    shutil.rmtree(os.path.join(prefix, "share"), ignore_errors=True)
    check("and all else is as before", tree(prefix), before)
    os.rename(os.path.join(prefix, "include"), os.path.join(prefix, "kept"))
    put(os.path.join(prefix, "include"), b"a file")
    before = tree(prefix)
    status, out, err = install("--built", prefix)
    check("a file in a folder's place", (status, prefix + "/include can't be written to" in err, tree(prefix) == before), (1, True, True))


def interrupted(folder):
    """A tool fails, or a signal comes, at each stage."""
    prefix, before = furnished(folder)
    for tool, number, action, status in [
        ("gcc", 1, "exit 1", 1), ("mkdir", 2, "exit 1", 1), ("cp", 3, "exit 1", 1), ("ln", 2, "exit 1", 1), ("mv", 1, "exit 1", 1),
        ("cp", 4, "kill -TERM $PPID", 143),
    ]:
        stubs = os.path.join(folder, "%s-%s" % (tool, action[:4]))
        on_call(stubs, tool, number, action)
        got, out, err = install("--built", prefix, stubs=stubs)
        check("%s, %s" % (tool, action), (got, out, err.endswith("nothing was installed under %s\n" % prefix)), (status, "", True))
        check("and all is as before", tree(prefix), before)
    for after in ("--uninstall", "--built"):
        stubs = os.path.join(folder, "half" + after)
        on_call(stubs, "mv", 4, "exit 1")
        status, out, err = install("--built", prefix, stubs=stubs)
        said = prefix + "/include/quenhovach.h could not be replaced: what is installed is a mixture"
        check("a rename that fails", (status, out, said in err), (1, "", True))
        check("leaves no temporary file", [place for place in tree(prefix) if "quenhovach-new" in place], [])
        check("then %s puts it right" % after, install(after, prefix)[0], 0)
        check("wholly", {place for place in tree(prefix) if place in FILES or place in LINKS}, {*FILES, *LINKS} if after == "--built" else set())
    check("and back", (install("--uninstall", prefix)[0], tree(prefix) == before), (0, True))
    holder = os.open(prefix, os.O_RDONLY)
    fcntl.flock(holder, fcntl.LOCK_EX)
    status, out, err = install("--built", prefix)
    check("two at once", (status, "another ./install is at work" in err, tree(prefix) == before), (1, True, True))
    os.close(holder)


def usage(folder):
    for words, said in [
        (["--bad"], "unknown option --bad"), ([""], "PREFIX is empty"), (["a", "b"], "one PREFIX only; 'b' is a second one"),
        (["--built", "--uninstall"], "--built has no meaning with --uninstall"),
        (["a b"], "a file for pkg-config can't name the PREFIX '%s/a b'" % folder),
    ]:
        check("bad usage: %s" % words, install(*words, cwd=folder), (2, "", "install: %s\nTry './install --help'.\n" % said))
    status, out, err = install("--help", cwd=folder)
    check("help", (status, out.startswith("Usage: ./install "), max(map(len, out.split("\n"))) <= 80, err), (0, True, True, ""))
    check("help names every place", [place for place in FILES if place not in out.replace(".a, .so", ".so." + VERSION) and ".a" not in place], [])
    check("writes nothing", os.listdir(folder), [])


# ---------------------------------------------------------------- in a copy: building, another version, another user, the loader


def copied(folder, version=VERSION):
    """What ./install reads, in a folder of its own, and tools that stand in for those that prove and build."""
    copy = os.path.join(folder, "copy " + version)
    for name in ("install", "include/quenhovach.h", "docs/quenhovach.1", "rust/Cargo.toml"):
        text = get(os.path.join(ROOT, name)).replace(VERSION.encode(), version.encode())
        put(os.path.join(copy, name), text, 0o755 if name == "install" else 0o644)
    os.makedirs(os.path.join(copy, "crates", "quenhovach"))
    stubs = os.path.join(folder, "builders")
    log = os.path.join(folder, "log")
    stub(stubs, "rt", 'echo "rt $* in $PWD" >>"%s"\nmkdir -p out && cp "%s" out/\n' % (log, ARCHIVE))
    stub(stubs, "cargo", 'echo "cargo $* in $PWD${QUENHOVACH_LIB_DIR+, another archive}" >>"%s"\n' % log
         + 'mkdir -p "$CARGO_TARGET_DIR/release" && cp "%s" "$CARGO_TARGET_DIR/release/"\n' % COMMAND)
    return copy, stubs, log


def building(folder):
    copy, stubs, log = copied(folder)
    prefix = os.path.join(folder, "prefix")
    for tool, said in (("rt", "the library could not be built"), ("cargo", "the command could not be built")):
        failing = os.path.join(folder, "failing-" + tool)
        stub(failing, tool, "exit 1\n")
        status, _, err = install(prefix, script=copy, stubs=failing + ":" + stubs, target=None)
        check("%s fails" % tool, (status, said in err, os.path.exists(prefix)), (1, True, False))
    status = install("--built", prefix, script=copy, stubs=stubs, target=None)[0]
    check("nothing is built with --built", (status, os.path.exists(prefix)), (1, False))
    os.remove(log)
    check("it builds", install(prefix, script=copy, stubs=stubs, target=None, variables={"QUENHOVACH_LIB_DIR": "/elsewhere"})[0], 0)
    lines = ["rt lib in %s/crates/quenhovach" % copy, "cargo build --release --offline --locked in %s/rust" % copy]
    check("the library, then the command", get(log).decode().splitlines(), lines)
    check("and takes what was built", install("--built", prefix, script=copy, stubs=stubs, target=None)[0], 0)
    check("without building again", len(get(log).splitlines()), 2)


def versions(folder):
    """An older version is replaced, and its own files go."""
    prefix, before = furnished(folder)
    copy, _, _ = copied(folder, "0.0.9")
    put(os.path.join(copy, "crates/quenhovach/out/libquenhovach.a"), get(ARCHIVE))
    status, _, err = install("--built", prefix, script=copy)
    check("a command of another version", (status, "quenhovach is not of version 0.0.9" in err, tree(prefix) == before), (1, True, True))
    put(os.path.join(copy, "rust/target/release/quenhovach"), b"#!/bin/sh\necho quenhovach 0.0.9\n", 0o755)
    check("the older version", install("--built", prefix, script=copy, target=None)[0], 0)
    config = get(os.path.join(prefix, "lib/pkgconfig/quenhovach.pc"))
    link = os.readlink(os.path.join(prefix, "lib/libquenhovach.so.0"))
    check("has its names", (link, b"\nVersion: 0.0.9\n" in config), ("libquenhovach.so.0.0.9", True))
    on_call(os.path.join(folder, "half"), "mv", 4, "exit 1")
    mixed = os.path.join(folder, "mixed")
    shutil.copytree(prefix, mixed, symlinks=True)
    check("half of the newer version over it", install("--built", mixed, stubs=os.path.join(folder, "half"))[0], 1)
    check("goes as a whole", (install("--uninstall", mixed)[0], tree(mixed) == before), (0, True))
    check("the newer version over it", install("--built", prefix)[0], 0)
    check("leaves nothing of it", sorted(p for p in tree(prefix) if p not in before and p in FILES or "0.0.9" in p), sorted(FILES))
    check("and goes as a whole", (install("--uninstall", prefix)[0], tree(prefix) == before), (0, True))


def loader(folder):
    """The loader's cache is renewed by root alone, and only where the loader searches."""
    prefix, before = furnished(folder)
    stub(os.path.join(folder, "loader"), "ldconfig", 'echo "$*" >>"$0.calls"\n[ $# -eq 0 ] || echo "%s/lib: (from test)"\n' % prefix)
    stub(os.path.join(folder, "user"), "id", "echo 1000\n")
    stub(os.path.join(folder, "root"), "id", "echo 0\n")
    calls = os.path.join(folder, "loader", "ldconfig.calls")
    for user, said, expected in [("root", False, ["-NXv", ""] * 2), ("user", True, ["-NXv"])]:
        stubs = os.path.join(folder, user) + ":" + os.path.join(folder, "loader")
        status, out, _ = install("--built", prefix, stubs=stubs)
        check("installed by " + user, (status, "Run ldconfig as root" in out, "-rpath" in out), (0, said, False))
        check("uninstalled by " + user, (install("--uninstall", prefix, stubs=stubs)[0], tree(prefix) == before), (0, True))
        check("ldconfig by " + user, get(calls).decode().split("\n")[:-1], expected)
        os.remove(calls)
        check("under DESTDIR", install("--built", "/x", stubs=stubs, variables={"DESTDIR": folder})[0], 0)
        check("the loader is left alone", os.path.exists(calls), False)


def nobody(folder):
    """Somebody who is not root, with a prefix of his own and with another's."""
    copy, _, _ = copied(folder)
    put(os.path.join(copy, "crates/quenhovach/out/libquenhovach.a"), get(ARCHIVE))
    put(os.path.join(copy, "rust/target/release/quenhovach"), get(COMMAND), 0o755)
    os.chmod(folder, 0o755)
    home = os.path.join(folder, "home")
    others = os.path.join(folder, "others")
    for path in (home, others):
        os.mkdir(path)
    who = {}
    if os.getuid() == 0:
        os.chown(home, 65534, 65534)
        who = {"user": 65534, "group": 65534, "extra_groups": []}
    else:
        os.chmod(others, 0o555)
    how = dict(script=copy, target=None, cwd="/", variables={"TMPDIR": "/tmp"}, **who)
    status, _, err = install("--built", os.path.join(others, "prefix"), **how)
    check("another's folder", (status, others + " can't be written to; a PREFIX of your own needs no root" in err, os.listdir(others)), (1, True, []))
    check("a folder of one's own", install("--built", os.path.join(home, ".local"), **how)[::2], (0, ""))
    check("works", output(os.path.join(home, ".local/bin/quenhovach"), input=FIVE.decode()), (0, "5"))
    check("and is left as it was", (install("--uninstall", os.path.join(home, ".local"), **how)[::2], os.listdir(home)), ((0, ""), []))


def main():
    ready = []
    for path, how in ((ARCHIVE, "`rt lib` in crates/quenhovach"), (COMMAND, "tests/interfaces/command/run.py")):
        ready.append(check("%s is there (%s builds it)" % (os.path.relpath(path, ROOT), how), os.path.exists(path), True))
    for tool in ("pkg-config", "groff", "gcc", "readelf"):
        ready.append(check(tool + " is installed", shutil.which(tool) is not None, True))
    if not all(ready):
        finish()
    os.chmod(NO_BUILD.name, 0o755)
    for tool in ("rt", "cargo"):
        stub(NO_BUILD.name, tool, "exit 1\n")
    for part in (whole, elsewhere, refused, interrupted, usage, building, versions, loader, nobody):
        with tempfile.TemporaryDirectory() as folder:
            part(os.path.realpath(folder))
    finish()


main()
