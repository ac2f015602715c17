"""What the judges of the crate and the command share: how the command is run, files with their bytes."""
import os
import shutil
import stat
import subprocess
import tempfile

from places import COMMAND, ROOT

CRATE = os.path.join(ROOT, "rust")
FIVE = b"define(`n',`5')n"


def run(options, text=b"", **how):
    """The command with a text on standard input: exit status, standard output, standard error."""
    done = subprocess.run([COMMAND] + options, input=text, stdout=subprocess.PIPE, stderr=subprocess.PIPE, **how)
    return done.returncode, done.stdout, done.stderr


def run_shell(redirection, text=b"", options=()):
    """The command with streams redirected by the shell."""
    done = subprocess.run(["sh", "-c", '"$0" "$@" ' + redirection, COMMAND] + list(options), input=text, stdout=subprocess.PIPE, stderr=subprocess.PIPE)
    return done.returncode, done.stdout, done.stderr


def shell(folder, line, text=b""):
    """A line for the shell, in a folder, where $q is the command; exit status 124 if it stands still."""
    done = subprocess.run(["timeout", "60", "sh", "-c", line.replace("$q", '"$q"')], cwd=folder, env=dict(os.environ, q=COMMAND), input=text, stdout=subprocess.PIPE, stderr=subprocess.PIPE)
    return done.returncode, done.stdout, done.stderr


def put(path, text):
    with open(path, "wb") as file:
        file.write(text)


def get(path):
    with open(path, "rb") as file:
        return file.read()


def complained(result, words):
    """Exit status 63, and standard error names what failed."""
    status, out, err = result
    return status == 63 and out == b"" and err.startswith(b"quenhovach: ") and words in err


def run_as_nobody(folder, options, **how):
    """The command without the privileges of root, from a place where all may run it."""
    if os.geteuid() != 0:
        return run(options, **how)
    with tempfile.TemporaryDirectory() as place:
        os.chmod(place, 0o755)
        os.chmod(folder, 0o777)
        copy = shutil.copy(COMMAND, place)
        done = subprocess.run([copy] + options, stdin=subprocess.DEVNULL, stdout=subprocess.PIPE, stderr=subprocess.PIPE, user=65534, group=65534, extra_groups=[], **how)
    return done.returncode, done.stdout, done.stderr


def furnished(folder):
    """A new folder in a folder: the template under three names, an old file and a folder under two, links to a new file and to a stream, a pipe."""
    place = os.path.join(folder, "place")
    shutil.rmtree(place, ignore_errors=True)
    os.mkdir(place)
    here = lambda name: os.path.join(place, name)
    put(here("t.m4"), FIVE)
    put(here("old"), b"old.")
    os.mkdir(here("dir"))
    os.mkfifo(here("pipe"))
    os.link(here("t.m4"), here("hard"))
    for name, target in [("soft", "t.m4"), ("oldlink", "old"), ("dirlink", "dir"), ("newlink", "dir/new"), ("out", "/dev/stdout")]:
        os.symlink(target, here(name))
    return place


def contents(folder):
    """What stands in a folder: the inode of each name, and of each name its link or text."""
    inodes, texts = {}, {}
    for place, folders, files in os.walk(folder):
        for path in (os.path.join(place, name) for name in folders + files):
            name, status = os.path.relpath(path, folder), os.lstat(path)
            inodes[name] = status.st_ino
            texts[name] = os.readlink(path) if stat.S_ISLNK(status.st_mode) else get(path) if stat.S_ISREG(status.st_mode) else None
    return inodes, texts
