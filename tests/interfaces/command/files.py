"""What the command reads and writes: templates, sheets and reports, whole or not at all, and files and streams that fail."""
import os
import resource
import shutil
import stat
import subprocess

from common import FIVE, complained, get, put, run, run_as_nobody, run_shell, shell
from places import COMMAND
from tally import check


def inputs(folder):
    longest = b"x" * 65536
    template = os.path.join(folder, "template")
    check("65,536 bytes", run([], longest), (0, longest, b""))
    put(template, longest)
    check("65,536 bytes in a file", run([template]), (0, longest, b""))
    put(template, longest + b"x")
    check("65,537 bytes in a file", run([template])[:2], (66, b""))
    check("many more bytes", run([], longest * 3)[:2], (66, b""))
    check("a file without end", run(["/dev/zero"])[:2], (66, b""))
    put(template, FIVE)
    check("- is standard input", run(["-"], FIVE), (0, b"5", b""))
    check("-o - is standard output", run(["-o", "-", template]), (0, b"5", b""))
    os.rename(template, os.path.join(folder, "-x"))
    check("a file's name behind --", run(["--", "-x"], cwd=folder), (0, b"5", b""))
    os.rename(os.path.join(folder, "-x"), os.path.join(folder.encode(), b"\xff"))
    check("a file's name of any bytes", run([os.path.join(folder.encode(), b"\xff")]), (0, b"5", b""))
    os.remove(os.path.join(folder.encode(), b"\xff"))
    slow = subprocess.Popen([COMMAND], stdin=subprocess.PIPE, stdout=subprocess.PIPE, stderr=subprocess.PIPE)
    for piece in (b"define(`n',", b"`5", b"')n"):
        slow.stdin.write(piece)
        slow.stdin.flush()
        try:
            slow.wait(0.1)
        except subprocess.TimeoutExpired:
            pass
    check("a text that comes in pieces", slow.communicate(), (b"5", b""))
    check("a file that isn't there", complained(run([template]), b"template: could not be read"), True)
    check("a directory", complained(run([folder]), b"could not be read"), True)
    check("a directory as standard input", complained(run_shell("</"), b"standard input: could not be read"), True)
    check("a closed standard input", complained(run_shell("<&-"), b"standard input: could not be read"), True)
    check("a standard input that can't be read", complained(run_shell("0>/dev/null"), b"standard input: could not be read"), True)
    put(template, b"text")
    os.chmod(template, 0)
    check("an unreadable file", complained(run_as_nobody(folder, [template]), b"could not be read"), True)
    os.remove(template)


def standard_output(_):
    check("a closed standard output", complained(run_shell(">&-", b"text"), b"standard output: could not be written"), True)
    check("a closed standard output, and nothing to write", run_shell(">&-"), (0, b"", b""))
    check("a standard output that can't be written", complained(run_shell("1</dev/null", b"text"), b"standard output: could not be written"), True)
    check("a full disk", complained(run_shell(">/dev/full", b"text"), b"standard output: could not be written"), True)
    check("a full disk, and the help", run_shell(">/dev/full", b"", ["--help"])[0], 63)
    check("/dev/null as standard output", run_shell(">/dev/null", b"text"), (0, b"", b""))
    check("/dev/null for reading and writing", run_shell("1<>/dev/null", b"text"), (0, b"", b""))
    reader, writer = os.pipe()
    os.close(reader)
    done = subprocess.run([COMMAND], input=b"text", stdout=writer, stderr=subprocess.PIPE)
    os.close(writer)
    check("a pipe that no one reads", (done.returncode, b"standard output: could not be written" in done.stderr), (63, True))
    check("error text on a full disk", run_shell("2>/dev/full", b"errprint(`e')a")[:2], (63, b""))
    check("error text on a closed standard error", run_shell("2>&-", b"errprint(`e')a")[:2], (63, b""))
    check("a closed standard error, and nothing to say", run_shell("2>&-", b"a"), (0, b"a", b""))
    check("a refusal on a closed standard error", run_shell("2>&-", b"`"), (69, b"", b""))


def sheets(folder):
    sheet = os.path.join(folder, "sheet")
    name = b"sheet: could not be written"
    os.umask(0o022)
    check("a new sheet", (run(["-o" + sheet], FIVE), get(sheet), stat.S_IMODE(os.stat(sheet).st_mode)), ((0, b"", b""), b"5", 0o644))
    check("a sheet named without a folder", (run(["-o", "sheet"], b"6", cwd=folder)[0], get(sheet)), (0, b"6"))
    for mode in (0o600, 0o664):
        os.chmod(sheet, mode)
        check("an old sheet's permissions %o" % mode, (run(["-o", sheet], FIVE)[0], stat.S_IMODE(os.stat(sheet).st_mode)), (0, mode))
    if os.geteuid() == 0:
        os.chown(sheet, 65534, 65534)
        check("an old sheet's owner", (run(["-o", sheet], FIVE)[0], os.stat(sheet).st_uid, os.stat(sheet).st_gid), (0, 65534, 65534))
        os.chown(sheet, 0, 0)
    else:
        print("only root can give a sheet to another owner: that it keeps its owner was not tried")
    put(sheet, b"old")
    with open(sheet, "rb") as held:
        check("who has the old sheet open reads on in it", (run(["-o", sheet], FIVE)[0], held.read(), get(sheet)), (0, b"old", b"5"))
    put(sheet, b"old")

    def little_disk():
        resource.setrlimit(resource.RLIMIT_FSIZE, (1000, 1000))

    check("a file that can't grow", complained(run(["-o", sheet], b"x" * 2000, preexec_fn=little_disk), name), True)
    check("then the old sheet stands, and nothing beside it", (get(sheet), os.listdir(folder)), (b"old", ["sheet"]))
    fits = run(["-o", sheet], b"x" * 1000, preexec_fn=little_disk)
    check("where it can grow it is written", (fits[0], get(sheet)), (0, b"x" * 1000))
    put(sheet, b"old")
    check("error text that can't be written", (run_shell("2>/dev/full", b"errprint(`e')a", ["-o", sheet])[0], get(sheet), os.listdir(folder)), (63, b"old", ["sheet"]))
    os.chmod(sheet, 0o444)
    check("a write-protected sheet", complained(run_as_nobody(folder, ["-o", sheet]), name), True)
    check("stays", (get(sheet), os.listdir(folder)), (b"old", ["sheet"]))
    os.chmod(sheet, 0o644)
    check("a folder that isn't there", complained(run(["-o", os.path.join(folder, "none", "sheet")], FIVE), name), True)
    check("a folder as sheet", complained(run(["-o", folder], FIVE), b"could not be written"), True)
    check("a new name with a slash behind it", (complained(run(["-o", os.path.join(folder, "none/")], FIVE), b"none/: could not be written"), os.listdir(folder)), (True, ["sheet"]))
    closed_folder(folder)
    links(folder, sheet)
    check("a full device", complained(run(["-o", "/dev/full"], FIVE), b"/dev/full: could not be written"), True)
    check("a device", run(["-o", "/dev/null"], FIVE), (0, b"", b""))
    check("a device, and a refusal", run(["-o", "/dev/full"], b"`")[0], 69)
    pipe = os.path.join(folder, "pipe")
    os.mkfifo(pipe)
    reader = subprocess.Popen(["cat", pipe], stdout=subprocess.PIPE)
    check("a named pipe", (run(["-o", pipe], FIVE), reader.communicate()[0], stat.S_ISFIFO(os.stat(pipe).st_mode)), ((0, b"", b""), b"5", True))
    os.remove(pipe)
    os.remove(sheet)


def closed_folder(folder):
    """A sheet that may be written, in a folder where no file may be made."""
    closed = os.path.join(folder, "closed")
    sheet = os.path.join(closed, "sheet")
    os.mkdir(closed)
    put(sheet, b"old")
    os.chmod(sheet, 0o666)
    os.chmod(closed, 0o555)
    check("a folder that takes no new file", complained(run_as_nobody(folder, ["-o", sheet]), b"no file can be made in its folder"), True)
    check("its sheet stays", (get(sheet), os.listdir(closed)), (b"old", ["sheet"]))
    os.chmod(closed, 0o755)
    os.mkdir(os.path.join(closed, "within"))
    os.chmod(os.path.join(closed, "within"), 0o777)
    within = os.open(os.path.join(closed, "within"), os.O_RDONLY)
    os.chmod(closed, 0)
    for options, status in [(["-o", "new", "--report", "./new"], 2), (["-o", "new"], 0)]:
        check("a folder that only its paths don't lead to: " + " ".join(options), run_as_nobody(folder, options, preexec_fn=lambda: os.fchdir(within))[0], status)
    os.close(within)
    os.chmod(closed, 0o755)
    shutil.rmtree(closed)


def links(folder, sheet):
    link = os.path.join(folder, "link")
    os.symlink("sheet", link)
    check("a link is followed", (run(["-o", link], FIVE)[0], os.path.islink(link), get(sheet)), (0, True, b"5"))
    os.remove(sheet)
    check("a link to nothing", complained(run(["-o", link], FIVE), b"link: could not be written"), True)
    check("stays a link to nothing", sorted(os.listdir(folder)), ["link"])
    os.remove(link)
    put(sheet, b"old")


def reports(folder):
    numbers = os.path.join(folder, "numbers")
    sheet = os.path.join(folder, "sheet")
    put(numbers, b"0 0 1 1 1 1\n")
    check("after a failed read an old report is emptied", (run(["--report", numbers, folder])[0], get(numbers)), (63, b""))
    put(numbers, b"0 0 1 1 1 1\n")
    check("after a failed write too", (run(["--report", numbers, "-o", "/dev/full"], FIVE)[0], get(numbers)), (63, b""))
    os.remove(numbers)
    check("after a failed write there is none", (run_shell(">/dev/full", FIVE, ["--report", numbers])[0], os.listdir(folder)), (63, []))
    check("a full disk", complained(run(["--report", "/dev/full", "-o", sheet], FIVE), b"/dev/full: could not be written"), True)
    check("a full disk, and a refusal", run(["--report", "/dev/full"], b"`")[0], 63)
    put(sheet, b"old")
    check("no such folder", complained(run(["--report", os.path.join(folder, "none", "numbers"), "-o", sheet], FIVE), b"numbers: could not be written"), True)
    check("then the old sheet stands", (get(sheet), os.listdir(folder)), (b"old", ["sheet"]))
    os.remove(sheet)


def limits(folder):
    put(os.path.join(folder, "sheet"), b"old")
    check("a limit of the shell", complained(shell(folder, "ulimit -f 1; $q -o sheet", b"x" * 2000), b"sheet: could not be written"), True)
    check("a limit, and the report", complained(shell(folder, "ulimit -f 0; $q --report numbers", FIVE), b"numbers: could not be written"), True)
    check("leave the old sheet, and nothing else", (get(os.path.join(folder, "sheet")), os.listdir(folder)), (b"old", ["sheet"]))
    check("a limit, and standard output", complained(shell(folder, "ulimit -f 1; $q > sheet", b"x" * 2000), b"standard output: could not be written"), True)
    os.remove(os.path.join(folder, "sheet"))
