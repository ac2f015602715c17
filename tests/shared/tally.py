"""How a script of the tests counts: each test passes or fails, a failed one is told, and the last line is 'N passed, M failed'."""
import sys

passed = failed = 0


def count(good, bad):
    """Tests that were counted elsewhere."""
    global passed, failed
    passed += good
    failed += bad


def fail(told):
    """One test that failed, and what is told of it."""
    count(0, 1)
    print(told)


def judge(name, good, told):
    """One test, and what is told of it where it fails. Gives whether it passed."""
    if good:
        count(1, 0)
    else:
        fail("%s: %s" % (name, told))
    return bool(good)


def check(name, got, expected):
    """One test: the two are the same. Gives whether they are."""
    return judge(name, got == expected, "expected %.400r, got %.400r" % (expected, got))


def finish():
    """The last line, and exit status 0 only if nothing failed. A script that tried nothing fails."""
    if passed + failed == 0:
        fail("nothing was tried")
    print("%d passed, %d failed" % (passed, failed))
    sys.exit(1 if failed else 0)


def stop(told):
    """A failure after which nothing more can be tried."""
    fail(told)
    finish()
