"""The program that tests run: $SKYQ_PROGRAM, the checkout's built one, or else a stand-in of the repository's own."""
import contextlib
import io
import os
import sys
import types

TOOLS = os.path.dirname(os.path.dirname(os.path.abspath(__file__)))
CHECKOUT = os.path.dirname(TOOLS)
BUILT = (os.path.join(CHECKOUT, ".qserv", "qserv"), os.path.join(CHECKOUT, "crates", "qserv_cli", "out", "qserv_cli"))
STANDIN = os.path.join(TOOLS, "tests", "standin.py")


def found():
    """The path of the program, and whether it is the real one."""
    for path in (os.environ.get("SKYQ_PROGRAM"), *BUILT):
        if path and os.path.isfile(path) and os.access(path, os.X_OK):
            return path, True
    return STANDIN, False


def use():
    """Sets SKYQ_PROGRAM for this process and those it starts; whether it is the real one. The stand-in takes a second for
    each five queries of a thousand rows, and more for pairs, so a test gives it less to do."""
    path, is_real = found()
    if path == STANDIN and not is_real and os.environ.get("SKYQ_PROGRAM") != STANDIN:
        print("tests: no program is built; scripts/flat_answers.py stands in for it", file=sys.stderr)
    os.environ["SKYQ_PROGRAM"] = path
    return is_real and path != STANDIN


def skyq(*words, program=None, stdin=""):
    """Runs skyq's command line in this process, which is sooner than to start another: returncode, stdout and stderr."""
    kept, before = sys.path[0], (sys.stdin, os.environ.get("SKYQ_PROGRAM"))
    from skyq_lib import __main__

    sys.path[0], sys.stdin = kept, io.StringIO(stdin)
    if program:
        os.environ["SKYQ_PROGRAM"] = program
    try:
        with contextlib.redirect_stdout(io.StringIO()) as out, contextlib.redirect_stderr(io.StringIO()) as err:
            status = __main__.main([str(word) for word in words])
    finally:
        sys.stdin = before[0]
        if before[1] is not None:
            os.environ["SKYQ_PROGRAM"] = before[1]
    return types.SimpleNamespace(returncode=status, stdout=out.getvalue(), stderr=err.getvalue())
