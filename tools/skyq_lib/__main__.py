"""The command line: which module has each command, and how its faults are told."""
import argparse
import importlib
import os
import re
import signal
import sys
import traceback

if __name__ == "__main__":  # run as a folder: the package stands beside it, and no module comes from the caller's own folder
    sys.path[0] = os.path.dirname(os.path.dirname(os.path.abspath(__file__)))

from skyq_lib.errors import SkyqError  # noqa: E402

# command: (module, what it does). A module has add_words(parser, command) and run(words), which returns a status or
# None for 0; words.command is the command.
COMMANDS = {
    "ingest": ("ingest", "a table (FITS, VOTable, ECSV, CSV) to a catalogue folder"),
    "plan": ("plan", "the sky plan of a catalogue folder anew"),
    "query": ("query", "an ADQL query to a table"),
    "cone": ("query", "the rows within a radius of a position"),
    "pairs": ("query", "the pairs of rows within a radius of each other"),
    "read": ("query", "a transcript of the program to tables"),
    "tap": ("tap", "a TAP service over a catalogue folder"),
    "check": ("check", "the program's answers compared with numpy on the degrees"),
    "plot": ("plot", "a picture of the chunks, the density, one chunk or the separations of pairs"),
    "pg": ("pg", "the chunk tables and chunk queries in PostgreSQL"),
}


class Parser(argparse.ArgumentParser):
    """A parser whose faults are one line, and to which -20:00:00 and -5deg are values as -20 is: no option begins with a digit."""

    def __init__(self, **more):
        super().__init__(**more)
        self._negative_number_matcher = re.compile(r"-\.?[0-9]")

    def error(self, message):
        raise SkyqError(f"{message}; see {self.prog} --help")


def overview():
    lines = ["usage: skyq COMMAND ..", ""]
    lines += [f"  skyq {name:<8}{what}" for name, (_, what) in COMMANDS.items()]
    return "\n".join([*lines, "", "skyq COMMAND --help tells the words of a command."])


def call(command, arguments):
    """Runs one command; returns its status."""
    name, what = COMMANDS[command]
    module = importlib.import_module(f"skyq_lib.{name}")
    parser = Parser(prog=f"skyq {command}", description=what)
    module.add_words(parser, command)
    parser.set_defaults(command=command)
    return module.run(parser.parse_args(arguments)) or 0


def tell(command, fault):
    print(f"skyq {command}: {fault}", file=sys.stderr)
    return 2


def guarded(command, arguments):
    """Runs one command; each fault that the outside can cause becomes one line and a status."""
    try:
        return call(command, arguments)
    except SkyqError as fault:
        return tell(command, fault)
    except BrokenPipeError:
        raise
    except OSError as fault:
        return tell(command, ": ".join(str(part) for part in (fault.filename, fault.strerror or fault) if part is not None))
    except MemoryError:
        return tell(command, "out of memory")
    except Exception as fault:      # a fault of skyq itself
        if os.environ.get("SKYQ_TRACEBACK"):
            traceback.print_exc()
        tell(command, f"a fault of skyq itself, which SKYQ_TRACEBACK=1 shows: {type(fault).__name__}: {' '.join(str(fault).split())}")
        return 1


def chosen(arguments):
    """Runs what the words ask for; returns the status."""
    if not arguments or arguments[0] in ("-h", "--help"):
        print(overview())
        return 0
    if arguments[0] not in COMMANDS:
        print(f"skyq: no command {arguments[0]}; skyq --help lists them", file=sys.stderr)
        return 2
    return guarded(arguments[0], arguments[1:])


def main(arguments):
    try:
        try:
            return chosen(arguments)
        finally:
            sys.stdout.flush()
    except BrokenPipeError:     # whoever reads the output has enough
        os.dup2(os.open(os.devnull, os.O_WRONLY), sys.stdout.fileno())
        return 1
    except KeyboardInterrupt:
        print(file=sys.stderr)
        return 130


def ended(*_):
    """Ends the process by way of what it has to clear away: the program that it started, and files that are half written."""
    sys.exit(143)


if __name__ == "__main__":
    signal.signal(signal.SIGTERM, ended)
    sys.exit(main(sys.argv[1:]))
