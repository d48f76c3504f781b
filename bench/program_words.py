"""The words that the scripts which run the built program have in common."""
import argparse
import os

HERE = os.path.dirname(os.path.abspath(__file__))


def parser(doc, **numbers):
    """A parser for a script with this text: of the folder that it writes into, of the program's file, by default
    .qserv/qserv, where ./qserv leaves it, and of a whole number for each name with a default."""
    made = argparse.ArgumentParser(description=doc, formatter_class=argparse.RawDescriptionHelpFormatter)
    made.add_argument("folder")
    made.add_argument("--program", type=os.path.abspath, default=os.path.join(HERE, "..", ".qserv", "qserv"))
    for name, default in numbers.items():
        made.add_argument(f"--{name}", type=int, default=default)
    return made
