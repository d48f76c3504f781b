"""Makes a copy of a crate in which all functions but some are stubs: a check of those assumes the others' statements.

A function is proved by the statements of those that it calls. In the copy each other function gets a file Proof.antt that cites an
open hole, which --allow-holes accepts. Its body becomes an endless loop, so the check does not read what it called. A stub assumes
more than a plain check proves. So a proof that a plain check accepts is accepted here too, unless it cites a file that is removed.

Which functions a crate has is read from the library that `rt ci` made of it. Compiler-made drop functions keep their proofs.
"""
import glob
import json
import os
import re

HOLE = "Unproved"
HOLE_TEXT = """-- stands for any proof
pub any : {A : Type 2} → A
any = ?
"""
BODY = "{ loop {} }"
# the folder of a module that has the proofs of its functions' closures, each below the function's name
CLOSURES = "fn"
# is in the name of what drops a value
DROP = "++"
TOKEN = re.compile(
    r"""//[^\n]*|/\*.*?\*/|b?r(?P<hashes>\#*)".*?"(?P=hashes)|b?"(?:\\.|[^"\\])*"|b?'(?:\\.[^']*|[^\\'])'|[A-Za-z_]\w*|\S""",
    re.DOTALL,
)
CLAUSES = {"requires", "ensures", "ghost"}
OPENING, CLOSING = set("({["), set(")}]")
# the attribute of a function that calls itself, or others that call it, and the function's name
CYCLE = re.compile(r"#\[cycle\((\w+)\)\]\s*(?=(?:(?://[^\n]*|#\[[^]]*\])\s*)*(?:pub(?:\([^)]*\))?\s+)?fn\s+(\w+))")


def proof_text(crate, path):
    """The file of a function's proof that cites the hole."""
    module = path.replace("/", ".")
    name = name_of(path)
    return f"""use Rattle.{crate}.proofs.{module}.Statement.{{statement}}
use Rattle.{crate}.proofs.{HOLE}.{{any}}

pub {name}_spec : {{M : Type 1}} → statement M
{name}_spec = any
"""


def name_of(path):
    return path.rpartition("/")[2]


def function_paths(crate, library):
    """The folders below proofs/ of the functions that have code and a proof of their own."""
    with open(f"{library}/toolchain/mir.json", encoding="utf-8") as file:
        coded = {name.removeprefix(f"{crate}::").replace("::", "/") for name, *_ in json.load(file)}
    with open(f"{library}/toolchain/made.json", encoding="utf-8") as file:
        modules = [json.loads(line)[0] for line in file]
    stated = {it[len("proofs/") : -len("/Statement")] for it in modules if it.startswith("proofs/") and it.endswith("/Statement")}
    return {it for it in coded & stated if DROP not in it and CLOSURES not in it.split("/")}


def home(path, modules):
    """The module whose file has a function, and the function's name. A path has the type between them, if there is one."""
    own = [it for it in modules if not it or path.startswith(f"{it}/")]
    return max(own, key=len), name_of(path)


def with_cycles(functions, texts):
    """These functions, each its module and its name, with those that are in a cycle of calls with one of them."""
    cycles = [(cycle, (module, name)) for module, text in texts.items() for cycle, name in CYCLE.findall(text)]
    kept = {cycle for cycle, it in cycles if it in functions}
    return functions | {it for cycle, it in cycles if cycle in kept}


def closing(tokens, at):
    """The place of the token that closes the one at a place."""
    depth = 0
    for place in range(at, len(tokens)):
        depth += (tokens[place][0] in OPENING) - (tokens[place][0] in CLOSING)
        if depth == 0:
            return place
    return len(tokens) - 1


def body_after(tokens, at):
    """The places of the braces of the body of the function whose name is before a place, or None if it has none."""
    in_clause = False
    while at < len(tokens) and (in_clause or tokens[at][0] != ";"):
        word = tokens[at][0]
        in_clause = in_clause or word in CLAUSES
        if word in OPENING:
            end = closing(tokens, at)
            if word == "{" and not in_clause:
                return at, end
            in_clause = in_clause and word != "{"
            at = end
        at += 1
    return None


def bodies(text):
    """The name of each function with a body, and where that begins and ends."""
    tokens = [(it[0], it.start(), it.end()) for it in TOKEN.finditer(text) if not it[0].startswith(("//", "/*"))]
    for at in range(len(tokens) - 1):
        if tokens[at][0] == "fn" and re.match(r"[A-Za-z_]", tokens[at + 1][0]):
            found = body_after(tokens, at + 2)
            if found:
                yield tokens[at + 1][0], tokens[found[0]][1], tokens[found[1]][2]


def without_bodies(text, names):
    """The text without the bodies of these functions, and without their attributes of a cycle."""
    parts, left = [], 0
    for name, begin, end in bodies(text):
        if name in names and begin >= left:
            parts += [text[left:begin], BODY]
            left = end
    return CYCLE.sub(lambda found: "" if found[2] in names else found[0], "".join(parts) + text[left:])


def without_any_body(text):
    """The text without the bodies of its functions."""
    return without_bodies(text, {name for name, _, _ in bodies(text)})


def rewrite(path, text):
    with open(path, "w", encoding="utf-8") as file:
        file.write(text)


def put_proof(crate, room, path):
    """Writes the proof of a stub."""
    folder = f"{room}/proofs/{path}"
    os.makedirs(folder, exist_ok=True)
    for file in glob.glob(f"{glob.escape(folder)}/*.antt"):
        os.remove(file)
    rewrite(f"{folder}/Proof.antt", proof_text(crate, path))


def texts_of(room):
    """The text of each module of a crate, by its path below src/; that of the root is empty."""
    texts = {}
    for path in glob.glob(f"{room}/src/**/*.rt", recursive=True):
        with open(path, encoding="utf-8") as file:
            texts[os.path.relpath(path, f"{room}/src").removesuffix(".rt")] = file.read()
    texts[""] = texts.pop("lib")
    return texts


def put(crate, library, room, functions):
    """Makes stubs in a copy of a crate, of all functions but these and those of the same name in the same module."""
    texts = texts_of(room)
    kept = with_cycles({home(it.replace("::", "/"), texts) for it in functions}, texts)
    paths = {it for it in function_paths(crate, library) if home(it, texts) not in kept}
    for module, text in texts.items():
        names = {name for of, name in (home(it, texts) for it in paths) if of == module}
        rewrite(f"{room}/src/{module or 'lib'}.rt", without_bodies(text, names))
    os.makedirs(f"{room}/proofs", exist_ok=True)
    for path in paths:
        put_proof(crate, room, path)
    rewrite(f"{room}/proofs/{HOLE}.antt", HOLE_TEXT)
    with open(f"{room}/proofs/Lib.antt", "a", encoding="utf-8") as file:
        file.write(f"pub mod {HOLE}\n")
