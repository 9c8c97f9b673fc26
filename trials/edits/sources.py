"""The functions of a source file: their names, by which the prover knows them, and where their bodies are."""

import re
from dataclasses import dataclass

# Comments, and strings and characters, whose braces and quotation marks mean nothing.
NO_CODE = re.compile(r'//[^\n]*|/\*.*?\*/|b?"(?:\\.|[^"\\])*"|b?\'(?:\\[^\']+|[^\\\'])\'', re.S)
CLAUSES = re.compile(r"\b(?:requires|ensures|ghost|decreases)\b")
IMPLS = re.compile(r"^[ \t]*(?:unsafe )?impl\b([^{;]*)\{", re.M)


@dataclass(frozen=True)
class Function:
    """A function, and the places in its file between which its body is."""

    name: str
    begin: int
    end: int


def functions_in(file, text):
    """The functions of a file with this path below its crate, in their order. The name of a function is the end of the one that the prover
    writes: its path below the crate if it belongs to no type, and else the name of the type with its own."""
    code = NO_CODE.sub(lambda found: re.sub(r"[^\n]", " ", found[0]), text)
    blocks = [(found.end() - 1, closing(code, found.end() - 1), owner_in(found[1])) for found in IMPLS.finditer(code)]
    functions = []
    for found in re.finditer(r"\bfn (\w+)", code):
        body = body_after(code, found.end())
        if body is not None:
            # What the prover calls a type says in which module the type is, and not in which one the `impl` block is.
            owners = [owner for begin, end, owner in blocks if begin < found.start() < end]
            name = "::".join([*(owners or module_of(file)), found[1]])
            functions.append(Function(name, body, closing(code, body)))
    return functions


def module_of(file):
    names = file.removeprefix("src/").removesuffix(".rt").split("/")
    return [] if names in (["lib"], ["main"]) else names


def owner_in(head):
    """What the prover calls the `impl` block with this head: the name of its type, and after it all those of its trait, as
    `TroubleFromIoError` for `impl From<io::Error> for Trouble`."""
    head = re.sub(r"^<(?:[^<>]|<[^<>]*>)*>", "", head.strip())
    trait, _, owner = head.rpartition(" for ")
    names = re.findall(r"(?<!')\b\w+", trait)
    return "".join([*re.findall(r"\w+\b(?!::)", owner)[:1], *(name[0].upper() + name[1:] for name in names)])


def body_after(code, at):
    """The place of the brace that begins the body of the function whose head begins here; None if it has none."""
    depth, part = 0, at
    while at < len(code):
        if code[at] in "([":
            depth += 1
        elif code[at] in ")]":
            depth -= 1
        elif depth == 0 and code[at] == ";":
            return None
        elif depth == 0 and code[at] == "{":
            if not CLAUSES.search(code[part:at]):
                return at
            at = part = closing(code, at)
        at += 1
    return None


def closing(code, at):
    """The place of the brace that closes the one at this place."""
    depth = 0
    for found in re.compile(r"[{}]").finditer(code, at):
        depth += 1 if found[0] == "{" else -1
        if depth == 0:
            return found.start()
    raise ValueError("a brace isn't closed")
