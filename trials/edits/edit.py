"""A must-fail edit: a wrong body of a function, which the prover has to refuse."""

from dataclasses import dataclass

from trials.edits.sources import functions_in


@dataclass(frozen=True)
class Edit:
    """An edit of a crate: its name, the name of its function, and which text it replaces by which other one in which files."""

    name: str
    function: str
    changes: tuple

    def apply(self, texts):
        """Makes its changes in the texts of the crate's files, which other edits may have changed. Returns whether it could: each of its
        `old:` texts has to be there once."""
        fits = all(texts[file].count(old) == 1 for file, old, _ in self.changes)
        if fits:
            for file, old, new in self.changes:
                texts[file] = texts[file].replace(old, new)
        return fits


def read_edit(file, texts):
    """Reads an edit of a crate whose files have these texts. ValueError says why it can't be applied."""
    path, old, changes, functions = "", None, [], set()
    for line in file.read_text().splitlines():
        word, _, rest = line.partition(":")
        rest = rest.removeprefix(" ")
        if word == "file":
            path = rest.strip()
        elif word == "old":
            old = rest
            functions.add(function_with(path, texts[path], old))
        elif word == "new":
            changes.append((path, old, rest))
    if len(functions) != 1:
        raise ValueError(f"it changes {len(functions)} functions, and not one")
    return Edit(file.stem, functions.pop(), tuple(changes))


def function_with(path, text, part):
    """The name of the function in whose body this part of a file is."""
    if text.count(part) != 1:
        raise ValueError(f"{path} has its `old:` text {text.count(part)} times, and not once")
    begin = text.index(part)
    around = [it for it in functions_in(path, text) if it.begin <= begin and begin + len(part) <= it.end + 1]
    if not around:
        raise ValueError(f"its `old:` text stands in the body of no function of {path}")
    return max(around, key=lambda it: it.begin).name
