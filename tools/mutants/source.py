"""The functions of a crate's sources, what they call, its tables, and edits of their bodies."""
import dataclasses
import pathlib
import re

HEAD = re.compile(r'^(pub )?(?:extern "C" )?fn (\w+)', re.M)
IMPL = re.compile(r"^impl(?:<'\w+>)? (?:\w+::)*(\w+)(?:<(\w+)>)? for (\w+|\(\))(?:<'\w+>)? \{\n", re.M)
METHOD = re.compile(r"^    fn (\w+)", re.M)
TABLE = re.compile(r"^const (\w+): \[\w+; \d+\] = \[\n", re.M)
USE = re.compile(r"^use ([\w:]+)::(?:(\w+)|\{([^}]*)\});", re.M)
CALL = re.compile(r"\b((?:\w+::)*)(\w+)\(")
KINDS = ("operand", "bound", "branch")


@dataclasses.dataclass
class Function:
    """A function, named as the prover names it, and where its body stands in its file."""
    name: str
    path: pathlib.Path
    public: bool
    text: str
    start: int
    end: int
    method: bool = False

    @property
    def body(self):
        return self.text[self.start:self.end]

    @property
    def module(self):
        return self.name.rpartition("::")[0]


@dataclasses.dataclass
class Edit:
    """One change of a function's body: each `old` text, which the body has once, becomes its `new`."""
    function: str
    number: int
    kind: str
    what: str
    pairs: list


def functions(crate):
    """The functions of the crate folder `crate`, by name."""
    found = {}
    for path in sorted((crate / "src").rglob("*.rt")):
        parts = path.relative_to(crate / "src").with_suffix("").parts
        module = "::".join((crate.name,) + tuple(p for p in parts if p != "lib"))
        text = path.read_text(encoding="utf-8")
        for head in HEAD.finditer(text):
            start = text.index("\n{\n", head.end()) + 3
            name = f"{module}::{head.group(2)}"
            found[name] = Function(name, path.relative_to(crate), bool(head.group(1)), text,
                                   start, text.index("\n}\n", start - 1) + 1)
        found |= methods(path.relative_to(crate), module, text)
    return found


def methods(path, module, text):
    """The methods of a file's impls of traits, by name: U16FromRefusal::from is what `impl From<Refusal> for u16` has."""
    found = {}
    for impl in IMPL.finditer(text):
        trait, of, to = impl.groups()
        of = of and of[0].upper() + of[1:]
        to = "Unit" if to == "()" else to[0].upper() + to[1:]
        end = text.index("\n}\n", impl.end() - 1)
        for head in METHOD.finditer(text, impl.end(), end):
            start = text.index("{\n", head.end()) + 2
            name = f"{module}::{to}{trait}{of or ''}::{head.group(1)}"
            found[name] = Function(name, path, False, text, start, text.index("\n    }\n", start - 1) + 1, True)
    return found


def tables(crate):
    """The constant tables of the crate folder `crate`, a number a line, by name: each as a function that nothing calls."""
    found = {}
    for path in sorted((crate / "src").rglob("*.rt")):
        text = path.read_text(encoding="utf-8")
        for head in TABLE.finditer(text):
            name = f"{crate.name}::{head.group(1)}"
            found[name] = Function(name, path.relative_to(crate), False, text, head.end(), text.index("];\n", head.end()))
    return found


def calls(function, crates):
    """The full names of what the function's body calls, constructors among them."""
    used = {}
    for path, one, several in USE.findall(function.text):
        for item in (one or several).split(","):
            used[item.strip().split("::")[-1]] = f"{path}::{item.strip()}"
    crate = function.name.split("::")[0]
    full = set()
    for path, name in CALL.findall(function.body):
        called = path + name if path else used.get(name, name)
        first, _, rest = called.partition("::")
        if first == "crate":
            called = f"{crate}::{rest}"
        elif not rest or first not in crates:
            called = f"{function.module}::{called}"
        full.add(called)
    return full


def reaches(name, found, crates):
    """`name` and the functions of `found` that it calls, or that these call in turn."""
    seen, todo = {name}, [name]
    while todo:
        for called in calls(found[todo.pop()], crates):
            if called in found and called not in seen:
                seen.add(called)
                todo.append(called)
    return seen


def read_edits(path, crate):
    """The edits of a list, in its order. Lines of one key that stand together are one text."""
    edits, function, last = [], None, None
    for line in path.read_text(encoding="utf-8").splitlines():
        key, _, rest = line.partition(": ")
        if key in ("fn", "table"):
            function = f"{crate}::{rest}"
        elif key in KINDS:
            number = 1 + sum(e.function == function for e in edits)
            edits.append(Edit(function, number, key, rest, []))
        elif key in ("old", "new"):
            take(edits[-1].pairs, key, rest, key == last)
        elif line and not line.startswith("#"):
            raise ValueError(f"{path.name}: a line that is no edit: {line}")
        last = key
    return edits


def take(pairs, key, text, more):
    """Takes a line of an `old` or a `new` text, one more of it or its first."""
    if key == "old" and not more:
        pairs.append([text, None])
    elif key == "old":
        pairs[-1][0] += "\n" + text
    else:
        pairs[-1][1] = pairs[-1][1] + "\n" + text if more else text


def edited(found, edits):
    """The new text of each file that the edits change."""
    changes = {}
    for edit in edits:
        function = found[edit.function]
        for old, new in edit.pairs:
            if function.body.count(old) != 1:
                raise ValueError(f"{edit.function}: not once in its body: {old}")
            at = function.start + function.body.index(old)
            changes.setdefault(function.path, []).append((at, old, new, function.text))
    texts = {}
    for path, places in changes.items():
        text = places[0][3]
        for at, old, new, _ in sorted(places, reverse=True):
            text = text[:at] + new + text[at + len(old):]
        texts[path] = text
    return texts
