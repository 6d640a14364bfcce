"""bin/blocks as the module `blocks`, the text of a flat grammar for it and what such a text says, and the repository's
folder."""
import importlib.machinery
import importlib.util
import pathlib

TOP = pathlib.Path(__file__).resolve().parent.parent
LOADER = importlib.machinery.SourceFileLoader("blocks", str(TOP / "bin" / "blocks"))
blocks = importlib.util.module_from_spec(importlib.util.spec_from_loader("blocks", LOADER))
LOADER.exec_module(blocks)


def tables(made):
    """R and the four lists that a text (blocks.Text) says, as plain.Grammar takes them."""
    return made.rules, made.owners, made.starts, made.symbols, made.costs


def text_of(g, version=1):
    """A well-formed grammar (plain.Grammar) as the text that bin/blocks writes a file of this version from."""
    tokens, rules = [f"t{t}" for t in range(len(g.costs))], [f"r{r}" for r in range(g.rules)]
    lines = ["tokens " + " ".join(f"{name}={cost}" for name, cost in zip(tokens, g.costs)), "rules " + " ".join(rules)]
    lines += [f"version {version}"] * (version != 1)
    for owner, start, end in zip(g.owners, g.starts, g.starts[1:]):
        body = (tokens[s] if s < blocks.RULE else rules[s - blocks.RULE] for s in g.symbols[start:end])
        lines.append(f"{rules[owner]}: {' '.join(body)}")
    return "\n".join(lines)
