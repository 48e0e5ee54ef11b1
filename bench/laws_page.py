"""Makes docs/LAWS.md: every law, by layer and crate, with what its comment says and how many others rest on it. It is no command:
bench/pages.py asks it."""
import collections
import functools
import re

import contracts
from tree import TOP, crate_of, crates, sources, text_of

PAGE = TOP / "docs" / "LAWS.md"

HEAD = """# Laws

This page is written by `bench/pages.py`, by the comments of the code.

A law is a public function that takes nothing and does nothing: what it says is its clauses, and its body names the laws on which it rests. Here stands what its comment says; its clauses stand below that comment. The last column tells by how many other laws and functions it is cited. {count} laws.
"""

LAW = re.compile(r"(?m)((?:^ *///[^\n]*\n)+)((?:^ *#\[[^\n]*\n)*)^pub fn (\w+)(?:<[^>]*>)?\(\)\s*\n((?:    (?:ensures|requires|//)[^\n]*\n|        [^\n]*\n)+)\{([^}]*)\}")
CALL = re.compile(r"\b(\w+)(?:::<[^;()]*>)?\(\);")


@functools.lru_cache(None)
def laws():
    """The laws of each crate, in the order of the text: name and comment."""
    found = collections.defaultdict(list)
    for file in sources(parts=["src"]):
        for comment, _, name, _, body in LAW.findall(text_of(file)):
            if all(CALL.fullmatch(line.strip()) for line in body.splitlines() if line.strip()):
                said = " ".join(line.strip()[3:].strip() for line in comment.splitlines())
                found[crate_of(file)].append((name, said))
    return found


def imported(text):
    """From which crate a file has each name that it imports: the last crate on its path."""
    found = {}
    for path, listed, name in re.findall(r"(?m)^use ([\w:]+?)::(?:\{([^}]*)\}|(\w+));", text):
        crate = next((it for it in reversed(path.split("::")) if it in crates()), "")
        for it in re.findall(r"\w+", listed or name):
            found[it] = crate
    return found


@functools.lru_cache(None)
def citations():
    """How many functions cite a law, by its crate and name."""
    count = collections.Counter()
    for file in sources(parts=["src"]):
        text = contracts.COMMENT.sub("", text_of(file))
        crate_by_name = imported(text)
        count.update((crate_by_name.get(it) or crate_of(file), it) for it in CALL.findall(text))
    return count


def page():
    """What the page has to say."""
    text, before = HEAD.format(count=sum(map(len, laws().values()))), ""
    for crate, layer in crates().items():
        if laws().get(crate):
            text += "" if layer == before else f"\n## {layer[0].upper()}{layer[1:]}\n"
            text += f"\n### `{crate}`\n\n| Law | What it says | Cited |\n| --- | --- | --- |\n"
            text += "".join(f"| `{name}` | {said} | {citations()[crate, name] or ''} |\n" for name, said in laws()[crate])
            before = layer
    return text


def faults():
    """Nothing but the page can be off."""
    return ()
