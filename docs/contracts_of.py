"""Prints where a definition stands, and which contracts name it: contracts_of.py NAME..

It tells the functions that a crate exports. It goes by words alone, so of two definitions with one name it tells
both.
"""
import glob
import os
import re
import sys

ROOT = os.path.dirname(os.path.dirname(os.path.abspath(__file__)))
WORD = re.compile(r"[A-Za-z_]\w*")
FUNCTION = re.compile(r"\s*(pub(?:\([a-z]+\))? )?fn (\w+)")
OWNER = re.compile(r"(?:pub )?(?:impl(?:<[^>]*>)? (?:[\w<>]+ for )?|trait )(\w+)")
DEFINITION = re.compile(r"(?:(?:abbrev|unfoldable|pub|record|data) )+(\w+)")


def files(pattern):
    return sorted(it for it in glob.glob(f"{ROOT}/crates/*/{pattern}", recursive=True) if "/out/" not in it)


def crate_of(path):
    return os.path.relpath(path, f"{ROOT}/crates").split("/")[0]


def definitions():
    """Yields each definition of specs/: its name, where it stands, and the words in it."""
    for path in files("specs/**/*.antt"):
        name, line, words = None, 0, set()
        for number, text in enumerate(open(path, encoding="utf8"), 1):
            begins = DEFINITION.match(text)
            if begins and begins[1] in ("mod", "use"):
                continue
            if begins:
                if name:
                    yield name, f"{os.path.relpath(path, ROOT)}:{line}", words
                name, line, words = begins[1], number, set()
            if name and not text.lstrip().startswith("--"):
                words.update(WORD.findall(text))
        if name:
            yield name, f"{os.path.relpath(path, ROOT)}:{line}", words


def exported(crate):
    """Returns the names that a crate's lib.rt hands out."""
    path = f"{ROOT}/crates/{crate}/src/lib.rt"
    text = open(path, encoding="utf8").read() if os.path.isfile(path) else ""
    return set(WORD.findall(" ".join(re.findall(r"pub use ([^;]*);", text))))


def contracts():
    """Yields each exported function with a contract: its crate, its name, and the words of its clauses."""
    for path in files("src/**/*.rt"):
        names, owner, function, words = exported(crate_of(path)), None, None, set()
        for text in open(path, encoding="utf8"):
            if text.lstrip().startswith("//"):
                continue
            if not text.startswith((" ", "}", ")", "\n")):
                owns = OWNER.match(text)
                owner, in_trait = owns and owns[1], text.startswith(("pub trait", "impl")) and " for " in text
                in_trait = in_trait or text.startswith("pub trait")
            begins = FUNCTION.match(text)
            if begins:
                is_method = text.startswith(" ") and owner
                is_open = begins[1] == "pub " or is_method and in_trait
                function = f"{owner}::{begins[2]}" if is_method else begins[2]
                words = set()
                if not is_open or function.split("::")[0] not in names:
                    function = None
            if function and (words or re.match(r"\s*(requires|ensures)\b", text)):
                words.update(WORD.findall(text))
            if function and re.search(r"(^|\s)\{(\})?$|;$", text.rstrip()):
                if words:
                    yield crate_of(path), function, words
                function = None


def show(title, names):
    by_crate = {}
    for crate, name in names:
        by_crate.setdefault(crate, []).append(name)
    if by_crate:
        print(title)
    for crate, found in sorted(by_crate.items()):
        print(f"  {crate}: {', '.join(sorted(set(found)))}")


def tell(name, defined, clauses):
    places = [at for it, at, _ in defined if it == name]
    print(f"{name}: {', '.join(places) or 'not in specs/'}")
    direct = [(crate, function) for crate, function, words in clauses if name in words]
    show("contracts that name it", direct)
    users = [(it, at) for it, at, words in defined if name in words and it != name]
    show("definitions that name it", [(at.split("/")[1], it) for it, at in users])
    reached, new = {name}, {it for it, _ in users}
    while new:
        reached |= new
        new = {it for it, _, words in defined if words & new} - reached
    through = [(crate, function) for crate, function, words in clauses if words & (reached - {name})]
    show("contracts that name it through definitions", sorted(set(through) - set(direct)))


def main():
    if not sys.argv[1:]:
        sys.exit(__doc__.splitlines()[0])
    defined, clauses = list(definitions()), list(contracts())
    for name in sys.argv[1:]:
        tell(name, defined, clauses)


main()
