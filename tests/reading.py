#!/usr/bin/env python3
"""What has to be believed: the definitions that the statements of the front door and of what people rely on name, those that these name
in turn, and so on; and the same from the contracts of public functions. The kit's own names are left out. Run by itself it prints the
rows of the tables in docs/CLAIMS.md."""
import functools
import pathlib
import re

root = pathlib.Path(__file__).resolve().parent.parent
FRONT = tuple(f"crates/promises/proofs/{name}.antt" for name in ("Promises", "Writer", "Engines", "Tenants", "Banks", "Keeper"))
CRATES = ("plain", "writer", "feed", "cycle", "bits", "lines")


@functools.cache
def text_of(path):
    text = (root / path).read_text(encoding="utf-8")
    return re.sub(r"^\s*//.*$" if path.endswith(".rt") else r"(^|(?<=\s))--.*$", "", text, flags=re.M)


def files(pattern):
    return [str(p.relative_to(root)) for crate in CRATES for p in sorted((root / "crates" / crate).glob(pattern))]


def place(module, name):
    """Where a name of this repository is: its file and the definition, or a source file and the type declared there."""
    found = re.match(rf"Rattle\.({'|'.join(CRATES)})\.((?:specs|proofs)\..+)", re.sub("[«»]", "", module))
    if not found:
        return None
    if declared := re.match(r"specs\.declared\.(\w+)\.(\w+)", found[2]):
        return f"crates/{found[1]}/src/{declared[1]}.rt", declared[2]
    path = f"crates/{found[1]}/{found[2].replace('.', '/')}.antt"
    return path, constructors(path).get(name, name)


@functools.cache
def definitions(path):
    """The definitions of a file, or the types that a source file declares: name and text."""
    if path.endswith(".rt"):
        return dict(re.findall(r"^pub (?:struct|enum) (\w+)(?:<\w+>)? \{(.*?)^\}", re.sub(r"\w+: ", "", text_of(path)), re.M | re.S))
    parts = re.split(r"^ *(?:(?:abbrev|unfoldable) pub|pub (?:record|data)) (\S+)", text_of(path), flags=re.M)
    return dict(zip(parts[1::2], parts[2::2]))


@functools.cache
def constructors(path):
    """The constructors of a file's data types, each with its type."""
    data = re.findall(r"^pub data (\S+)(.*?)(?=^\S|\Z)", text_of(path), re.M | re.S)
    return {c: name for name, text in data for c in re.findall(r"^  (\S+) :", text, re.M)}


@functools.cache
def aliases(path):
    """The modules that a file uses whole, by the names that it has for them."""
    return {alias: module for module, alias in re.findall(r"^(?:ghost )?use (\S+) as (\S+)$", text_of(path), re.M)}


@functools.cache
def scope(path):
    """What the names of a file stand for."""
    names, text = {}, text_of(path)
    for module, listed in re.findall(r"^(?:ghost )?use (\S+?)\.\{([^}]*)", text, re.M):
        for name in re.split(r",\s*", listed.strip()):
            if at := place(module, name):
                names[name] = at
    if path.endswith(".rt"):
        for crate, module, listed in re.findall(rf"^use (crate|{'|'.join(CRATES)})::(\w+)::(\w+|\{{[^}}]*\}});", text, re.M):
            for name in re.findall(r"\b[A-Z]\w*[a-z]\w*", listed):
                names[name] = (f"crates/{path.split('/')[1] if crate == 'crate' else crate}/src/{module}.rt", name)
    if path not in FRONT:
        names |= {name: (path, name) for name in definitions(path)} | {c: (path, name) for c, name in constructors(path).items()}
    return names


def words(text):
    """The names in a text, `alias.name` and `x.field` as one, without projections `(f x).field` and the fields that a record is written
    with."""
    text = re.sub(r"(?<=\))(?:\.[^\s(){}\[\];,.:]+)+", " ", text)
    return re.findall(r"[^\s(){}\[\];,.:]+(?:\.[^\s(){}\[\];,.:]+)*(?! =\s)(?=[\s(){}\[\];,.:]|$)", text)


def named(path, text):
    """What a definition or a statement of a file names."""
    found = []
    for word in words(text):
        first, *rest = word.split(".")
        if rest and first in aliases(path):
            found.append(place(aliases(path)[first], rest[0]))
        else:
            found.append(scope(path).get(first))
    return [at for at in found if at]


def closure(start):
    """Every definition reached from these, the nearest first, by file."""
    reached, waiting = {}, list(start)
    while waiting:
        path, name = waiting.pop(0)
        if name not in reached.setdefault(path, []):
            reached[path].append(name)
            waiting += named(path, definitions(path).get(name, ""))
    return reached


def front_door():
    """The names in the statements of the two files, each up to its proof, in their abbreviations and in the parameters of their modules."""
    start = []
    for path in FRONT:
        stated = re.findall(r"^ *module (_) (.*?) where$", text_of(path), re.M | re.S)
        stated += re.findall(r"^ *abbrev (\S+) :(.*?)\n$", text_of(path), re.M | re.S)
        stated += re.findall(r"^ *pub (\S+) :(.*?)(?=^ *\1[ \n])", text_of(path), re.M | re.S)
        start += [at for _, statement in stated for at in named(path, statement)]
    return start


def contracts():
    """The names in the `ensures` of the public functions."""
    start = []
    for path in files("src/**/*.rt"):
        for head in re.findall(r"^ *pub fn (?:.*\n)*?(?= *\{$)", text_of(path), re.M):
            start += [at for said in re.findall(r"ensures (?:\w+ )?\{(.*)\}", head) for at in named(path, said)]
    return start


def in_order(reached):
    """The files crate by crate, definitions before declared types, those next to the front door first."""
    paths = list(reached)
    return {p: reached[p] for p in sorted(paths, key=lambda p: (CRATES.index(p.split("/")[1]), "/src/" in p, paths.index(p)))}


def lists():
    """What the front door reaches; what contracts reach beyond it; and the files of specs/ that neither reaches."""
    believed, cited = closure(front_door()), closure(contracts())
    beyond = {path: [n for n in names if n not in believed.get(path, [])] for path, names in cited.items()}
    neither = [p for p in files("specs/**/*.antt") if p not in believed and p not in cited]
    return in_order(believed), in_order({path: names for path, names in beyond.items() if names}), neither


if __name__ == "__main__":
    for table in lists()[:2]:
        for path, names in table.items():
            print(f"| `{path}` | " + ", ".join(f"`{name}`" for name in names) + " |")
        print()
