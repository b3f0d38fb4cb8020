#!/bin/sh
# Checks documents against the tree, and proves nothing: that each crate of crates.txt has a row in docs/ARCHITECTURE.md, whose second
# column names only crates that the crate's line in crates.txt has, or on which another crate of that column stands; and that each name to which
# docs/DEFINITIONS.md or docs/GLOSSARY.md gives a file is defined there. Prints what is stale, and ends with status 1 then. Needs python3.
cd "$(dirname "$0")/.." && exec python3 - <<'PYTHON'
import os
import re
import sys

stale = []


def tell(where, what):
    stale.append(f"{where}: {what}")


def lines_of(path):
    with open(path, encoding="utf-8") as file:
        return list(enumerate(file.read().splitlines(), 1))


def quoted(text):
    return re.findall(r"`([^`]+)`", text)


def cells_of(line):
    return [cell.strip() for cell in line.strip().strip("|").split("|")]


# ---- crates.txt

uses = {}
for _, line in lines_of("crates.txt"):
    line = line.split("#")[0].strip()
    if line:
        name, used = line.split(":")
        uses[name.split()[0]] = used.split()


def below(name):
    """All that a crate stands on, directly or through others."""
    seen, todo = set(), list(uses.get(name, []))
    while todo:
        used = todo.pop()
        if used not in seen:
            seen.add(used)
            todo += uses.get(used, [])
    return seen


for name in sorted(set(os.listdir("crates")) - uses.keys()):
    tell("crates.txt", f"no line of {name}")
for name in sorted(uses.keys() - set(os.listdir("crates"))):
    tell("crates.txt", f"no folder of {name}")

# ---- docs/ARCHITECTURE.md


def check_row(where, first, second):
    """One row; the answer is its crates."""
    crates = quoted(re.sub(r"\([^)]*\)", "", first))
    column = quoted(second)
    for crate in crates:
        if crate not in uses:
            tell(where, f"no crate {crate}")
        for used in column:
            others = set().union(*(below(o) for o in column if o != used))
            if used not in uses.get(crate, []) and used not in others:
                tell(where, f"{crate} doesn't stand on {used}")
    # a crate with one more in brackets
    for crate, more in re.findall(r"`(\w+)` \(with ([^)]*)\)", first):
        for used in quoted(more):
            if used not in uses.get(crate, []):
                tell(where, f"{crate} doesn't stand on {used}")
    return crates


def check_architecture():
    path, seen, inside = "docs/ARCHITECTURE.md", [], False
    for number, line in lines_of(path):
        if line.startswith("| Crate | Stands on |"):
            inside = True
        elif inside and not line.startswith("|"):
            break
        elif inside and not line.startswith("|---"):
            first, second = cells_of(line)[:2]
            seen += check_row(f"{path}:{number}", first, second)
    for crate in uses:
        if seen.count(crate) != 1:
            tell(path, f"{seen.count(crate)} rows of {crate}")


# ---- definitions

HEAD = re.compile(r"^\s*(?:abbrev\s+)?(?:pub\s+)?(?:data\s+|record\s+)?([^\s(){};,]+)(?=\s|$)")
defined = {}


def defines(path, name):
    """Whether a line of the file begins with the name, as a definition, a constructor or a field."""
    if path not in defined:
        heads = [HEAD.match(line) for _, line in lines_of(path)]
        defined[path] = {head.group(1) for head in heads if head}
    return name in defined[path]


def check_names(where, names, paths):
    stems = [os.path.basename(path)[: -len(".antt")] for path in paths]
    for name in names:
        # of several files one may be named as a whole
        if not any(defines(path, name) for path in paths) and not (len(paths) > 1 and name in stems):
            tell(where, f"{name} isn't defined in {', '.join(paths)}")


def folder_files(crate):
    folder = f"crates/{crate}/specs"
    return [f"{folder}/{file}" for file in sorted(os.listdir(folder)) if file.endswith(".antt")] if os.path.isdir(folder) else []


def files_of_cell(cell, crate):
    """The files that a cell names: `File`, `crate/specs/File.antt` or `crate/specs`, and behind them perhaps: in `crate`."""
    paths, cell = [], cell.replace("`", "")
    elsewhere = re.search(r",? in (\w+)$", cell)
    if elsewhere:
        crate, cell = elsewhere.group(1), cell[: elsewhere.start()]
    for part in re.split(r",\s*", cell):
        at = re.fullmatch(r"(\w+)/specs(?:/(\w+)\.antt)?", part)
        if at:
            crate = at.group(1)
        if at and not at.group(2):
            paths += folder_files(crate)
        else:
            stem = at.group(2) if at else part.removesuffix(".antt")
            paths.append(f"crates/{crate}/specs/{stem}.antt")
    return paths


def check_definition(where, columns, cells, crate, heading):
    if len(cells) != len(columns):
        tell(where, f"{len(cells)} columns in the place of {len(columns)}")
        return
    if "File" in columns:
        paths = files_of_cell(cells[columns.index("File")], crate)
    else:
        paths = [f"crates/{crate}/specs/{file}.antt" for file in heading] or folder_files(crate)
    for path in [path for path in paths if not os.path.isfile(path)] or ([] if paths else ["for this row"]):
        tell(where, f"no file {path}")
    paths = [path for path in paths if os.path.isfile(path)]
    if paths:
        named = re.sub(r"\([^)]*\)|and the (rest of|steps in) .*", "", cells[0])
        check_names(where, quoted(named), paths)


def check_definitions():
    """The crate of a row stands in the sentence above it, or in the heading, and its file in the heading or in a column."""
    path, crate, here, heading, columns = "docs/DEFINITIONS.md", None, None, [], None
    for number, line in lines_of(path):
        said = re.search(r"\b[Ii]n `crates/(\w+)/specs`", line)
        if line.startswith("#"):
            heading, columns = re.findall(r"`specs/(\w+)\.antt`", line), None
            of = re.search(r"`specs/\w+\.antt` of `(\w+)`: ", line)
            here = of.group(1) if of and len(heading) == 1 else None
            crate = "containment" if line == "## Laws of containment" else crate
        elif not line.startswith("|"):
            columns = None
            crate = said.group(1) if said else crate
        elif columns is None:
            columns = cells_of(line)
        elif columns[0] == "Name" and not line.startswith("|---"):
            check_definition(f"{path}:{number}", columns, cells_of(line), here or crate, heading)


def check_glossary():
    path = "docs/GLOSSARY.md"
    for number, line in lines_of(path):
        for name, file in re.findall(r"`([^`]+)` in `(\w+/specs/\w+\.antt)`", line):
            if os.path.isfile(f"crates/{file}"):
                check_names(f"{path}:{number}", [name], [f"crates/{file}"])
            else:
                tell(f"{path}:{number}", f"no file {file}")


check_architecture()
check_definitions()
check_glossary()
for line in stale:
    print(line)
sys.exit(1 if stale else 0)
PYTHON
