"""Lists the definitions that a contract reaches: definitions.py [--page PAGE] [CRATE FILE NAME..]

From the names that are given the script follows what each definition's text names, through the `use` lines of its file, and prints
each definition that it reaches, crate by crate and file by file. Without names it begins with those of the contract of `pepaprobe`
in crates/sim_command/src/top_call.rt, the whole call of the program. Types and functions of the toolchain's library and of the
program's own sources are left out.

With --page it prints the rows that PAGE (docs/DEFINITIONS.md) has under "The whole call" of which the contract reaches no name, and the
files with reached definitions of which that part names none. It ends with status 1 where there is either.
"""
import pathlib
import re
import sys

ROOT = pathlib.Path(__file__).resolve().parent.parent
TOP_CALL = ROOT / "crates/sim_command/src/top_call.rt"
NAME = re.compile(r"[A-Za-z][A-Za-z0-9_']*(?:-[A-Za-z][A-Za-z0-9_']*)*")
DEFINED = re.compile(r"^(?:pub )?(?:abbrev |record |data |unfoldable )+(?:pub )?([A-Za-z][A-Za-z0-9_'-]*)")
DECLARED = re.compile(r"^(?:pub )?([A-Za-z][A-Za-z0-9_'-]*) : (.*)$")
CONSTRUCTOR = re.compile(r"^  (?:pub )?([A-Z][A-Za-z0-9_'-]*) +:")
USED = re.compile(r"^(?:ghost )?use Rattle\.(\w+)\.specs\.([\w.]+?)(?:\.\{([^}]*)\})?(?: as (\w+))?;?$")
CLAUSE = re.compile(r"^    (?:requires|ensures)\b")


class File:
    """The definitions of one file of specs/, each with the names in its text, and where the names that it uses come from."""

    def __init__(self, path: pathlib.Path):
        self.crate, self.module = path.parts[-3], path.stem
        self.names, self.constructors, self.imported, self.modules = {}, {}, {}, {}
        current, belongs, block = None, {}, ""
        for line in path.read_text().splitlines():
            if line in ("mutual", "abbrev mutual"):
                block = line
                continue
            # What a block has is two spaces further in.
            if line and not line.startswith(" "):
                block = block if line.startswith("--") else ""
            elif block:
                line = line[2:]
            if line.lstrip().startswith("--"):
                continue
            if block == "abbrev mutual" and (declared := DECLARED.match(line)):
                line = f"abbrev pub {declared.group(1)} : {declared.group(2)}"
            if used := USED.match(line):
                self.add_use(used)
            elif defined := DEFINED.match(line):
                current = defined.group(1)
                self.names[current] = self.names.get(current, set()) | set(NAME.findall(line))
            elif line and not line.startswith(" "):
                # A clause of a function begins with its name; in a `mutual` block the functions take turns.
                begins = NAME.match(line)
                current = begins.group(0) if begins and begins.group(0) in self.names else current
                if current:
                    self.names[current] |= set(NAME.findall(line))
            elif current:
                if made := CONSTRUCTOR.match(line):
                    belongs[made.group(1)] = current
                self.names[current] |= set(NAME.findall(line.split(" -- ")[0]))
        self.constructors = belongs

    def add_use(self, used) -> None:
        crate, module, names, alias = used.groups()
        if module.startswith("declared"):
            return
        if alias:
            self.modules[alias] = (crate, module.split(".")[0])
        for name in (names or "").split(","):
            if name.strip():
                self.imported[name.strip()] = (crate, module.split(".")[0])


def read_files() -> dict:
    return {(it.crate, it.module): it for it in map(File, sorted(ROOT.glob("crates/*/specs/*.antt"))) if it.module != "Lib"}


def contract_names():
    """The names of definitions in the clauses of `pepaprobe`, each with its module."""
    text = TOP_CALL.read_text()
    uses = {}
    for line in text.splitlines():
        if (used := USED.match(line)) and used.group(3):
            uses |= {name.strip(): (used.group(1), used.group(2)) for name in used.group(3).split(",")}
    head = text[text.index("pub fn pepaprobe"):]
    head = head[:head.index("\n{")]
    return [(uses[name], name) for name in dict.fromkeys(NAME.findall(head)) if name in uses]


def resolve(files: dict, place, name: str):
    """The definition that a name is in a file: the file's own, an imported one, or the type of such a constructor."""
    file = files.get(place)
    if file is None:
        return None
    if name in file.names:
        return place, name
    if name in file.constructors:
        return place, file.constructors[name]
    if name in file.imported and file.imported[name] != place:
        return resolve(files, file.imported[name], name)
    return None


def reached(files: dict, starts) -> set:
    found, left = set(), [it for it in (resolve(files, place, name) for place, name in starts) if it]
    while left:
        at = left.pop()
        if at in found:
            continue
        found.add(at)
        place, name = at
        file = files[place]
        for word in file.names[name]:
            if goal := resolve(files, place, word):
                left.append(goal)
            # `alias.Name` is read as two names; the second is looked up in the module that the alias names.
            for module in file.modules.values():
                if word not in file.imported and (goal := resolve(files, module, word)) and goal[0] == module:
                    left.append(goal)
    return found


def by_file(found: set) -> dict:
    lists = {}
    for place, name in sorted(found):
        lists.setdefault(place, []).append(name)
    return lists


def page_rows(page: str) -> list:
    """The names in each row of the tables under "The whole call"; names of files in brackets are left out."""
    part = page[page.index("\n# The whole call"):page.index("\n# Beyond the whole call")]
    firsts = [re.sub(r"\(.*?\)", "", line.split("|")[1]) for line in part.splitlines() if line.startswith("| `")]
    return [{quoted.split(" ")[0] for quoted in re.findall(r"`([^`]*)`", first)} for first in firsts]


def main(words: list) -> int:
    files = read_files()
    page = None
    if words[:1] == ["--page"]:
        page, words = words[1], words[2:]
    starts = [((words[0], words[1]), name) for name in words[2:]] if len(words) > 2 else contract_names()
    found = reached(files, starts)
    if page is None:
        for (crate, module), names in by_file(found).items():
            print(f"{crate} {module}: {' '.join(names)}")
        print(f"{len(found)} definitions in {len(by_file(found))} files")
        return 0 if found else 1
    rows = page_rows(pathlib.Path(page).read_text())
    names = {name for _place, name in found}
    beyond = [row for row in rows if not row & names]
    silent = [place for place, here in by_file(found).items() if not any(row & set(here) for row in rows)]
    for row in beyond:
        print(f"the contract reaches nothing of the row {', '.join(sorted(row))}")
    for crate, module in silent:
        print(f"none of the reached definitions of {crate}/specs/{module}.antt is on the page")
    print(f"reached: {len(found)} definitions; rows of the page: {len(rows)}")
    return 1 if beyond or silent or not rows else 0


if __name__ == "__main__":
    sys.exit(main(sys.argv[1:]))
