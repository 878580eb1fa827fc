"""Runs the commands that pages show, and compares their output with what is shown: docs.py PAGE..

What a fenced block of a page is depends on the word after its first fence:

  console       commands after `$ `, each with its output after it; they are run
  pepa NAME     a model, which commands find in a file with this name
  sh            commands that build or prove; they are left out, and only those of LEFT_OUT may be there
  text          no command

Each row of a table with the columns Example and Answer is run too: `steps` on the example where the answer is a stop, and else `check`.
NO_EXAMPLE has the rows that show none, since it would be too long for a table.

Commands run in a folder of their own, which has the models of their page, `examples`, and `bin/pepaprobe`. Both streams are compared,
in the order in which they are written. The check fails where a page has fewer commands or rows than FEWEST says, a block of
another kind, a `$ ` outside of the blocks that are run, or a model that no command reads.
"""
import pathlib
import re
import subprocess
import sys
import tempfile

ROOT = pathlib.Path(__file__).resolve().parent.parent
LEFT_OUT = {"bin/pepaprobe steps < examples/desk.pepa", ".ci/run"}
NO_EXAMPLE = ["long name", "too deep", "too many", "too many"]
# How many commands and how many rows each page has at least.
FEWEST = {"README.md": (4, 0), "LANGUAGE.md": (35, 20)}
SECONDS = 60


class Page:
    """The commands of a page with their outputs, its models, its rows with an example, and what is wrong with its form."""

    def __init__(self, path: pathlib.Path):
        self.name = path.name
        self.blocks, self.models, self.rows, self.wrong, self.bare = [], {}, [], [], []
        kind, lines, columns = "", [], []
        for number, line in enumerate(path.read_text().splitlines(), 1):
            if line.startswith("```"):
                if kind:
                    self.add_block(kind, lines)
                    kind, lines = "", []
                else:
                    kind, lines = line[3:] or "nothing", []
            elif kind:
                lines.append((number, line))
            elif re.match(r"\s*\$ ", line):
                self.wrong.append(f"line {number}: a command outside of the blocks that are run")
            else:
                columns = self.add_row(number, line, columns)
        if kind:
            self.wrong.append("the last block has no end")

    def add_block(self, kind: str, lines) -> None:
        first = lines[0][0] if lines else 0
        word, _, name = kind.partition(" ")
        if word == "console" and not name:
            commands = []
            for number, line in lines:
                if line.startswith("$ "):
                    commands.append([number, line[2:], ""])
                elif commands:
                    commands[-1][2] += line + "\n"
                else:
                    self.wrong.append(f"line {number}: output before the first command")
            self.blocks.append(commands)
        elif word == "pepa" and re.fullmatch(r"[a-z]+\.pepa", name) and name not in self.models:
            self.models[name] = "".join(line + "\n" for _number, line in lines)
        elif kind == "sh":
            for number, line in lines:
                command = line.split("#")[0].strip()
                if command and command not in LEFT_OUT:
                    self.wrong.append(f"line {number}: this command may not be left out: {command}")
        elif kind != "text":
            self.wrong.append(f"line {first}: a block of the kind '{kind}'")
        if word != "console" and any(line.startswith("$ ") for _number, line in lines):
            self.wrong.append(f"line {first}: a command in a block that isn't run")

    def add_row(self, number: int, line: str, columns):
        """Takes a line outside of blocks, and returns the columns of the table that it is in."""
        if not line.startswith("|"):
            return []
        cells = [cell.strip().replace("\\|", "|") for cell in re.split(r"(?<!\\)\|", line)[1:-1]]
        if not columns:
            return cells
        if "Example" not in columns or set(line) <= set("|-"):
            return columns
        row = dict(zip(columns, cells))
        name, example, answer = (row.get(it, "").strip("`") for it in (columns[0], "Example", "Answer"))
        if not example and not answer:
            self.bare.append(name)
        elif not example or not answer or name not in answer:
            self.wrong.append(f"line {number}: example, answer and name don't belong together")
        else:
            self.rows.append((number, example, answer))
        return columns


def outputs(folder: str, commands):
    """Runs the commands of a block in one shell, and returns what each writes. `$?` is the status of the one before."""
    script = ["last=0"]
    for _number, command, _wanted in commands:
        script += ["(exit $last)", command, "last=$?", r"printf '\0'"]
    ended = subprocess.run(["bash", "-c", "\n".join(script)], cwd=folder, stdin=subprocess.DEVNULL, stdout=subprocess.PIPE,
                           stderr=subprocess.STDOUT, timeout=SECONDS, check=False)
    return ended.stdout.decode(errors="replace").split("\0")[:-1]


def look_at(page: Page, folder: str):
    """Returns what is wrong with the page, and how many commands and rows were run."""
    wrong, ran, rows = list(page.wrong), 0, 0
    pathlib.Path(folder, "bin").mkdir()
    pathlib.Path(folder, "bin/pepaprobe").symlink_to(ROOT / "bin/pepaprobe")
    pathlib.Path(folder, "examples").symlink_to(ROOT / "examples")
    for name, text in page.models.items():
        pathlib.Path(folder, name).write_text(text)
        if not any(f"< {name}" in command for block in page.blocks for _number, command, _wanted in block):
            wrong.append(f"no command reads the model {name}")
    for block in page.blocks:
        found = outputs(folder, block)
        if len(found) != len(block):
            wrong.append(f"line {block[0][0] if block else 0}: {len(found)} of {len(block)} commands of the block ended")
        for (number, command, wanted), output in zip(block, found):
            ran += 1
            if output != wanted:
                wrong.append(f"line {number}: {command}\n  writes {output!r}\n  and not {wanted!r}")
    for number, example, answer in page.rows:
        rows += 1
        word, status = ("steps", 6) if answer.startswith("stopped: ") else ("check", 3)
        ended = subprocess.run(["bin/pepaprobe", word], input=example.encode(), cwd=folder, capture_output=True, timeout=SECONDS, check=False)
        found = (ended.returncode, ended.stdout, ended.stderr.decode(errors="replace"))
        if found != (status, b"", answer + "\n"):
            wrong.append(f"line {number}: {word} of {example!r} ends as {found!r}, and not with {answer!r}")
    if page.bare not in ([], NO_EXAMPLE):
        wrong.append(f"these rows show no example: {', '.join(page.bare)}")
    fewest = FEWEST[page.name]
    if ran < fewest[0] or rows < fewest[1]:
        wrong.append(f"{ran} commands and {rows} rows were run, and at least {fewest[0]} and {fewest[1]} are wanted")
    return wrong, ran, rows


def main(names) -> int:
    failures = 0
    if sorted(pathlib.Path(name).name for name in names) != sorted(FEWEST):
        print(f"FAILED: the pages to look at are {', '.join(sorted(FEWEST))}")
        return 1
    for name in names:
        page = Page(ROOT / name)
        with tempfile.TemporaryDirectory() as folder:
            wrong, ran, rows = look_at(page, folder)
        for it in wrong:
            print(f"FAILED: {name}: {it}")
        failures += len(wrong)
        print(f"{name}: commands run: {ran}; rows of tables: {rows}; rows without an example: {', '.join(page.bare) or 'none'}")
    print(f"left out, since they build or prove: {'; '.join(sorted(LEFT_OUT))}")
    return 1 if failures else 0


if __name__ == "__main__":
    sys.exit(main(sys.argv[1:]))
