"""Documents against the tree: named paths exist, names stand in the files beside them, and each crate's line is its first line of documentation."""

import os
import re
import sys

HERE = os.path.dirname(os.path.abspath(__file__))
ROOT = os.path.dirname(HERE)
DOCUMENTS = ["README.md", "checks/README.md", "examples/README.md", *(f"docs/{name}" for name in sorted(os.listdir(os.path.join(ROOT, "docs"))))]


def text_of(path):
    with open(os.path.join(ROOT, path), encoding="utf-8") as file:
        return file.read()


def missing_paths(document):
    """Paths in backquotes or links that lead to nothing."""
    text = text_of(document)
    named = re.findall(r"`((?:crates|checks|bench|docs|examples)/[^`\s]*)`", text)
    linked = [os.path.join(os.path.dirname(document), path) for path in re.findall(r"\]\(([^)#:]+)\)", text)]
    return [f"{document}: no {path}" for path in named + linked if "*" not in path and not os.path.exists(os.path.join(ROOT, path))]


def missing_names(document):
    """Rows `| `name` | .. | `path` |` whose file doesn't define the name."""
    rows = re.findall(r"^\| `(\w+)` \|.*\| `(crates/[^`]*)` \|$", text_of(document), re.M)
    return [f"{document}: {path} has no {name}" for name, path in rows if not re.search(rf"^\s*(abbrev |unfoldable )?pub (record |data )?{name}\b", text_of(path), re.M)]


def other_lines():
    """Crates of the table in docs/architecture.md, in crates.txt and in crates/, and what they say of themselves."""
    table = dict(re.findall(r"^\| `(\w+)` \| (.*?) \|", text_of("docs/architecture.md"), re.M))
    listed = {line.split(":")[0] for line in text_of("crates.txt").splitlines() if line and not line.startswith("#")}
    problems = [f"docs/architecture.md: no row for {name}" for name in sorted(listed - table.keys())]
    problems += [f"docs/architecture.md: {name} is no crate" for name in sorted(table.keys() - listed)]
    for name in sorted(listed & table.keys()):
        root = "main.rt" if os.path.exists(os.path.join(ROOT, f"crates/{name}/src/main.rt")) else "lib.rt"
        first = text_of(f"crates/{name}/src/{root}").splitlines()[0].removeprefix("//! ")
        if first != table[name]:
            problems.append(f"docs/architecture.md: {name} says of itself: {first}")
    return problems


def main():
    problems = other_lines()
    for document in DOCUMENTS:
        problems += missing_paths(document) + missing_names(document)
    for problem in problems:
        print(problem)
    print(f"{len(DOCUMENTS)} documents, {len(problems)} problems")
    return 1 if problems else 0


if __name__ == "__main__":
    sys.exit(main())
