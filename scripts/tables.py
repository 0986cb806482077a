#!/usr/bin/env python3
"""Writes the tables of docs/PROVED.md and docs/DEFINITIONS.md from the sources: `python3 scripts/tables.py`.

Each of the two pages is written by hand down to the line MARK; what follows is made here. `--check` writes nothing, and fails if a page
is not what it would write. PROVED lists, crate by crate, each public function, law and implementation with a contract: its conditions,
its clauses, the definitions of this repository that they cite, and the first sentence of its comment. DEFINITIONS lists, file by file,
each public definition of specs/ with its comment; those of specs/Inner, which no public contract needs, are left out.
"""
import os
import re
import sys

ROOT = os.path.dirname(os.path.dirname(os.path.abspath(__file__)))
MARK = "<!-- Made by scripts/tables.py from the sources: edit those. -->"
CHECKS = re.compile(r"jxlcheck|jxlm_run_tests|check_")
FUNCTION = re.compile(r"(pub(?:\([a-z]+\))? )?(?:const )?(?:final )?fn (\w+)")
CLAUSE = re.compile(r"(requires|ensures)\*?((?: \w+)*) \{")


def read(path):
    with open(f"{ROOT}/{path}", encoding="utf-8") as file:
        return file.read()


def crates():
    """Returns the crates in the order of crates.txt."""
    names = [it.partition(":")[0].split()[0] for it in read("crates.txt").splitlines() if ":" in it]
    return [it for it in names if not CHECKS.match(it)]


def files(folder, ending):
    """Returns the files below a folder with this ending, in the order of their names."""
    found = []
    for at, folders, names in os.walk(f"{ROOT}/{folder}"):
        folders.sort()
        found += [os.path.relpath(f"{at}/{it}", ROOT) for it in sorted(names) if it.endswith(ending)]
    return found


def sentence(lines):
    """Returns the first sentence of a comment, as one line of a table."""
    text = []
    for line in lines:
        if not line.strip():
            break
        text.append(line.strip())
    text = " ".join(text)
    end = re.search(r"(?<=[^.])\.(?= [A-Z(`]|$)", text)
    text = text[: end.start()] if end else text
    text = re.sub(r"\[(`?[^\]`]+`?)\](?:\([^)]*\))?", r"\1", text)
    return text.replace("|", "\\|")


def imported(text):
    """Returns the definitions of this repository that a file's ghost imports name: the local name, and the name itself."""
    found = {}
    for path, names in re.findall(r"ghost use Rattle\.(\w+\.specs[\w.]*)\.\{([^}]*)\}", text):
        if path.startswith("std.") or ".declared" in path:
            continue
        for it in names.split(","):
            name, _, local = it.strip().partition(" as ")
            found[local or name] = name
    return found


def balanced(lines, at):
    """Returns a clause's text from line `at` on, up to its closing brace, and the line after it."""
    text, depth = "", 0
    while at < len(lines):
        text += lines[at] + "\n"
        depth = text.count("{") - text.count("}")
        at += 1
        if depth <= 0:
            break
    return text, at


def header(lines, at, names):
    """Returns the names of the clauses of the function at a line, the definitions that they cite, and its last line before the body."""
    found, cited = {"requires": [], "ensures": []}, []
    while at < len(lines):
        bare = lines[at].strip()
        clause = CLAUSE.match(bare)
        if clause:
            whole, at = balanced(lines, at)
            found[clause[1]].append(clause[2].strip() or "-")
            for it in re.findall(r"[^\s(){}\[\],;.:]+", whole[whole.index("{") :]):
                if it in names and names[it] not in cited:
                    cited.append(names[it])
            if whole.rstrip().endswith(";"):
                return found, cited, at - 1
            continue
        if bare.startswith("{") or bare.endswith((";", " {", "}")) and not bare.startswith("//"):
            return found, cited, at
        at += 1
    return found, cited, at


def contracts(path):
    """Yields each public item of a file that has a contract: its name, conditions, clauses, definitions, and comment."""
    text = read(path)
    text = text.partition("#[cfg(test)]")[0]
    names, lines = imported(text), text.splitlines()
    owner, comment, at = "", [], 0
    while at < len(lines):
        line = lines[at]
        bare = line.strip()
        if re.match(r"(pub )?(impl|trait)\b", line):
            head = line
            while "{" not in head and at + 1 < len(lines):
                at += 1
                head += " " + lines[at].strip()
            plain = re.sub(r"<[^<>]*>", "", re.sub(r"<[^<>]*>", "", re.sub(r"<[^<>]*>", "", head)))
            of_trait = re.match(r"impl\s+([\w:]+) for ([\w:&' \[\]]+)", plain)
            named = re.match(r"(?:pub )?(?:impl|trait)\s+(\w+)", plain)
            owner = f"{of_trait[2].split()[0]}" if of_trait else named[1] if named else ""
            is_trait = "trait" in line.split("{")[0].split()[:2]
            impl_of = of_trait[1] if of_trait else ""
            comment = []
        elif line == "}":
            owner, comment = "", []
        elif bare.startswith("///"):
            comment.append(bare[3:].strip())
        elif FUNCTION.match(bare):
            pub, name = FUNCTION.match(bare).groups()
            is_public = pub == "pub " or owner and (is_trait or impl_of)
            found, cited, at = header(lines, at, names)
            if is_public and (found["ensures"] or found["requires"]):
                yield (f"{owner}::{name}" if owner else name), found["requires"], found["ensures"], cited, sentence(comment)
            comment = []
        elif not bare.startswith(("#[", "ghost ")):
            comment = []
        at += 1


def listed(words):
    shown = [f"`{it}`" if it != "-" else "(no name)" for it in dict.fromkeys(words)]
    return ", ".join(shown)


def proved():
    out = []
    for crate in crates():
        rows = []
        for path in files(f"crates/{crate}/src", ".rt"):
            for name, requires, ensures, cited, comment in contracts(path):
                rows.append(f"| `{name}` | {listed(requires)} | {listed(ensures)} | {listed(cited)} | {comment} |")
        if rows:
            root = f"crates/{crate}/src/{'main' if os.path.exists(f'{ROOT}/crates/{crate}/src/main.rt') else 'lib'}.rt"
            head = sentence([it[3:].strip() for it in read(root).splitlines() if it.startswith("//!")])
            out += [f"## `{crate}`", "", f"{head}.", "", "| Function | Conditions | Clauses | Definitions | |", "|---|---|---|---|---|", *rows, ""]
    return out


def definitions():
    out = []
    for crate in crates():
        tables = []
        for path in files(f"crates/{crate}/specs", ".antt"):
            if "/Inner" in path or path.endswith("Lib.antt"):
                continue
            lines = read(path).splitlines()
            head = []
            for line in lines:
                if not line.startswith("--"):
                    break
                head.append(line[2:].strip())
            rows, comment = [], []
            for line in lines[len(head) :]:
                bare = line.strip()
                word = re.match(r"(?:abbrev |unfoldable |opaque )*pub (?:record |data )?([^\s:({]+)", bare)
                if bare.startswith("--"):
                    comment.append(bare[2:].strip())
                elif word and not re.match(r"pub (use|mod)\b", bare):
                    if comment:
                        rows.append(f"| `{word[1]}` | {' '.join(comment).replace('|', chr(92) + '|')} |")
                    comment = []
                else:
                    comment = []
            if rows:
                tables += [f"### `{path[len('crates/') :]}`", "", " ".join(head), "", "| Word | Meaning |", "|---|---|", *rows, ""]
        if tables:
            out += [f"## `{crate}`", "", *tables]
    return out


def main(words):
    is_check, bad = words == ["--check"], 0
    for page, made in (("docs/PROVED.md", proved()), ("docs/DEFINITIONS.md", definitions())):
        text = read(page)
        if MARK not in text:
            sys.exit(f"{page}: no line {MARK}")
        whole = text[: text.index(MARK)] + "\n".join([MARK, "", *made]).rstrip() + "\n"
        if is_check and whole != text:
            print(f"{page}: its tables are not those of the sources: python3 scripts/tables.py writes them")
            bad = 1
        elif not is_check:
            with open(f"{ROOT}/{page}", "w", encoding="utf-8") as file:
                file.write(whole)
    return bad


if __name__ == "__main__":
    sys.exit(main(sys.argv[1:]))
