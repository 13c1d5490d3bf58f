#!/usr/bin/env python3
"""Brings the repository's own definitions, fields and lemmas to snake case, in every file of crates/ and in the pages.

usage: respell.py [--check] [ROOT]

port.py respells only names that the library has too. This does the others: `placeOf` becomes `place_of` and `put-length` becomes `put_length`.
A name counts where it is declared in specs/, or in a lemma file of proofs/ (not in the folder of a function, whose names Rattle makes).
It stops, and writes nothing, where two names would fall together. Run it once, after port.py.
"""
import os
import re
import sys

NAME = r"[^\s(){}\[\],;.:@]+"
DECLARED = re.compile(rf"^[ \t]*(?:abbrev |unfoldable )?(?:pub )?(?:record |data |ruleset |abbrev |unfoldable )?(?:pub )?({NAME})(?: [({{].*)? :(?: |$)", re.M)
CONSTRUCTOR = re.compile(rf"^  ({NAME}) : ", re.M)
TOKEN = re.compile(NAME)
# the names that Rattle makes for goals and invariants keep their dashes
MADE = re.compile(r"(returns|loop|invariant|decreases)-.*|.*-spec$")
# where a lemma would get the name of a definition, or of another lemma, that its file speaks of
LEMMAS = "all-of data-length handed-over is-limits is-nothing is-unknown lists-ok name-ok node-for on-plaque stamp-at visit-alone".split()
OTHERWISE = {it: it.replace("-", "_") + "_lem" for it in LEMMAS}
# lemmas that port.py has in snake case already, beside a definition of that name: in these folders alone
TURNED = {it: it + "_lem" for it in ("number_ok", "node_at")}
TURNED_IN = re.compile(r"crates/(fields|numbers)/proofs/")


def snake(name):
    out = re.sub(r"(?<!^)([A-Z])", lambda m: "_" + m[1].lower(), name)
    return out.replace("-", "_")


def lemma_files(crate):
    for top in ("specs", "proofs"):
        for folder, dirs, files in os.walk(os.path.join(crate, top)):
            dirs.sort()
            for f in sorted(files):
                if f.endswith(".antt") and (f not in ("Proof.antt", "Answers.antt", "Invariants.antt", "Lib.antt") or (f == "Answers.antt" and folder == os.path.join(crate, top))):
                    yield os.path.join(folder, f)


def read(path):
    with open(path, encoding="utf-8") as f:
        text = f.read()
    # (where they have their new name already, the plain one is the definition's)
    is_first = TURNED_IN.search(path) and not any(it in text for it in TURNED.values())
    return turn(text, TURNED) if is_first else text


IMPORTED = re.compile(r"(?:ghost |pub )*use ([^\s{]+?)\.\{([^}]*)\}")


def of_libraries(root):
    """The names that some file takes from a library: they are no names of this repository's."""
    crates = os.path.join(root, "crates")
    own = tuple(f"Rattle.{it}." for it in os.listdir(crates))
    out = set()
    for folder, dirs, files in os.walk(crates):
        dirs[:] = sorted(d for d in dirs if d != "out")
        for f in files:
            if f.endswith((".rt", ".antt")):
                for module, names in IMPORTED.findall(read(os.path.join(folder, f))):
                    if not module.startswith(own):
                        out |= {word for it in names.split(",") for word in it.split()}
    return out


def renamed_in(root):
    table, taken = {}, {}
    crates = os.path.join(root, "crates")
    imported = of_libraries(root)
    for crate in sorted(os.listdir(crates)):
        for path in lemma_files(os.path.join(crates, crate)):
            text = re.sub(r"--.*", "", read(path))
            for name in {*DECLARED.findall(text), *CONSTRUCTOR.findall(text)}:
                if name[0].isupper() or not re.fullmatch(r"[a-z][A-Za-z0-9_'-]*", name) or MADE.fullmatch(name) or name in imported:
                    continue
                taken.setdefault((path, name), None)
                new = OTHERWISE.get(name, snake(name))
                if new != name:
                    table[name] = new
    # the parts of an operator stand alone where it is used
    table |= {"◌orElse◌": "◌or_else◌", "orElse": "or_else", "◌isFor◌": "◌is_for◌", "isFor": "is_for"}
    return table, taken


def falls_together(table, taken):
    """The names of one file that would become one, and those that are another of the repository's names already."""
    bad = []
    by_file = {}
    for path, name in taken:
        by_file.setdefault(path, {}).setdefault(table.get(name, name), set()).add(name)
    for path, news in sorted(by_file.items()):
        bad += [f"{path}: {', '.join(sorted(olds))} would all be {new}" for new, olds in news.items() if len(olds) > 1]
    all_names = {}
    for path, name in taken:
        all_names.setdefault(table.get(name, name), set()).add(name)
    bad += [f"look: {', '.join(sorted(olds))} in several files would all be {new}" for new, olds in sorted(all_names.items()) if len(olds) > 1]
    return bad


def turn(text, table):
    return TOKEN.sub(lambda m: table.get(m[0], m[0]), text)


def turn_rt(text, table):
    out = []
    for line in text.split("\n"):
        code, mark, comment = line.partition("//")
        if code.lstrip().startswith("ghost use"):
            code = turn(code, table)
        else:
            code = re.sub(r"(?<![\w'])[a-z][A-Za-z0-9]*[A-Z][A-Za-z0-9]*'*(?![\w])", lambda m: table.get(m[0], m[0]), code)
        comment = re.sub(r"`([^`]*)`", lambda m: "`" + turn(m[1], table) + "`", comment)
        out.append(code + mark + comment)
    return "\n".join(out)


def turn_edit(text, table):
    is_rt = re.search(r"^file: \S+\.rt", text, re.M)
    lines = []
    for line in text.split("\n"):
        key, colon, rest = line.partition(": ")
        lines.append(key + colon + (turn_rt(rest, table) if is_rt else turn(rest, table)) if key in ("old", "new") else line)
    return "\n".join(lines)


def turn_page(text, table):
    return re.sub(r"`([^`\n]*)`", lambda m: "`" + turn(m[1], table) + "`", text)


def main(argv):
    check = "--check" in argv
    argv = [it for it in argv if it != "--check"]
    root = argv[0] if argv else "."
    table, taken = renamed_in(root)
    bad = falls_together(table, taken)
    print("\n".join(bad))
    if check:
        print("\n".join(f"{old} {new}" for old, new in sorted(table.items())))
    if [it for it in bad if not it.startswith("look:")]:
        return 1
    n = 0
    for folder, dirs, files in os.walk(root):
        dirs[:] = sorted(d for d in dirs if d not in ("out", ".git"))
        for f in sorted(files):
            path = os.path.join(folder, f)
            if f in ("PORT.md", "respell.py") or not f.endswith((".rt", ".antt", ".edit", ".md")):
                continue
            old = read(path)
            new = {".rt": turn_rt, ".antt": turn, ".edit": turn_edit, ".md": turn_page}[os.path.splitext(f)[1]](old, table)
            if new != old:
                n += 1
                if not check:
                    with open(path, "w", encoding="utf-8") as it:
                        it.write(new)
    print(f"respell: {len(table)} names, {n} files")
    return 0


if __name__ == "__main__":
    raise SystemExit(main(sys.argv[1:]))
