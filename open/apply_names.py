#!/usr/bin/env python3
"""open/apply_names.py [--write] [--top FOLDER] TABLE: renames what the table lists in a working tree, and without --write says what it would change.

It prints a line for each row: how often the old name was replaced; and then what it can't decide by itself: calls of methods of one name whose types it
doesn't find, and names in documents that several crates have. It changes .rt and .antt files of all crates, the wrong bodies in must-fail/ and edits/, and
tools/in-turn-wrong/, names in backquotes in documents and comments, the names of files and folders, `mod` lines and crates.txt. tools/naming.py says what a
row means. Exit status: 0; 1 where a call is undecided, or a row replaces nothing; 2 for other words, or for a new name that is taken."""
import os
import subprocess
import sys

sys.dont_write_bytecode = True
TOP = os.path.dirname(os.path.dirname(os.path.realpath(__file__)))
sys.path.insert(0, f"{TOP}/tools")
import naming
import texts


def write(top, before, after, names):
    """Writes what changed; a file whose path changed is moved, with what else lies in a crate that is renamed."""
    moved = {}
    listed = subprocess.run(["git", "ls-files"], cwd=top, capture_output=True, text=True, check=True).stdout.splitlines()
    for path in listed:
        other = names.renamed_path(path)
        if other != path and os.path.isfile(f"{top}/{path}"):
            moved[path] = other
            os.makedirs(os.path.dirname(f"{top}/{other}"), exist_ok=True)
            os.rename(f"{top}/{path}", f"{top}/{other}")
            try:
                os.removedirs(os.path.dirname(f"{top}/{path}"))
            except OSError:
                pass
    for path, text in before.items():
        other = names.renamed_path(path)
        if after[other] != text:
            with open(f"{top}/{other}", "w", encoding="utf-8") as file:
                file.write(after[other])
    return moved


def main():
    words, is_write = sys.argv[1:], False
    if words == ["--help"]:
        print(__doc__)
        return 0
    if words[:1] == ["--write"]:
        is_write, words = True, words[1:]
    if words[:1] == ["--top"] and len(words) > 1:
        texts.TOP, words = os.path.realpath(words[1]), words[2:]
    if len(words) != 1 or words[0].startswith("-"):
        print(__doc__, file=sys.stderr)
        return 2
    rows = naming.read_table(words[0])
    before = texts.files_of(None, naming.PATHS)
    names = naming.Naming(before, rows)
    taken = names.taken()
    for row in taken:
        print(f"{row.crate or 'everywhere'}: {row.old} can't become {row.new}, which stands there already", file=sys.stderr)
    after = names.rename()
    if len(after) != len(before):
        print("two files would have one name", file=sys.stderr)
        return 2
    idle = 0
    for row in rows:
        print(f"{names.uses_of[row]:6}  {row.crate or '-':14} {row.kind or '-':10} {row.old} -> {row.new}")
        idle += not names.uses_of[row] and row.kind not in ("file", "module")
    for path, line, name, among, said in names.unsure:
        print(f"undecided: {path}:{line}: {name} of {', '.join(map(str, among))}: {said[:150]}")
    for path, line, name, word, new in names.mixed:
        print(f"look at: {path}:{line}: {name}: `{word}` may be the call, which is {new} now, or a variable, which stays")
    for path, line, name, among, said in names.by_hand:
        print(f"by hand: {path}:{line}: {said}: {name} of {', '.join(among)}")
    for path in names.collisions():
        print(f"look at: {path}")
    print(f"{len(rows)} rows, {idle} that replace nothing, {len(names.unsure)} undecided, {len(names.mixed)} to look at, "
          f"{len(names.by_hand)} in documents by hand, {len(taken)} taken")
    if is_write and not taken:
        write(texts.TOP, before, after, names)
    return 2 if taken else 1 if names.unsure or idle else 0


if __name__ == "__main__":
    sys.exit(main())
