"""The texts of a commit or of the working tree, and which of their characters are code, comment, or string."""
import io
import os
import re
import subprocess
import tokenize

TOP = os.path.dirname(os.path.dirname(os.path.realpath(__file__)))

# What a token of a Rattle text begins with, in the order in which they are tried.
RUST = re.compile(
    r"""(?P<comment>//[^\n]*)
    |(?P<block>/\*.*?\*/)
    |(?P<string>b?r\#".*?"\#|b?r"[^"]*"|b?"(?:[^"\\]|\\.)*"|(?<!\w)b?'(?:[^'\\\n]|\\[^u\n]|\\u\{[0-9a-fA-F]+\}|\\x[0-9a-fA-F]{2})'(?!\w))""",
    re.DOTALL | re.VERBOSE,
)
ANTT = re.compile(r"""(?P<comment>(?<!\S)--(?=\s)[^\n]*)|(?P<string>"(?:[^"\\]|\\.)*")""", re.DOTALL)
SHELL = re.compile(
    r"""(?P<comment>(?:(?<=\s)|(?<![\s\S]))\#[^\n]*)
    |(?P<here><<-?\s*(?P<quote>['"]?)(?P<mark>\w+)(?P=quote)[^\n]*\n.*?^\t*(?P=mark)$)
    |(?P<string>'[^']*'|"(?:[^"\\]|\\.)*"|\\.)""",
    re.DOTALL | re.VERBOSE | re.MULTILINE,
)


def is_commit(name):
    """Whether the repository has a commit of this name."""
    return not subprocess.run(["git", "rev-parse", "-q", "--verify", f"{name}^{{commit}}"], cwd=TOP, capture_output=True).returncode


def files_of(commit, pattern):
    """The texts of the files whose paths match, by their paths: of a commit, or of the working tree where it is None."""
    if not commit:
        listed = subprocess.run(["git", "ls-files", "-co", "--exclude-standard"], cwd=TOP, capture_output=True, text=True, check=True).stdout.splitlines()
        paths = [it for it in sorted({*listed}) if re.fullmatch(pattern, it) and os.path.isfile(f"{TOP}/{it}")]
        found = {}
        for path in paths:
            with open(f"{TOP}/{path}", encoding="utf-8") as file:
                found[path] = file.read()
        return found
    listed = subprocess.run(["git", "ls-tree", "-r", "--name-only", commit], cwd=TOP, capture_output=True, text=True, check=True).stdout.splitlines()
    paths = [it for it in listed if re.fullmatch(pattern, it)]
    wanted = "".join(f"{commit}:{path}\n" for path in paths)
    got = subprocess.run(["git", "cat-file", "--batch"], cwd=TOP, input=wanted.encode(), capture_output=True, check=True).stdout
    found, at = {}, 0
    for path in paths:
        end = got.index(b"\n", at)
        size = int(got[at:end].split()[2])
        found[path] = got[end + 1 : end + 1 + size].decode()
        at = end + size + 2
    return found


def parts(text, form):
    """The comments and strings of a text, each as its kind, begin and end; the form is RUST, ANTT or SHELL."""
    for it in form.finditer(text):
        kind = it.lastgroup if it.lastgroup in ("comment", "block") else "string"
        yield kind, it.start(), it.end()


def blanked(text, kinds, form):
    """The text with spaces in the place of these kinds of parts; each line stays where it was."""
    made, at = [], 0
    for kind, begin, end in parts(text, form):
        if kind in kinds:
            made += [text[at:begin], re.sub(r"[^\n]", " ", text[begin:end])]
            at = end
    return "".join([*made, text[at:]])


def comment_lines(text, form):
    """The comments of a text as pairs: the number of a line, and what the comment says on it."""
    for kind, begin, end in parts(text, form):
        if kind in ("comment", "block"):
            line = text.count("\n", 0, begin) + 1
            for further, said in enumerate(text[begin:end].split("\n")):
                yield line + further, re.sub(r"^\s*(//[/!]?|/\*+|\*+/|--+|#+)", "", said)


def python_comment_lines(text):
    """The same of a Python text: its `#` comments and its docstrings."""
    begins_block = True
    for it in tokenize.generate_tokens(io.StringIO(text).readline):
        if it.type == tokenize.COMMENT:
            if not it.string.startswith("#!"):
                yield it.start[0], it.string.lstrip("#")
        elif it.type == tokenize.STRING and begins_block:
            for further, said in enumerate(it.string.strip("rbu").strip("\"'").split("\n")):
                yield it.start[0] + further, said
        if it.type not in (tokenize.NL, tokenize.COMMENT, tokenize.ENCODING):
            begins_block = it.type in (tokenize.NEWLINE, tokenize.INDENT, tokenize.DEDENT)


def document_lines(text):
    """The prose of a document as pairs of a number of a line and the line: without fenced and indented blocks, which quote programs."""
    fence, was_empty, in_block = None, True, False
    for number, line in enumerate(text.split("\n"), 1):
        begins = re.match(r"\s*(```+|~~~+)", line)
        if fence or begins:
            if not fence:
                fence = begins[1]
            elif line.strip() == fence:
                fence = None
            continue
        in_block = bool(re.match(r"    |\t", line)) and (was_empty or in_block)
        was_empty = not line.strip()
        if not in_block and not was_empty:
            yield number, line
