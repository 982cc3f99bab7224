"""What the program's help and docs/FORMATS.md list, as tables: what pages and completion are made of, and what the rows compare them with."""
import os
import re
import subprocess

TOP = os.path.dirname(os.path.dirname(os.path.realpath(__file__)))
SECONDS = 60


def said(program, *words):
    """What the program prints; an error if it ends with another status than 0."""
    ran = subprocess.run([program, *words], stdin=subprocess.DEVNULL, capture_output=True, text=True, timeout=SECONDS)
    if ran.returncode:
        raise RuntimeError(f"{' '.join([program, *words])}: status {ran.returncode}, {ran.stderr.strip()}")
    return ran.stdout


def items(lines):
    """Indented lines as pairs: a word, and its text after two spaces; a line that begins further in goes on the last one."""
    found = []
    for line in lines:
        word, _, text = line.strip().partition("  ")
        if line.startswith(" " * 10) and found and not word.startswith("-"):
            found[-1] = (found[-1][0], f"{found[-1][1]} {line.strip()}".strip())
        else:
            found.append((word, text.strip()))
    return found


class Help:
    """The help of the program, or of one of its subcommands, by its parts."""

    def __init__(self, program, *words):
        self.usage, self.arguments, self.options, self.subcommands, self.verbs = [], [], [], [], []
        self.statuses, self.paragraphs, self.examples, self.remarks = [], [], [], []
        blocks = [it for it in said(program, *words, "--help").split("\n\n") if it.strip()]
        self.title = blocks[0].strip()
        for block in blocks[1:]:
            self.take(block.strip("\n").split("\n"))

    def take(self, lines):
        """Takes one block, by its first line."""
        head = lines[0]
        if head.startswith("Usage: "):
            self.usage = [it.removeprefix("Usage:").strip() for it in lines]
        elif head.startswith("Arguments:"):
            self.arguments = items(lines[1:])
        elif head.startswith("Options:"):
            self.options = items(lines[1:])
        elif head.startswith("Subcommands"):
            self.subcommands = items(lines[1:])
        elif head.startswith("Verbs"):
            self.verbs = [it.strip() for it in lines[1:]]
        elif head.startswith("For example:"):
            self.examples = [it.strip() for it in lines[1:]]
        else:
            self.say(" ".join(it.strip() for it in lines))

    def say(self, text):
        """Takes a paragraph; the part after its words 'Exit statuses:' are statuses."""
        before, found, after = text.partition("Exit statuses: ")
        if before.strip():
            (self.remarks if self.examples else self.paragraphs).append(before.strip())
        if found:
            self.statuses = statuses_in(after)

    def option_words(self):
        """The options alone, without what stands for their values; a subcommand that lists none has those of its usage."""
        listed = re.findall(r"(?<![\w-])--?[a-z][a-z-]*", " ".join(word for word, _ in self.options))
        return listed or sorted(set(re.findall(r"(?<=\s)--[a-z][a-z-]*", " ".join(self.usage))))


def statuses_in(text):
    """Statuses as one line lists them: '0 done; 1 refused, ..; 2 wrong words.'"""
    parts = re.split(r"; (?=\d )", text.strip().rstrip("."))
    return [(it.partition(" ")[0], it.partition(" ")[2]) for it in parts]


class Formats:
    """docs/FORMATS.md, by the titles of its sections."""

    def __init__(self, path=f"{TOP}/docs/FORMATS.md"):
        self.sections = {}
        with open(path, encoding="utf-8") as file:
            text = file.read()
        for part in re.split(r"^## ", text, flags=re.M)[1:]:
            title, _, body = part.partition("\n")
            self.sections[title.strip()] = body.strip("\n")

    def section(self, title):
        """The text of a section; the part of its title in brackets may be left out."""
        for found, body in self.sections.items():
            if found == title or found.startswith(f"{title} ("):
                return body
        raise RuntimeError(f"docs/FORMATS.md has no section {title}")

    def rules(self, subcommand):
        """What "The program" says of a subcommand: from the paragraph that begins with it up to the next one's; nothing where none does."""
        kept, inside = [], False
        for paragraph in self.section("The program").split("\n\n"):
            if paragraph.startswith("`umd ") or paragraph.startswith("Each subcommand"):
                inside = paragraph.startswith(f"`umd {subcommand} ")
            if inside:
                kept.append(paragraph)
        return "\n\n".join(kept)

    def statuses(self, subcommand):
        """The exit statuses that "The program" lists for a subcommand in one sentence; none if it doesn't."""
        found = re.search(r"Exit statuses: (.*?)(?:\.\s|\.?$)", " ".join(self.rules(subcommand).split()))
        return statuses_in(found.group(1)) if found else []

    def variables(self):
        """The variables that stand for an option, each with that and the subcommands that take it."""
        found, name = {}, None
        for paragraph in self.section("The program").split("\n\n"):
            begun = re.match(r"`umd ([a-z]+)", paragraph)
            name = begun.group(1) if begun else name
            for option, variable in re.findall(r"given\s+by\s+`(--[a-z-]+)`\s+or\s+else\s+by\s+(?:the\s+variable\s+)?`(UMD_[A-Z_]+)`", paragraph):
                found.setdefault((variable, option), []).append(name)
        return [(variable, option, names) for (variable, option), names in sorted(found.items())]

    def verbs(self):
        """The verbs that a served store knows, as the table of requests has them, each with its line there."""
        found = {}
        for line in self.section("Requests").split("\n"):
            cells = [it.strip() for it in line.strip("|").split("|")]
            if line.startswith("| tick"):
                break
            if line.startswith("| ") and cells[0] != "verb":
                found.update((verb, cells) for verb in cells[0].split(", "))
        return found
