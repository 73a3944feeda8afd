"""Writes the lists of wrong programs in docs/CONTRACTS.md anew, from the must-fail edits; `docs/check` compares the page with them.

An edit's first line says what is wrong in the program and which fact fails, and its second line of what it is: `# Of:` with calls or
labels. A list stands at the end of each section whose heading names one of them, below the line `Refused:`. A * marks an edit of
specs/, so of a definition or a claim."""
import re
import textwrap
from pathlib import Path

ROOT = Path(__file__).resolve().parent.parent
PAGE = ROOT / "docs/CONTRACTS.md"
KEY = r"tc_\w+|\[[a-z0-9-]+\]"


def edits():  # of each edit its name, what is wrong, what it is of, and where it stands
    for path in sorted(ROOT.glob("crates/*/must-fail/*.edit")):
        lines = path.read_text().splitlines()
        wrong = re.fullmatch(r"# (.+)\. Fails: .+", lines[0])
        of = re.fullmatch(rf"# Of: ((?:{KEY})(?:, (?:{KEY}))*)", lines[1])
        mark = "*" if any(line.startswith("file: specs/") for line in lines) else ""
        yield f"{path.parts[-3]}/{path.stem}", mark, wrong[1] if wrong else "", of[1].split(", ") if of else []


def written(section, known):  # a section of the page with its list
    keys = re.findall(KEY, section.partition("\n")[0])
    text = section.partition("\nRefused:\n")[0].rstrip("\n")
    items = [f"- `{name}`{mark}: {wrong}." for name, mark, wrong, of in known if set(of) & set(keys)]
    wrapped = [textwrap.fill(item, 130, subsequent_indent="  ", break_long_words=False, break_on_hyphens=False) for item in items]
    return "\n\n".join([text, "Refused:\n\n" + "\n".join(wrapped)] if items else [text]) + "\n"


def page(text):  # the page with its lists, and the edits that stand in none
    known = [*edits()]
    head, *sections = re.split(r"^(?=##)", text, flags=re.M)
    keys = {key for section in sections for key in re.findall(KEY, section.partition("\n")[0])}
    return "\n".join([head.rstrip("\n") + "\n", *(written(section, known) for section in sections)]), [
        name for name, _, wrong, of in known if not wrong or not of or not set(of) <= keys
    ]


if __name__ == "__main__":
    text, homeless = page(PAGE.read_text())
    PAGE.write_text(text)
    raise SystemExit("\n".join(f"docs/CONTRACTS.md has no section for {name}" for name in homeless))
