"""Tries .ci/prose.py, for .ci/tools: a page with each fault is reported at its line, and a page without one passes."""
import os
import shutil

# What the scratch folder has beside its pages: the checks, a script, a file of a crate and one that a page links to.
CHECKS_OF_PAGES = ("prose.py", "references.py", "common.py")
FILES = {
    "tools/graph": "#!/usr/bin/env bash\n",
    "crates/step_rule/src/rules.rt": "pub fn agreed_step(replies: &[Reply]) -> Step {}\n",
    "crates/step_rule/specs/Offers.antt": "IsAgreed : Type\n",
    "crates/trace_csv/src/row.rt": "pub fn row_text() {}\n",
    "docs/OTHER.md": "# Other\n\n## Twice\n\n## Twice\n\n## A `name`, and more: [this](OTHER.md)\n",
}

# A page at its limits, and with all that a page may have.
LONG = "word " * 39
RIGHT = f"""# A page

{LONG}end.
{LONG}end: {LONG}

- {LONG}
- [A file](OTHER.md), [a heading](OTHER.md#twice), [another](OTHER.md#twice-1), [a third](OTHER.md#a-name-and-more-this).
- [Here](#a-page), [far](https://x.y/#z).

| `puts` | {LONG} | {LONG} |
|---|---|---|
| {LONG} | to put together | `behind \\| besides` |

`step_rule` has `agreed_step` in `src/rules.rt`, `crates/step_rule/specs/Offers.antt`, rules.rt, `crates/CRATE/src`.
`crates/step_rule/{{src,specs}}` and OTHER.md are there.

```
A block has {LONG * 20} and puts what it wants.
```

```sh if nowhere
# a comment's quote
tools/graph \\
  nowhere
nowhere | tools/graph <<'END'
nothing of this is a command
END
count=$(echo 1) && echo "
nor is this"
own() {{ echo; }}
own
```
"""

# Faults: what a line of a page is, and what is said of it.
LINES = (
    ("[a](OTHER.md)" + ". [a](OTHER.md)" * 33, "a line of 508 characters: split it, at most 500 are allowed"),
    (f"{LONG}of words", "a sentence of 203 characters: write several, at most 200 are allowed: " + LONG[:50] + ".."),
    (f"| cell | {LONG}of words |", "a sentence of 203 characters: write several, at most 200 are allowed: " + LONG[:50] + ".."),
    (f"{LONG}.\n{LONG}.\n{LONG}.\nthe end of it", "a paragraph of 604 characters: split it, at most 600 are allowed"),
    ("It puts `x` there.", '"puts" has a sense of its own here: write prints, writes or adds'),
    ("The reader is told of it.", '"is told" has a sense of its own here: write is reported, is stated or receives'),
    ("- It stands in a file.", '"stands in" has a sense of its own here: write is in, depends on or follows'),
    ("| Besides | it |", '"Besides" has a sense of its own here: write also'),
    ("[no file](NOWHERE.md)", "the link NOWHERE.md leads to no file: name one that exists"),
    ("[no heading](OTHER.md#thrice)", "docs/OTHER.md has no heading with the anchor #thrice: link to one that it has"),
    ("[no third](OTHER.md#twice-2)", "docs/OTHER.md has no heading with the anchor #twice-2: link to one that it has"),
    ("[a line](OTHER.md#L3)", "the link OTHER.md#L3 leads to a line's number, which changes: link to a heading or to the file"),
    ("`tools/nowhere`", "there is no file tools/nowhere: name one that exists"),
    ("`step_rule/src/row.rt`", "there is no file crates/step_rule/src/row.rt: name one that exists"),
    ("`src/row.rt` of `step_rule`", "there is no file src/row.rt in step_rule: name one that exists, and its crate"),
    ("nowhere.rt", "there is no file nowhere.rt in crates: name one that exists, and its crate"),
    ("NOWHERE.md", "there is no page NOWHERE.md: name one that exists"),
    ("`agreed_steps`", "no file of a crate has the word agreed_steps: name what the code has"),
    ("`Reply::IsAgreedOn`", "no file of a crate has the word IsAgreedOn: name what the code has"),
    ("```sh\ntools/nowhere x\n```", "tools/nowhere is no script of the repository: begin with one that exists"),
    (
        "```sh\nx=1 no-such-tool | cat\n```",
        "there is no tool no-such-tool: begin with a script or a tool, or name the tool in the fence: sh if no-such-tool",
    ),
)

PAGE = "docs/TESTING.md"


def written_pages(trial):
    """.ci/prose.py reports each fault of a page at its line, and no fault of a page that has none."""
    folder = os.path.join(trial.work, "pages")
    os.makedirs(os.path.join(folder, ".ci"))
    for name in CHECKS_OF_PAGES:
        shutil.copy(os.path.join(".ci", name), os.path.join(folder, ".ci"))
    for path, text in FILES.items():
        write(folder, path, text)
    os.chmod(os.path.join(folder, "tools/graph"), 0o755)

    def judge(text, *words):
        write(folder, PAGE, text)
        return trial.call(["python3", ".ci/prose.py", *words], folder=folder, LC_ALL="C")

    trial.tally.compare("a right page", judge(RIGHT, PAGE), (0, b"", b"5 passed, 0 failed\n"))
    trial.tally.compare("all pages", judge(RIGHT), (0, b"", b"10 passed, 0 failed\n"))
    trial.tally.compare("no page", judge(RIGHT, "docs/NOWHERE.md"), (2, b"", b"there is no page docs/NOWHERE.md\n"))
    for text, wrong in LINES:
        line = 3 + text.startswith("```")
        wanted = f"{PAGE}:{line}: {wrong}\n4 passed, 1 failed\n"
        trial.tally.compare(f"a page with {text[:40]!r}", judge(f"# A page\n\n{text}\n", PAGE), (1, b"", wanted.encode()))


def write(folder, path, text):
    """Writes a file of the folder, with the folders above it."""
    path = os.path.join(folder, path)
    os.makedirs(os.path.dirname(path), exist_ok=True)
    with open(path, "w", encoding="utf-8") as file:
        file.write(text)


CHECKS = (written_pages,)
