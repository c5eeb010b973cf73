"""Reads the wrong implementations: crates/NAME/wrong/*.edit and crates/NAME/tested/*.edit.

An edit changes lines of a crate's code. Its head says what goes wrong then and which function's proof must fail:

    what: An order is placed at the reorder point, not only below it.
    refused by: period::order_for
    file: src/period.rt
    old: if position < terms.low {
    new: if position <= terms.low {

Each `old:` text stands exactly once in the file, on one line. Further pairs apply to what the earlier ones made. An
edit of one arm of a `match` can name it, as in `refused by: commands::answer_command, arm Leg`: then a goal of that arm
must be open, and edits of the other arms can share its check. An edit that adds a loop of which nothing shows that it
ends says `refused by: producer::Producer::try_publish, measure`: the prover asks for the measure of that loop.

An edit of tested/ is proved, since no contract refuses it. It says which test must fail in place of `refused by`:

    what: `leave` stores nothing, so the producer waits for ever for a reader that has left.
    seen by: tests_ring ring::rows::a_reader_that_leaves_gates_no_more

That is a test of a crate of tests, by its name, or tests by pytest. These have a second line with a text that one of
the lines `FAILED ..` must contain, so that they fail for the right reason:

    seen by: pytest tests/hostile/test_refusals.py -k leg
    fails: no refusal

It may also be a command of the repository with PROGRAM for the built program.

Such an edit may also change files of proofs/, so that the crate is proved with it.

tools/by_hand.toml lists, by crate, the edits after which an answer of the function no longer fits its goal. No goal is shown
to be open then. So the list says what the goal claims that is false.
"""
import collections
import functools
import glob
import os
import re
import tomllib

TOP = os.path.dirname(os.path.dirname(os.path.abspath(__file__)))
FUNCTION = re.compile(r"( *)(?:pub(?:\([^)]*\))? )?(?:(?:const|unsafe|final) )*fn \w")

# The folders of a crate that have edits. The prover refuses those of the first; tests see the others.
FOLDERS = ("wrong", "tested")

BY_HAND = "tools/by_hand.toml"

Edit = collections.namedtuple(
    "Edit", "crate folder name what refused_by arm measure seen_by fails by_hand pairs"
)


class BadEdit(Exception):
    """An edit that cannot be applied."""


def crates():
    """Returns the crates of crates.txt, in its order."""
    with open(f"{TOP}/crates.txt", encoding="utf-8") as file:
        return [
            line.split(":")[0]
            for line in file
            if ":" in line and not line.startswith("#")
        ]


@functools.cache
def reasons():
    """Reads the list of edits that are judged by hand: for each crate the reasons, by the names of the edits."""
    if not os.path.exists(f"{TOP}/{BY_HAND}"):
        return {}
    with open(f"{TOP}/{BY_HAND}", "rb") as file:
        return tomllib.load(file)


def edits_of(crate, folder="wrong"):
    """Reads the edits in a folder of a crate."""
    return [
        read_edit(crate, folder, path)
        for path in sorted(glob.glob(f"{TOP}/crates/{crate}/{folder}/*.edit"))
    ]


def read_edit(crate, folder, path):
    """Reads one edit. Its pairs are of a file, the old text and the new one."""
    head, pairs, file, old = {}, [], "", ""
    with open(path, encoding="utf-8") as text:
        lines = text.read().split("\n")
    for line in lines:
        word, _, rest = line.partition(":")
        rest = rest.removeprefix(" ")
        if word in ("what", "refused by", "seen by", "fails"):
            head.setdefault(word, rest.strip())
        elif word == "file":
            file = rest.strip()
        elif word == "old":
            old = rest
        elif word == "new":
            pairs.append((file, old, rest))
    name = os.path.basename(path).removesuffix(".edit")
    function, _, part = head.get("refused by", "").partition(", ")
    arm = part.removeprefix("arm ") if part.startswith("arm ") else ""
    by_hand = "" if folder == "tested" else reasons().get(crate, {}).get(name, "")
    return Edit(
        crate,
        folder,
        name,
        head.get("what", ""),
        function,
        arm,
        part == "measure",
        head.get("seen by", ""),
        head.get("fails", ""),
        by_hand,
        pairs,
    )


def text_of(crate, file):
    """Reads a file of a crate."""
    with open(f"{TOP}/crates/{crate}/{file}", encoding="utf-8") as text:
        return text.read()


def texts_of(edit):
    """Returns the texts of the files that an edit changes, by file, before and after it."""
    before, after = {}, {}
    places = ("src/", "proofs/") if edit.folder == "tested" else ("src/",)
    for file, old, new in edit.pairs:
        if not file.startswith(places) or not os.path.isfile(
            f"{TOP}/crates/{edit.crate}/{file}"
        ):
            raise BadEdit(
                f"it changes '{file}', which is no file of {' or '.join(places)}"
            )
        if file not in before:
            before[file] = after[file] = text_of(edit.crate, file)
        count = after[file].count(old) if old else 0
        if count != 1:
            raise BadEdit(
                f"its text '{old.strip()}' stands {count} times in {file}, and not once"
            )
        after[file] = after[file].replace(old, new)
    if after == before:
        raise BadEdit("it changes nothing")
    return before, after


def changes_of(edit):
    """Returns the lines that an edit changes, by their file and number, each with its new text."""
    before, after = texts_of(edit)
    changes = {}
    for file, text in after.items():
        pairs = enumerate(zip(before[file].split("\n"), text.split("\n")))
        changes |= {(file, number): new for number, (old, new) in pairs if old != new}
    return changes


def bodies_of(text):
    """Returns for each line of a file of code the number of the line where the function begins whose body it stands in,
    or None outside the bodies. Reads the layout of `rt fmt`."""
    owners, head, indent, body = [], None, "", None
    for number, line in enumerate(text.split("\n")):
        if body is not None and line == indent + "}":
            head = body = None
        elif body is None and (found := FUNCTION.match(line)):
            head, indent = number, found[1]
        owners.append(body)
        if (
            body is None
            and head is not None
            and re.fullmatch(indent + r"(\S.*)?\{", line)
        ):
            body = head
    return owners


def functions_of(edit, changes):
    """Returns the functions whose bodies an edit changes, each as its file and first line; None stands for what lies
    outside them."""
    bodies = {file: bodies_of(text_of(edit.crate, file)) for file, _ in changes}
    owners = {(file, bodies[file][number]) for file, number in changes}
    return {None if number is None else (file, number) for file, number in owners}
