#!/usr/bin/env python3
"""Writes what crnsim's proofs state as one page to cite, docs/STATEMENT.md: tools/statement.py.

The page has README's sentence, its five contracts with all their clauses as they stand in the source, the meaning of each
definition that a clause names, README's list of what is trusted, and the kit.
"""
import re
import subprocess

from definitions import Repository, clauses_of, is_statement

PAGE = "docs/STATEMENT.md"
HEAD = """# The statement

What is proved of crnsim, to be cited with a commit. `tools/statement.py` writes this page from the contracts and from README, and
the gate compares it. [READING](READING.md) says how a clause is read, [DEFINITIONS](DEFINITIONS.md) has all definitions.
"""
# A link of README to a file below docs/, and any other to a file of the repository.
LINKS = ((r"\]\(docs/", "]("), (r"\]\((?!\w+:|#|[A-Z]+\.md)", "](../"))


def section_of(readme, heading):
    """The text of README below a heading, up to the next one, with links that lead from docs/."""
    text = re.search(rf"^#+ {heading}\n\n(.*?)\n\n#", readme, re.MULTILINE | re.DOTALL)[
        1
    ]
    for link, other in LINKS:
        text = re.sub(link, other, text)
    return text


def contract_of(repository, node, told):
    """The lines on a contract: its clauses, and the meanings of the definitions that these name and no line above."""
    yield from [
        "```",
        *clauses_of(repository, node, "requires|ensures"),
        *facts_of(repository, node),
        "```",
        "",
    ]
    named = [
        it
        for it in repository.edges[node] & {*repository.definitions}
        if is_statement(it[3]) and it not in told
    ]
    for it in sorted(named, key=lambda it: (*it[1:3], repository.definitions[it].line)):
        yield f"- `{it[3]}`: {repository.meaning(it)}"
    told.update(named)


def facts_of(repository, node):
    """The facts that types of a function's own crate keep, of those that its signature names."""
    types = sorted(
        it for it in repository.edges[node] if it and it[:2] == ("type", node[1])
    )
    for _, crate, module, name in types:
        file = (
            repository.top
            / f"crates/{crate}/src/{module.replace('.', '/') or 'lib'}.rt"
        )
        text = file.read_text(encoding="utf-8")
        fields = re.search(
            rf"^pub (?:struct|enum) {name}\b.*?^}}", text, re.MULTILINE | re.DOTALL
        )
        facts = re.findall(
            r"^ +pub (ghost \w+: \{.*\}),$", fields[0] if fields else "", re.MULTILINE
        )
        yield from (f"{name}: {fact}" for fact in facts)


def page_of(repository, version):
    """The text of the page, with the kit that `rt version` names."""
    readme = (repository.top / "README.md").read_text(encoding="utf-8")
    kit, _, logic = version.strip().partition(" logic ")
    public, told = dict(repository.public()), set()
    sentence = re.search(r"^(?:> [^\n]*\n)+", readme, re.MULTILINE)[0]
    proved = f"Each function is proved by `{kit}`, whose logic has the sum `{logic}`. Five contracts carry the sentence:"
    lines = [HEAD, sentence, proved]
    contract = r"^- `(crn[\w:]+)`: (.*?)(?=\n- |\n\n)"
    contracts = re.findall(
        contract, section_of(readme, "Proofs"), re.MULTILINE | re.DOTALL
    )
    for path, meaning in contracts:
        said = re.sub(r"^  ", "", meaning[0].upper() + meaning[1:], flags=re.MULTILINE)
        contract = "\n".join(contract_of(repository, public[path], told)).rstrip()
        lines += ["", f"## `{path}`", "", said, "", contract]
    return "\n".join(
        [
            *lines,
            "",
            "## What is trusted",
            "",
            section_of(readme, "What is trusted"),
            "",
        ]
    )


def main():
    """Writes the page."""
    repository = Repository()
    version = subprocess.check_output(["rt", "version"], text=True)
    (repository.top / PAGE).write_text(page_of(repository, version), encoding="utf-8")


if __name__ == "__main__":
    main()
