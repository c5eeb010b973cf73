"""What tools/install and tools/package share: the program, and the help that is installed beside both commands."""
import os
import subprocess
from pathlib import Path

from manual import commands_of, help_of, pages_of

TOP = Path(__file__).resolve().parent.parent
# Where the completions of a command are, below PREFIX.
COMPLETIONS = {
    "bash": "share/bash-completion/completions/{}",
    "zsh": "share/zsh/site-functions/_{}",
    "fish": "share/fish/vendor_completions.d/{}.fish",
}
# The completions of the program: its commands, and names of files after them.
BASH = """_crnsim() {{
    if ((COMP_CWORD == 1)) || [[ $COMP_CWORD == 2 && ${{COMP_WORDS[1]}} == help ]]; then
        mapfile -t COMPREPLY < <(compgen -W '{words} --help' -- "${{COMP_WORDS[COMP_CWORD]}}")
    fi
}}
complete -o default -F _crnsim crnsim
"""
ZSH = """#compdef crnsim
local commands=(
{lines}
)
if ((CURRENT == 2)) || [[ $CURRENT == 3 && $words[2] == help ]]; then _describe command commands; else _files; fi
"""
FISH = """complete -c crnsim -n __fish_use_subcommand -f
{lines}
"""


class Refused(Exception):
    """It can't be installed, removed or packed. The text says why."""


def run(*words, **how):
    """Runs a command, and returns its standard output. What it says otherwise is shown."""
    streams = {"stdin": subprocess.DEVNULL, "stdout": subprocess.PIPE, "text": True}
    ran = subprocess.run(list(map(str, words)), check=False, **streams, **how)
    if ran.returncode != 0:
        raise Refused(
            f"this failed, with status {ran.returncode}: {' '.join(map(str, words))}"
        )
    return ran.stdout


def program_of(named):
    """Returns the program that is installed; builds that of the repository."""
    if named is None:
        run(TOP / "tools" / "crnsim", "help")
    path = Path(named or TOP / "crates" / "crnsim" / "out" / "crnsim").absolute()
    if not os.access(path, os.X_OK):
        raise Refused(f"there is no program {path}")
    return path


def quoted(text):
    """Returns a text as a word of a shell."""
    return "'" + text.replace("'", "'\\''") + "'"


def program_completions(commands):
    """Returns the completions of the program for each shell, from the lines on its commands."""
    zsh = "\n".join(
        f"    {quoted(f'{name}:{line}')}" for name, line in commands.items()
    )
    fish = "\n".join(
        f"complete -c crnsim -n __fish_use_subcommand -f -a {name} -d {quoted(line)}"
        for name, line in commands.items()
    )
    bash = BASH.format(words=" ".join(commands))
    return {"bash": bash, "zsh": ZSH.format(lines=zsh), "fish": FISH.format(lines=fish)}


def texts_of(program, crnplan):
    """Returns the texts that are installed, by their paths below PREFIX."""
    pages = pages_of(program, "crnsim") | pages_of(crnplan, "crnplan")
    texts = {f"share/man/man1/{name}": text for name, text in pages.items()}
    ours = program_completions(
        {**commands_of(help_of(program)), "help": "Prints the help of a command"}
    )
    for shell, path in COMPLETIONS.items():
        texts[path.format("crnsim")] = ours[shell]
        texts[path.format("crnplan")] = run(
            crnplan, env={**os.environ, "_CRNPLAN_COMPLETE": f"{shell}_source"}
        )
    zsh = COMPLETIONS["zsh"].format("crnplan")
    if "loadautofunc" not in texts[zsh]:
        # The first time, zsh calls the file itself. Older versions of click only define their function there.
        texts[zsh] += '_crnplan_completion "$@"\n'
    return texts
