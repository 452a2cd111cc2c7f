#!/usr/bin/env python3
"""Writes the completion for bash of an installation, made of what `--help` writes of each command.

    bin/parts/completion.py PREFIX

It goes to PREFIX/share/bash-completion/completions, a file a command. Behind a word that no option fits, bash completes files.
"""
import sys
from pathlib import Path

sys.dont_write_bytecode = True
import helptext  # noqa: E402
import manual  # noqa: E402

ONE = """# Completion of {name} for bash, made of its --help.
_{function}() {{
    COMPREPLY=()
    case ${{COMP_WORDS[COMP_CWORD]}} in
    -*) mapfile -t COMPREPLY < <(compgen -W '{options}' -- "${{COMP_WORDS[COMP_CWORD]}}") ;;
    esac
}}
complete -o default -F _{function} {name}
"""
MANY = """# Completion of snl for bash, made of its --help: first its words, and behind a word the options of that.
_snl() {{
    local at found='{options}' word=
    for at in "${{COMP_WORDS[@]:1:COMP_CWORD-1}}"; do
        case $at in
        {words}) word=$at && break ;;
        esac
    done
    case $word in
{cases}
    esac
    COMPREPLY=()
    case $word,${{COMP_WORDS[COMP_CWORD]}} in
    ,* | *,-*) mapfile -t COMPREPLY < <(compgen -W "$found" -- "${{COMP_WORDS[COMP_CWORD]}}") ;;
    esac
}}
complete -o default -F _snl snl
"""


def options(told):
    """The options of a help, without their values."""
    return [option.split()[0] for written, _ in told.lists.get("options", ()) for option in written.split(", ")]


def of_snl(program):
    """The completion of snl, which has words."""
    words = [word for word, _ in helptext.read(helptext.help_of(program)).lists["words"]]
    rows = []
    for word in words:
        rows.append(f"    {word}) found='{' '.join(options(helptext.read(helptext.help_of(program, word))))}' ;;")
    return MANY.format(options=" ".join([*words, "--help", "--version"]), words=" | ".join(words), cases="\n".join(rows))


def of_command(name, program):
    """The completion of a command that has options alone."""
    told = helptext.read(helptext.help_of(program))
    return ONE.format(name=name, function=name.replace("-", "_"), options=" ".join(options(told)))


def main(prefix):
    prefix = Path(prefix)
    folder = prefix / "share/bash-completion/completions"
    folder.mkdir(parents=True, exist_ok=True)
    for name in manual.programs():
        program = prefix / "bin" / name
        (folder / name).write_text(of_snl(program) if name == "snl" else of_command(name, program))
    for name, (path, _) in manual.SCRIPTS.items():
        (folder / name).write_text(of_command(name, prefix / "lib/snlrun" / path))


if __name__ == "__main__":
    main(*sys.argv[1:])
