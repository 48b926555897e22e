"""The completion of a shell for the tools, by both of their names: `oaut-tools completion`."""
from __future__ import annotations

import argparse
import typing

from . import passing

_HEAD = """\
# bash completion of oaut-tools, as `oaut-tools completion` prints it
_oaut_tools() {
    local word=${COMP_WORDS[COMP_CWORD]} path= words= it
    for it in "${COMP_WORDS[@]:1:COMP_CWORD-1}"; do
        case "$path $it" in
"""
_MIDDLE = """\
        esac
    done
    case $path in
"""
_TAIL = """\
    esac
    if [[ $words == --* && $word != -* ]]; then
        mapfile -t COMPREPLY < <(compgen -f -- "$word")
    else
        COMPREPLY=($(compgen -W "$words" -- "$word"))
    fi
}
complete -o filenames -F _oaut_tools oaut-tools
# the same for `python3 -m oaut`; other arguments of python3 are completed as before
_oaut_python() {
    if [[ ${COMP_WORDS[1]} == -m && ${COMP_WORDS[2]} == oaut ]] && ((COMP_CWORD > 2)); then
        local COMP_WORDS=(oaut-tools "${COMP_WORDS[@]:3}") COMP_CWORD=$((COMP_CWORD - 2))
        _oaut_tools
    elif declare -F _python > /dev/null; then
        _python "$@"
    fi
}
complete -o filenames -o bashdefault -o default -F _oaut_python python3
"""


def commands_of(
    parser: argparse.ArgumentParser,
) -> typing.Iterator[tuple[tuple[str, ...], list[str]]]:
    """Each command of a parser, as its words, with the commands and options that it takes."""
    own: list[str] = []
    options: list[str] = []
    for action in parser._actions:
        if isinstance(action, argparse._SubParsersAction):
            for name, below in action.choices.items():
                own.append(name)
                for words, offered in commands_of(below):
                    yield (name, *words), offered
        else:
            options += [it for it in action.option_strings if it.startswith("--")]
    yield (), own + options


def script(parser: argparse.ArgumentParser) -> str:
    """The script for bash."""
    found = sorted(commands_of(parser))
    known = dict(found)
    for name, (_, options) in passing.COMMANDS.items():
        known[(name,)] = [*options.split(), "--help"]
    paths = [" ".join(("", *words)) for words in sorted(known) if words]
    lines = [_HEAD]
    lines += [f'        "{it}") path="$path $it" ;;\n' for it in paths]
    lines.append(_MIDDLE)
    for words in sorted(known):
        path = " ".join(("", *words)) if words else ""
        lines.append(f'    "{path}") words="{" ".join(known[words])}" ;;\n')
    return "".join([*lines, _TAIL])
