#!/usr/bin/env python3
"""The manual pages: oaut(1), oaut-gateway(1) and oaut-dcom(1) from pages of docs/, oaut-tools(1)
from the help of its commands, and ocf_oaut_gateway(7) from the meta-data of Pacemaker's agent.
python3-oaut(1) is oaut-tools(1).

    python3 dist/manual.py [VERSION [NAME]] > oaut.1
"""
import argparse
import glob
import os
import re
import sys
import typing
import xml.etree.ElementTree

ROOT = os.path.dirname(os.path.dirname(os.path.abspath(__file__)))
# the sections of each page; those that only some pages have come in place of None
ORDER = (
    "NAME",
    "SYNOPSIS",
    "DESCRIPTION",
    "COMMANDS",
    "OPTIONS",
    "EXIT STATUS",
    None,
    "ENVIRONMENT",
    "FILES",
    "EXAMPLES",
    "SEE ALSO",
)


class Page(typing.NamedTuple):
    """Contents of a manual page."""

    about: str  # the line of NAME
    source: str = ""  # the page of docs/ with most sections
    synopsis: str = ""  # default: the first example of that page
    left_out: tuple = ()  # sections of that page for readers of the sources
    added: str = ""  # sections that this page has beside them
    section: int = 1


TOOLS, AGENT = "oaut-tools", "ocf_oaut_gateway"
PAGES = {
    "oaut": Page("a durable server of OLE Automation objects", "reference/program.md"),
    "oaut-gateway": Page(
        "many clients of one store of OLE Automation objects",
        "operations/gateway.md",
        """\
oaut-gateway [OPTION VALUE..] STORE
oaut-gateway backup CONTROL FILE
oaut-gateway status CONTROL
oaut-gateway measure STORE
oaut-gateway tail CONTROL [OPTION..]
oaut-gateway reload CONTROL [OPTION VALUE..]
oaut-gateway probe SOCKET SECONDS
oaut-gateway --help | --version""",
        ("HOW IT IS BUILT", "HOW IT IS TESTED"),
        """\
## Files

The gateway makes only its sockets, and the copy of a backup. The Debian package uses these files \
for each store NAME:

| File | Contents |
|---|---|
| `/etc/oaut/NAME.env` | options of the gateway, in `OPTIONS=` |
| `/var/lib/oaut/NAME.store` | the store |
| `/run/oaut/NAME.sock`, `/run/oaut/NAME.alone.sock` | the shared and the exclusive socket |
| `/run/oaut/NAME.control.sock` | the control socket |
| `/usr/share/oaut/alerts.yml`, `/usr/share/oaut/grafana.json` | alerts and a dashboard for the \
metrics |

## Examples

Serve a store, check that it is served, copy it, and print how full it is:

    oaut-gateway --listen ./items.sock --control ./items.control.sock items.store
    oaut-gateway probe ./items.sock 5
    oaut-gateway backup ./items.control.sock items-monday.store
    oaut-gateway status ./items.control.sock | grep ^oaut_store

Give the running gateway other limits:

    oaut-gateway reload ./items.control.sock --clients 2000 --idle 600

## See also

oaut(1), oaut-dcom(1), oaut-tools(1), ocf_oaut_gateway(7), systemd.socket(5), stunnel(8); \
docs/operations/operating.md and
docs/reference/shared.md of the package's documentation.
""",
    ),
    "oaut-dcom": Page(
        "DCOM clients of a store of OLE Automation objects",
        "guide/dcom.md",
        """\
oaut-dcom --gateway SOCKET --users FILE [OPTION..]
oaut-dcom hash USER
oaut-dcom reg --gateway SOCKET --server HOST --name NAME [--remove]
oaut-dcom --help | --version""",
        ("SPEED", "HOW IT IS BUILT", "WHAT IS TESTED", "A REPORT FROM WINDOWS"),
        """\
## Commands

| Command | Effect |
|---|---|
| `oaut-dcom --gateway SOCKET --users FILE` | serves DCOM clients of the gateway's store |
| `oaut-dcom hash USER` | asks for a password, and prints the user's line for `--users` |
| `oaut-dcom reg` | prints the .reg file with which a Windows machine finds the server; with \
`--remove` the one that undoes it |

## Files

| File | Contents |
|---|---|
| `/etc/oaut/NAME.users` | the users of the store NAME |
| `/etc/oaut/NAME.dcom.env` | options of its unit, in `OPTIONS=` |
| `/var/lib/oaut-dcom/NAME.state` | the store's OXID, for `--state` |

## Examples

Add a user, and serve the store of a gateway:

    oaut-dcom hash joe >> users
    oaut-dcom --gateway /run/oaut/items.sock --users users --state state --listen 192.0.2.7

Make the file that registers the store's coclasses as `Desk.Item` and so on:

    oaut-dcom reg --gateway /run/oaut/items.sock --server store.example.org --name Desk > desk.reg

## See also

oaut(1), oaut-gateway(1), kadmin(1); docs/guide/dcom.md and docs/guide/com.md of the package's \
documentation.
""",
    ),
    TOOLS: Page(
        "tools for stores, libraries and clients of OLE Automation objects",
        synopsis=f"{TOOLS} COMMAND ..\npython3 -m oaut COMMAND ..\n{TOOLS} --help | --version\n"
        f"{TOOLS} COMMAND --help",
        added="""\
## Description

`oaut-tools`, which is the same as `python3 -m oaut`, reads, copies and repairs the files of \
stores, and helps to write libraries and clients. It is a
part of the Python client, python3-oaut. Its commands `play`, `serve`, `format`, `upgrade`, `dump` \
and `check` run oaut(1) with the arguments that follow.

## Options

| Option | Meaning |
|---|---|
| `--help` | prints the commands; after a command its arguments and options |
| `--version` | prints the version |

## Exit status

**0** after success, **1** after an error, which is one line on standard error, and **2** after a \
wrong command line. A command that runs oaut(1) exits
with the status of that program. After a signal the status is 128 plus its number, and **141** if \
the reader of standard output has gone.

## Environment

`OAUT_VIEW_TOKEN` is the token that a browser needs for the page of `view`. Default: a new one for \
each start.

## Files

The tools have no files of their own.

| File | Contents |
|---|---|
| `/usr/share/bash-completion/completions/oaut-tools` | completion for bash |
| `/usr/share/doc/oaut` | pages and examples |

## Examples

    oaut-tools talk library.idl
    oaut-tools talk library.idl --store items.store
    oaut-tools stubs library.idl -o library.pyi
    oaut-tools store info --json items.store
    oaut-tools store copy --live items.store items.copy
    oaut-tools store dump --json items.store > items.json
    oaut-tools store restore items.json new.store
    oaut-tools store salvage damaged.store new.store
    oaut-tools view --connect oaut+unix:///run/oaut/items.sock

## See also

oaut(1), oaut-gateway(1), and in the package's documentation docs/guide/client.md, \
docs/reference/store.md, docs/guide/import.md and docs/guide/view.md.
""",
    ),
    AGENT: Page(
        "Pacemaker's agent for a store of OLE Automation objects",
        synopsis="primitive NAME ocf:oaut:gateway params store=PATH [PARAMETER=VALUE ..]\n"
        "/usr/lib/ocf/resource.d/oaut/gateway ACTION",
        section=7,
        added="""\
## Commands

These are the actions that Pacemaker calls.

| Action | Effect |
|---|---|
| `start` | runs the command of `before`, starts oaut-gateway(1), and waits until the server \
answers |
| `stop` | ends the gateway after the replies to complete requests; kills it after half of the \
action's time |
| `monitor` | checks by `oaut-gateway probe` whether the server answers |
| `validate-all` | checks the parameters |
| `meta-data` | prints the parameters and actions as XML |

## Exit status

| Status | Meaning |
|---|---|
| 0 | success; `monitor`: the server answers, or keeps others waiting for an exclusive client or a \
backup |
| 1 | an error: the gateway does not answer, was killed, or another process has the store |
| 2 | there is no store at that path |
| 3 | there is no such action |
| 4 | the folder of sockets cannot be made |
| 5 | the store's device has failed on this host, or a program or the user is missing |
| 6 | a parameter or an option of the gateway is wrong |
| 7 | the gateway is not running |

## Files

INSTANCE is the name of the resource, `rundir` and `logdir` are parameters.

| File | Contents |
|---|---|
| `rundir/INSTANCE.sock`, `rundir/INSTANCE.control.sock` | the sockets of the gateway |
| `rundir/INSTANCE.pid`, `rundir/INSTANCE.status` | its process, and its exit status |
| `logdir/oaut-INSTANCE.log` | messages of the gateway and the server |

## Examples

For `crm configure`:

    primitive server ocf:oaut:gateway \\
        params store=/srv/stores/items.store \
before="/usr/lib/oaut/rewrite /srv/stores/items.store" \\
        op start timeout=60s op stop timeout=20s op monitor interval=3s timeout=20s

## See also

oaut-gateway(1), crm(8), pacemaker-controld(7); docs/operations/takeover.md of the package's \
documentation.
""",
    ),
}
# pages that have two names
ALIASES = {"python3-oaut": TOOLS}
LINK = re.compile(r"\[([^\]]*)\]\(([^)]*)\)")
GLOSSARY = re.compile(r"\s*\[Glossary\]\([^)]*\)\.?")
# heads of columns that a manual page does without
OBVIOUS = ("Contents", "Effect", "Meaning")
ITEM = re.compile(r"- |(\d+\.) ")


def place_of(target):
    """The place in the repository of the page that a link leads to."""
    found = glob.glob(f"{ROOT}/docs/**/{os.path.basename(target)}", recursive=True)
    return os.path.relpath(found[0], ROOT) if len(found) == 1 else os.path.basename(target)


def inline(text):
    """Prose in one line: links as their words, bold for code and emphasis."""
    text = LINK.sub(lambda it: place_of(it[2]) if it[1] == os.path.basename(it[2]) else it[1], text)
    parts = re.split(r"`|\*\*", text.replace("\\", "\\e"))
    told = "".join(f"\\fB{it}\\fR" if place % 2 else it for place, it in enumerate(parts))
    told = re.sub(r"^(['.])", r"\\&\1", told.replace("-", "\\-"))
    return re.sub("[^\0-\x7f]", lambda it: "\\[u%04X]" % ord(it[0]), told)


def paragraph(lines, at):
    """The lines from a place on that make one paragraph or one item of a list, as one line, and the
    next place."""
    end = at + 1
    while (
        end < len(lines)
        and lines[end]
        and not ITEM.match(lines[end])
        and not lines[end].startswith(("|", "#", "    ", "```"))
    ):
        end += 1
    return " ".join(it.strip() for it in lines[at:end]), end


def rows(lines):
    """The head of a table, and its rows."""
    cells = [[cell.strip() for cell in line.strip().strip("|").split("|")] for line in lines]
    return cells[0], cells[2:]


def lines_as_they_are(lines):
    """Lines of code or of a command line."""
    return [".nf", ".RS 2", *(inline(it.replace("`", "'")) or ".sp" for it in lines), ".RE", ".fi"]


def body(lines):
    """The lines of a section in roff."""
    told, at = [".SH"], 0
    while at < len(lines):
        line = lines[at]
        if line.startswith("### "):
            told.append(f".SS {inline(line[4:].replace('`', ''))}")
        elif line.startswith("    "):
            begun = at
            while at < len(lines) and (
                lines[at].startswith("    ")
                or not lines[at]
                and lines[at + 1 :]
                and lines[at + 1].startswith("    ")
            ):
                at += 1
            told += lines_as_they_are(it[4:] for it in lines[begun:at])
            continue
        elif line.startswith("```"):
            end = lines.index("```", at + 1)
            told += lines_as_they_are(lines[at + 1 : end])
            at = end
        elif line.startswith("|"):
            table = []
            while at < len(lines) and lines[at].startswith("|"):
                table.append(lines[at])
                at += 1
            head, found = rows(table)
            if len(head) == 2 and head[1] not in OBVIOUS:
                told.append(inline(f"{head[0]}, {head[1].lower()}:"))
            for row in found:
                # of three columns and more each says whose it is
                cells = (
                    row[1:]
                    if len(head) == 2
                    else [f"{name}: {it}." for name, it in zip(head[1:], row[1:])]
                )
                # (a row without a first cell goes on with the one before)
                told += [
                    *([".TP", f"\\fB{inline(row[0])}\\fR"] if row[0] else []),
                    *map(inline, cells),
                ]
            continue
        elif not line:
            if not told[-1].startswith((".SH", ".SS", ".PP")):
                told.append(".PP")
        else:
            text, at = paragraph(lines, at)
            item = ITEM.match(text)
            told += (
                [f".IP {item[1]} 4" if item[1] else ".IP \\(bu 2", inline(text[item.end() :])]
                if item
                else [inline(text)]
            )
            continue
        at += 1
    while told[-1] == ".PP":
        told.pop()
    return told[1:]


def sections_of(text):
    """The sections of a page of docs/, by their headings, each as lines; those before the first
    heading are its description."""
    sections, heading, is_code = {"DESCRIPTION": []}, "DESCRIPTION", False
    for line in text.split("\n"):
        is_code ^= line.startswith("```")
        if line.startswith("## ") and not is_code:
            heading = line[3:].replace("`", "").upper()
            sections[heading] = []
        elif not line.startswith("# ") or is_code:
            sections[heading].append(line)
    return sections


def options_of(parser):
    """The arguments and options of a command, each with its meaning."""
    told = []
    for it in parser._actions:
        if isinstance(it, argparse._SubParsersAction) or it.dest == "help":
            continue
        value = (
            it.metavar or ("|".join(it.choices) if it.choices else it.dest.upper())
            if it.nargs != 0
            else ""
        )
        names = [inline(f"{option} {value}".strip()) for option in it.option_strings] or [
            inline(value)
        ]
        told += [".TP", f"\\fB{', '.join(names)}\\fR", inline(f"{it.help}.")]
    return told


def commands_of(parser, words=()):
    """Each command that does something itself, as its words, what it does, and its parser."""
    for action in parser._actions:
        if isinstance(action, argparse._SubParsersAction):
            does = {it.dest: it.help for it in action._choices_actions}
            for name, below in action.choices.items():
                if any(isinstance(it, argparse._SubParsersAction) for it in below._actions):
                    yield from commands_of(below, (*words, name))
                else:
                    yield (*words, name), does[name], below


def tools_commands():
    """The commands of the tools in roff."""
    sys.path.insert(0, f"{ROOT}/clients/python")
    from oaut import __main__ as tools
    from oaut import passing

    told = []
    for words, does, below in commands_of(tools.parser()):
        given = [
            (it.nargs, it.metavar or it.dest) for it in below._actions if not it.option_strings
        ]
        usage = [{"?": f"[{name}]", "*": f"[{name}..]"}.get(count, name) for count, name in given]
        head = " ".join([*words, *["[OPTION..]"] * (len(below._actions) > len(usage) + 1), *usage])
        told += [
            f".SS {inline(head if words[0] not in passing.COMMANDS else f'{words[0]} ..')}",
            inline(f"{does}."),
        ]
        told += options_of(below)
    return told


def agent_sections():
    """The description and the parameters of the agent in roff, from its meta-data."""
    with open(f"{ROOT}/dist/ocf/gateway", encoding="utf-8") as file:
        data = re.search(r"<resource-agent .*</resource-agent>", file.read(), re.DOTALL)[0]
    agent = xml.etree.ElementTree.fromstring(data)

    def long(of):
        return " ".join(of.find("longdesc").text.split())

    told = [inline("Parameters of the resource:")]
    for it in agent.find("parameters"):
        default = it.find("content").get("default")
        ends = (
            " Required."
            if it.get("required") == "1"
            else f" Default: {default}."
            if default
            else ""
        )
        told += [".TP", f"\\fB{inline(it.get('name'))}\\fR", inline(f"{long(it)}{ends}")]
    return {"DESCRIPTION": [inline(long(agent))], "OPTIONS": told}


def page(name, version):
    """The page of that name in roff."""
    if name in ALIASES:
        return (
            f".so man{PAGES[ALIASES[name]].section}/{ALIASES[name]}.{PAGES[ALIASES[name]].section}"
            "\n"
        )
    it = PAGES[name]
    sections = {}
    if it.source:
        with open(f"{ROOT}/docs/{it.source}", encoding="utf-8") as file:
            sections.update(sections_of(GLOSSARY.sub("", file.read())))
    sections.update(
        (heading, lines) for heading, lines in sections_of(it.added).items() if any(lines)
    )
    synopsis = it.synopsis.split("\n")
    if not it.synopsis:
        intro = sections["DESCRIPTION"]
        begun = next(at for at, line in enumerate(intro) if line.startswith("    "))
        end = next(at for at in range(begun, len(intro)) if not intro[at].startswith("    "))
        synopsis = [line[4:] for line in intro[begun:end]]
        del intro[begun:end]
    made = {
        heading: body(lines) for heading, lines in sections.items() if heading not in it.left_out
    }
    made["NAME"] = [
        ", ".join(
            inline(one) for one in (name, *(other for other, of in ALIASES.items() if of == name))
        )
        + f" \\- {it.about}"
    ]
    made["SYNOPSIS"] = lines_as_they_are(synopsis)
    if name == TOOLS:
        made["COMMANDS"] = tools_commands()
    if name == AGENT:
        made.update(agent_sections())
    told = [
        f'.TH {name.upper()} {it.section} "" "oaut {version}" '
        f'"{"User Commands" if it.section == 1 else "Resource Agents"}"'
    ]
    for heading in ORDER:
        for one in [heading] if heading else [other for other in made if other not in ORDER]:
            told += [f".SH {inline(one)}", *made[one]] if one in made else []
    return "\n".join(told) + "\n"


def pages(version):
    """Each page, by its path below share/man."""
    for name in (*PAGES, *ALIASES):
        section = PAGES[ALIASES.get(name, name)].section
        yield f"man{section}/{name}.{section}", page(name, version)


if __name__ == "__main__":
    parser = argparse.ArgumentParser(
        description=__doc__, formatter_class=argparse.RawDescriptionHelpFormatter
    )
    parser.add_argument(
        "version", metavar="VERSION", nargs="?", default="0", help="the program's version"
    )
    parser.add_argument(
        "name",
        metavar="NAME",
        nargs="?",
        choices=sorted({*PAGES, *ALIASES}),
        default="oaut",
        help="the page",
    )
    given = parser.parse_args()
    sys.stdout.write(page(given.name, given.version))
