"""Makes the man page and the completions from the table: pages.py writes docs/qq.1 and docs/qq.bash, and
pages.py --check says which of them isn't what the table gives."""
import re
import sys

import table
from model import TOP

DESCRIPTION = (
    "A script publishes and consumes messages, loses and reorders what nodes send one another, crashes nodes and "
    "restarts them. Each queue behaves as a RabbitMQ quorum queue over nodes in one process. It opens no socket. What "
    "it prints as `confirmed` stands in the audit that it prints at the end, whatever crashes."
)
FILES = {"docs/qq.1": "manual", "docs/qq.bash": "completions"}


def roff(text):
    """Returns text of a page as a man page has it: what stands in backticks is bold."""
    text = re.sub(r"`([^`]*)`", lambda it: f"\\fB{it[1]}\\fR", text.replace("\\", "\\e").replace("-", "\\-"))
    return "\n".join(("\\&" if line[:1] in ("'", ".") else "") + line for line in text.split("\n"))


def part(title, rows):
    """Returns a part of the man page: pairs of a form and what it means."""
    found = [f".SH {title}"]
    for form, meaning in rows:
        found += [".TP", f"\\fB{roff(form)}\\fR", roff(meaning[:1].upper() + meaning[1:].rstrip(".") + ".")]
    return found


def option_text(it):
    more = [it.range] * bool(it.range) + [f"without it {it.without}"] * bool(it.without)
    return it.meaning + "".join(f"; {each}" for each in more)


def manual():
    """Returns the man page."""
    rows = [
        '.\\" Made by tools/launcher/pages.py from its table: change that, or docs/SCRIPT.md.',
        ".TH QQ 1",
        ".SH NAME",
        "qq \\- a replicated message broker whose functions are proved",
        ".SH SYNOPSIS",
    ]
    rows += [f".B qq {roff(it.form)}\n.br" for it in table.COMMANDS.values()]
    rows += [".SH DESCRIPTION", roff(DESCRIPTION)]
    rows += part("COMMANDS", [(f"qq {it.form}", it.meaning) for it in table.COMMANDS.values()])
    rows += part("OPTIONS", [(f"{it.name} {it.value}".rstrip(), option_text(it)) for it in table.options().values()])
    rows += part("WORDS OF A LINE", table.letters().items())
    rows += part("LINES OF A SCRIPT", [(it.form, it.meaning) for forms in table.lines().values() for it in forms])
    rows += part("WHAT IS PRINTED", table.texts())
    rows += part("FAULTS OF A LINE", table.faults().items())
    rows += part(
        "EXIT STATUS",
        [
            (str(it.number), f"{it.comes[:1].upper()}{it.comes[1:]}. Printed last: {it.printed}. {it.advice}")
            for it in table.statuses().values()
        ],
    )
    rows += part(
        "FILES",
        [
            ("DIR/node-N", "the log files of node N"),
            ("DIR/lock", "locked by the process that has the folder"),
            ("DIR/setup", "what the folder was made with, which each later run is compared with"),
        ],
    )
    return "\n".join(rows) + "\n"


def completions():
    """Returns a script of completions, for bash, and for zsh by its bashcompinit."""
    rows = [
        "# Made by tools/launcher/pages.py from its table. For bash and zsh: source it, and type `qq` and a tab.",
        '[ -z "${ZSH_VERSION-}" ] || { autoload -U bashcompinit && bashcompinit; }',
        "_qq() {",
        '  local word="${COMP_WORDS[COMP_CWORD]}" before="${COMP_WORDS[COMP_CWORD - 1]}" words=""',
        '  case "$before" in',
    ]
    for it in table.options().values():
        among = table.bounds(it)
        if it.value in ("NAME", "DIR"):
            kind = "-f" if it.value == "NAME" else "-d"
            rows.append(f'    {it.name}) COMPREPLY=($(compgen {kind} -- "$word")); return ;;')
        elif among:
            values = " ".join(map(str, range(among[0], among[1] + 1) if among[1] < 10 else among))
            rows.append(f'    {it.name}) COMPREPLY=($(compgen -W "{values}" -- "$word")); return ;;')
    rows += ["  esac", '  case "$COMP_CWORD:${COMP_WORDS[1]}" in', f'    1:*) words="{" ".join(table.COMMANDS)}" ;;']
    helped = [*table.COMMANDS, *table.options(), *table.lines(), *map(str, table.statuses())]
    for name, it in table.COMMANDS.items():
        if name == "help":
            rows.append(f'    *:help) words="{" ".join(dict.fromkeys(helped))}" ;;')
        elif it.options:
            rows.append(f'    *:{name}) words="{" ".join(it.options)}" ;;')
    rows += [
        "  esac",
        '  COMPREPLY=($(compgen -W "$words" -- "$word"))',
        '  case "${COMP_WORDS[1]}" in check | queues | picture | storm)',
        '    [ "$COMP_CWORD" -lt 2 ] || COMPREPLY+=($(compgen -f -- "$word")) ;;',
        "  esac",
        "}",
        "complete -o filenames -F _qq qq ./qq",
    ]
    return "\n".join(rows) + "\n"


def is_made(name, made):
    with open(f"{TOP}/{name}", encoding="utf-8") as file:
        return file.read() == made


def main(words):
    """Writes the files, or compares them. The status is 1 where one differs."""
    status = 0
    for name, part_of in FILES.items():
        made = globals()[part_of]()
        if words != ["--check"]:
            with open(f"{TOP}/{name}", "w", encoding="utf-8") as file:
                file.write(made)
        elif not is_made(name, made):
            print(f"{name} isn't what the table gives: tools/launcher/pages.py makes it")
            status = 1
    return status


if __name__ == "__main__":
    sys.exit(main(sys.argv[1:]))
