"""./qq help and ./qq version, from the table."""
import os
import re
import shutil
import subprocess
import sys
import textwrap

import table
import words
from model import TOP

TOPICS = ("commands", "options", "lines", "texts", "statuses")


def paragraph(text, indent=2):
    return textwrap.fill(
        text,
        100,
        initial_indent=" " * indent,
        subsequent_indent=" " * indent,
        break_long_words=False,
        break_on_hyphens=False,
    )


def head(form, text):
    """Returns a form with what it means below."""
    return f"{form}\n{paragraph(text, 6)}"


def option_rows(names):
    for name in names:
        it = table.options()[name]
        more = "; ".join([it.range] * bool(it.range) + [f"without it {it.without}"] * bool(it.without))
        yield head(f"  {name} {it.value}".rstrip(), it.meaning + (f" ({more})" if more else ""))


def of_command(name):
    it = table.COMMANDS[name]
    parts = [f"./qq {it.form}", paragraph(it.meaning[0].upper() + it.meaning[1:] + ".")]
    return "\n".join(parts + list(option_rows(it.options)))


def of_commands():
    rows = [head(f"./qq {it.form}", it.meaning) for it in table.COMMANDS.values()]
    return "\n".join(
        [
            *rows,
            "",
            paragraph(
                "./qq help COMMAND, --OPTION, a line's first word or whole line, a printed word, a "
                f"status's number, or one of {', '.join(TOPICS)} says more. docs/SCRIPT.md has it all.",
                0,
            ),
        ]
    )


def of_line(words_of):
    """Explains a line by its first word; with more words, each of them."""
    rows = table.lines()[words_of[0]]
    parts = [head(it.form, it.meaning) for it in rows]
    letters = table.letters()
    used = dict.fromkeys(word for it in rows for word in it.form.split()[1:] if word in letters)
    # Of `send` K is a key, and of `crash` a count of bytes, as their rows say.
    parts += [head(f"  {name}", letters[name]) for name in used if name != "K" or rows[0].form.endswith(" Q K")]
    fits = [it.form.split() for it in rows if len(it.form.split()) == len(words_of) or it.form.endswith(" BODY")]
    if len(words_of) > 1 and fits:
        given = " ".join(words_of).split(" ", len(fits[-1]) - 1)
        parts += ["here", *(f"  {form} is {each}" for form, each in zip(fits[-1][1:], given[1:]) if form != each)]
    return "\n".join(parts)


def of_status(number):
    it = table.statuses()[number]
    return "\n".join([f"status {number}: {it.comes}", paragraph(f"printed last: {it.printed}"), paragraph(it.advice)])


def of_topic(topic):
    if topic == "commands":
        return of_commands()
    if topic == "options":
        return "\n".join(option_rows(table.options()))
    if topic == "lines":
        return "\n".join(head(it.form, it.meaning) for rows in table.lines().values() for it in rows)
    if topic == "texts":
        return "\n".join(head(form, meaning) for form, meaning in table.texts())
    return "\n".join(of_status(number) for number in table.statuses())


def explained(given):
    """Yields what the words may mean: a word may be a command, a line and a printed text."""
    first = given[0]
    if first in TOPICS:
        yield of_topic(first)
    if first in table.COMMANDS:
        yield of_command(first)
    if first.partition("=")[0] in table.options():
        yield "\n".join(option_rows([first.partition("=")[0]]))
    if first in table.lines():
        yield of_line(given)
    if first in table.faults():
        yield head(f"line N: {first}", f"a line is refused, status 4: {table.faults()[first]}")
    if first.isdigit() and int(first) in table.statuses():
        yield of_status(int(first))
    found = [head(form, meaning) for form, meaning in table.texts() if first in form.split() and not first.isupper()]
    found += [
        of_status(it.number) for it in table.statuses().values() if re.search(rf"`{re.escape(first)}\b", it.printed)
    ]
    if found:
        yield "\n".join(["printed", *found])


def help(_program, given):
    given = " ".join(given).split()
    if not given:
        print(of_commands())
        return 0
    found = list(explained(given))
    if found:
        print("\n\n".join(found))
        return 0
    known = [*table.COMMANDS, *table.options(), *table.lines(), *TOPICS]
    near = words.near(given[0], known) or ";"
    print(f"qq: there is no help on `{given[0]}`{near} ./qq help names the commands", file=sys.stderr)
    return 2


def output(*command):
    """Returns what a command prints, or nothing where there is no such command."""
    if shutil.which(command[0]) is None:
        return ""
    done = subprocess.run(command, stdout=subprocess.PIPE, stderr=subprocess.DEVNULL, text=True, check=False)
    return done.stdout.strip() if done.returncode == 0 else ""


def released():
    """Returns what the file of a release says: its commit, its kit and whether its program is proved."""
    try:
        with open(f"{TOP}/RELEASE", encoding="utf-8") as file:
            return dict(row.rstrip("\n").split(" ", 1) for row in file)
    except OSError:
        return {}


def commit():
    """Returns the commit of this checkout, and whether files were changed since."""
    found = output("git", "-C", TOP, "log", "-1", "--format=%h of %cs") if os.path.exists(f"{TOP}/.git") else ""
    changed = found and output("git", "-C", TOP, "status", "--porcelain", "--untracked-files=no")
    return (found or "unknown") + (", with changes" if changed else "")


def kit_of_readme():
    with open(f"{TOP}/README.md", encoding="utf-8") as file:
        found = re.search(r"`(rattle-kit-[^`]+)`", file.read())
    return f"none here; README names {found[1]}" if found else "none here"


def version(program, _given):
    made = released()
    proved = made.get("program") or (
        "proved" if "/crates/" in program else "built with no proof" if program else "not built yet"
    )
    print(f"commit {made.get('commit') or commit()}")
    print(f"kit {made.get('kit') or output('rt', 'version') or kit_of_readme()}")
    print(f"program {proved}" + (f", {program}" if program else ""))
    return 0
