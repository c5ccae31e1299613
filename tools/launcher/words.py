"""The words after the program's name: what they ask for, or which of them is no command, and why."""
import difflib
import os
from collections import namedtuple

import table

Asked = namedtuple("Asked", "command values numbers")
# Options of the launcher alone, which the program doesn't know.
OWN = {"script": ("--force",), "drill": ("--check",), "dump": ()}
BARRED = {"": "an empty word", "-": "`-` alone", "--": "`--` alone"}
# What who looks for a server says.
SERVERS = ("start", "serve", "server", "listen", "broker")


class Wrong(Exception):
    """Words that are no command, with the reason."""


def near(word, known):
    """Names the known word that is like this one, if there is one."""
    found = [it for it in difflib.get_close_matches(word.lower(), known, 2, 0.7) if it != word]
    return f"; is `{found[0]}` meant?" if found else ""


def read_command(words):
    """Returns the command, or says why the first word is none."""
    known = ", ".join(table.COMMANDS)
    if not words:
        raise Wrong(f"a command is missing: {known}")
    word = words[0]
    if word in table.PROGRAM:
        return word
    if word in ("prove", "path"):
        raise Wrong(f"`{word}` stands alone: ./qq {word}")
    if word in SERVERS:
        raise Wrong(f"`{word}` is no command: the program opens no socket, and `script` runs the lines of a script")
    if word == "run":
        raise Wrong("`run` isn't built yet; `script` runs the lines of a script")
    if any(it in table.COMMANDS for it in words[1:]) and word.startswith("-"):
        raise Wrong(f"the command comes first: {known}")
    if os.path.isfile(word):
        raise Wrong(f"`{word}` is a file: a script is read from the standard input, `script < {word}`")
    if word in table.lines():
        raise Wrong(f"`{word}` is a line of a script, which is read from the standard input; the commands are {known}")
    raise Wrong(f"`{word}` is no command: {known}" + near(word, table.COMMANDS))


def read_option(command, word, rest, values):
    """Takes an option, with its value where that is the next word."""
    name, equals, value = word.partition("=")
    option, its = table.options().get(name), table.COMMANDS[command].options
    if name not in its:
        where = [f"`{it}`" for it in table.PROGRAM if name in table.COMMANDS[it].options]
        has = f"{' and '.join(where)} {'has' if len(where) == 1 else 'have'} it; those of `{command}` are "
        known = has * bool(where) + ", ".join(its)
        raise Wrong(f"`{command}` has no option `{name}`: {known}{near(name, its)}")
    if name in values:
        raise Wrong(f"`{name}` is given twice")
    if not option.value:
        if equals:
            raise Wrong(f"`{name}` takes no value")
        if name in OWN[command]:
            raise Wrong(f"`{name}` is an option of ./qq alone, and the program doesn't know it")
        values[name] = True
        return
    wanted = f"`{name} {option.value}`" + (f", {option.range}" if option.range else "")
    if not equals:
        if not rest:
            raise Wrong(f"`{name}` lacks its value: {wanted}")
        value = rest.pop(0)
        if value.startswith("-"):
            raise Wrong(
                f"`{name}` lacks its value, since `{value}` begins with a hyphen: {wanted}"
                + ("" if table.bounds(option) else f"; `{name}={value}` takes it as a value")
            )
    among = table.bounds(option)
    fault = among and table.number_fault(value, *among)
    if fault:
        raise Wrong(f"`{value}` of `{name}` {fault}")
    values[name] = value


def read_number(word, numbers):
    """Takes the number of a drill."""
    if numbers:
        raise Wrong(f"`{word}` is a second number: a drill has one")
    fault = table.number_fault(word, *table.DRILLS)
    if fault:
        raise Wrong(f"`{word}`, the number of the drill, {fault}")
    numbers.append(word)


def read(words):
    """Returns what words ask of the program, or raises what is wrong with them first."""
    for word in words:
        if any("\ud800" <= letter <= "\udfff" for letter in word):
            raise Wrong("a word isn't UTF-8")
    command = read_command(words)
    rest, values, numbers = list(words[1:]), {}, []
    for word in rest:
        if word in BARRED:
            raise Wrong(
                f"{BARRED[word]} is no word of a command; an unset variable leaves one"
                if not word
                else f"{BARRED[word]} is no word of a command"
            )
    while rest:
        word = rest.pop(0)
        if word.startswith("--"):
            read_option(command, word, rest, values)
        elif word.startswith("-") and table.number_fault(word[1:], 0, 2**64):
            its = ", ".join(table.COMMANDS[command].options)
            raise Wrong(f"`{word}` has one hyphen: options have two, {its}")
        elif command == "drill":
            read_number(word, numbers)
        elif command == "script" and os.path.isfile(word):
            raise Wrong(f"`{word}` is a file: a script is read from the standard input, `script < {word}`")
        else:
            raise Wrong(f"`{word}` isn't an option of `{command}`: {', '.join(table.COMMANDS[command].options)}")
    return whole(Asked(command, values, numbers))


def whole(asked):
    """Says what is missing, or stands beside what it may not stand beside."""
    values = asked.values
    if asked.command == "drill" and not asked.numbers:
        raise Wrong("the number of the drill is missing, 1 to 1,000,000,000: `drill 7`")
    if asked.command == "dump":
        for name in ("--root", "--node"):
            if name not in values:
                raise Wrong(f"`{name} {table.options()[name].value}` is missing: `dump --root DIR --node N`")
    for name in ("--queues", "--group"):
        if "--definitions" in values and name in values:
            raise Wrong(
                f"`{name}` stands beside `--definitions`: the export says itself which queues there are, and "
                "over how many nodes"
            )
    return asked


def own(words):
    """Parts the launcher's own options of the command from the program's words."""
    of = OWN.get(words[0], ()) if words else ()
    return [it for it in words if it not in of], {it for it in words if it in of}


def number(asked, name):
    """Returns an option's number, or that which holds without it."""
    value = asked.values.get(name, table.options()[name].without)
    return int(value.replace(",", ""))
