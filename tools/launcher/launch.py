"""What ./qq does with its words: launch.py PROGRAM WORD.. with the program that is to run."""
import importlib
import os
import sys

if sys.version_info < (3, 9):
    print("qq: this python3 is older than 3.9, so nothing is explained here", file=sys.stderr, flush=True)
    os.execv(sys.argv[1], sys.argv[1:])

import explain
import running
import setups
import table
import words

# The launcher's own commands, each with the module that has it as `main`.
OWN = {
    "help": "helping",
    "version": "helping",
    "check": "checking",
    "doctor": "doctor",
    "queues": "queues",
    "picture": "picture",
    "storm": "storm",
}
SAME = {"--help": "help", "-h": "help", "--version": "version", "-V": "version"}


def tell(lines):
    for line in lines:
        print(f"qq: {table.visible(line)}", file=sys.stderr, flush=True)


def before(asked, root):
    """Says what is easily overlooked before a run begins."""
    told = []
    if (root or "").startswith("~"):
        told.append(f"`{root}` is a folder of this name here: the shell puts a home there only where `~` begins a word")
    if "--definitions" in asked.values:
        setup = setups.of_words(asked)
        told += setups.unnamed(setup.queues) if setup else []
    if os.isatty(0):
        told.append("lines are read from this terminal; Ctrl-D ends them, and then the audits are printed")
    return told


def run(program, given):
    """Runs the program by its words, and explains its status."""
    asked_words, own = words.own(given)
    asked = explain.asked_of(asked_words)
    root = asked.values.get("--root") if asked else None
    had = setups.before(root)
    if asked and asked.command == "script":
        tell(before(asked, root))
        source = running.input_of() if "--root" in asked.values else None
        script = source.head() if isinstance(source, running.FileInput) else b""
        may, told = setups.compare(root, asked, "--force" in own, script)
        tell(told)
        if not may:
            return 1
    if asked and asked.command == "dump":
        folder = os.path.join(asked.values["--root"], f"node-{asked.values['--node']}")
        if os.path.isdir(asked.values["--root"]) and not os.path.isdir(folder):
            tell([f"there is no {folder}: nothing is printed of it"])
    status, source = running.run([program, *asked_words], bool(asked) and asked.command == "script")
    if asked and asked.command == "script":
        setups.put_back(root, had, status)
    tell(explain.of_status(status, asked_words, source))
    if "--check" in own and asked and status == 0:
        return importlib.import_module("drills").compare(program, asked)
    return status


def main(program, *given):
    first = SAME.get(given[0], given[0]) if given else ""
    if first in OWN:
        module = importlib.import_module(OWN[first])
        try:
            status = getattr(module, first)(program, list(given[1:]))
            sys.stdout.flush()
            return status
        except BrokenPipeError:
            os.dup2(os.open(os.devnull, os.O_WRONLY), 1)
            return 6
    return run(program, list(given))


if __name__ == "__main__":
    assert set(OWN) <= set(table.COMMANDS)
    running.leave(main(*sys.argv[1:]))
