"""./qq doctor: runs the doctor, and says what its status means. It is a program of its own, and reads its words itself;
docs/TOOLS.md has them."""
import os
import subprocess
import sys

# What a status means, and what can be done.
MEANINGS = {
    2: (
        "the words are no request of the doctor",
        "`doctor --root DIR --nodes N`, and `--queues N` or `--definitions NAME`: what the cluster was made with, and "
        "`--group N` where that was given. docs/TOOLS.md has the limits.",
    ),
    3: ("the export is refused", "`./qq check FILE` names all that is refused in it."),
    5: ("the export can't be read", "Look whether the file is there, and whether you may read it."),
    7: (
        "the folder is another process's, or can't be read",
        "Stop the program that runs over it first: the doctor reads what is at rest.",
    ),
    8: (
        "a log file breaks the rules of the log, or is of another version",
        "Keep a copy of the whole folder first. `./qq dump` shows what the file holds. A node whose words aren't those "
        "that the cluster was made with is refused so, too.",
    ),
    17: (
        "two nodes differ at a place that a majority has",
        "That isn't damage by itself: a node that was cut off may hold entries that a leader of a later term replaces. "
        "Open the cluster again, and ask the doctor once all nodes have caught up.",
    ),
}


def value_of(words, name):
    """Returns the value that the words give an option, or None."""
    for at, word in enumerate(words):
        if word == name:
            return next(iter(words[at + 1 :]), None)
        if word.startswith(f"{name}="):
            return word.partition("=")[2]
    return None


def doctor(program, words):
    root = value_of(words, "--root")
    if root and not os.path.isdir(root):
        print(f"qq: there is no folder {root}", file=sys.stderr)
        return 1
    status = subprocess.run([program, "doctor", *words], check=False).returncode
    for row in MEANINGS.get(status, ()):
        print(f"qq: {row}", file=sys.stderr)
    return status
