"""What a folder was made with, in its file `setup`: its nodes, its log files' size, and each queue with its number.

The file is made at a folder's first run and compared at each later one. A queue is a number in the logs, so another
list of queues would hand the messages of one out of another; and fewer nodes would go on without the others."""
import json
import os
from collections import namedtuple

import exports
import logs
import scripts
import words

NAME = "setup"
HEAD = "; What this folder was made with. ./qq compares it with the words of each later run.\n"
# The queues are pairs of a name and arguments in the order of their numbers, from 1.
Setup = namedtuple("Setup", "nodes group log_bytes definitions queues")
READ_SECONDS = 0.5
# What a folder has before a run: its setup's text, None where there is none, and each node's newest log file.
Before = namedtuple("Before", "text newest")
NO_YARD = 7


def of_words(asked):
    """Returns the setup that words ask for, or None where the export is refused or can't be read."""
    values = asked.values
    nodes, log_bytes = words.number(asked, "--nodes"), words.number(asked, "--log-bytes")
    name = values.get("--definitions")
    if name is None:
        group = min(nodes, words.number(asked, "--group"))
        queues = [(f"q{number}", {}) for number in range(1, words.number(asked, "--queues") + 1)]
        return Setup(nodes, group, log_bytes, None, queues)
    try:
        with open(name, "rb") as file:
            export = exports.read(file.read(), "--ignore-policies" in values)
    except OSError:
        return None
    if export.faults:
        return None
    return Setup(nodes, None, log_bytes, name, [used(queue, nodes) for queue in export.queues])


def used(queue, nodes):
    """Returns a queue's name, and its arguments with the size that its group has."""
    arguments = dict(queue.arguments)
    arguments["x-quorum-initial-group-size"] = min(nodes, exports.group_of(queue))
    return queue.name, arguments


def unnamed(queues):
    """Names the queues that a line can't name, since a blank parts its words."""
    return [
        f"queue {number}, `{queue[0]}`, has a blank in its name: lines name it `#{number}`, and `send` reaches it by an "
        "exchange that is bound to it"
        for number, queue in enumerate(queues, 1)
        if " " in queue[0]
    ]


def groups(setup):
    """Returns the size of each queue's group."""
    return [arguments.get("x-quorum-initial-group-size", setup.group) for _, arguments in setup.queues]


def names(setup):
    return [name for name, _ in setup.queues]


def to_json(value):
    return json.dumps(value, sort_keys=True, ensure_ascii=False)


def text_of(setup):
    rows = [f"nodes {setup.nodes}", f"log-bytes {setup.log_bytes}"]
    rows += [f"group {setup.group}"] if setup.definitions is None else [f"definitions {json.dumps(setup.definitions)}"]
    rows += [
        f"queue {number} {to_json(name)} {to_json(arguments)}"
        for number, (name, arguments) in enumerate(setup.queues, 1)
    ]
    return HEAD + "".join(row + "\n" for row in rows)


def read(root):
    """Returns the setup of a folder, or None where it has none that can be read."""
    found, queues = {"group": None, "definitions": None}, []
    try:
        with open(os.path.join(root, NAME), encoding="utf-8") as file:
            for row in file:
                word, _, rest = row.rstrip("\n").partition(" ")
                if word == "queue":
                    name, end = json.JSONDecoder().raw_decode(rest.partition(" ")[2])
                    queues.append((name, json.loads(rest.partition(" ")[2][end:])))
                elif word != ";":
                    found[word] = json.loads(rest)
        return Setup(found["nodes"], found["group"], found["log-bytes"], found["definitions"], queues)
    except (OSError, ValueError, KeyError):
        return None


def before(root):
    """Returns what a folder has before a run, or None where no node has files in it."""
    found = logs.newest(root) if root else {}
    if not found:
        return None
    try:
        with open(os.path.join(root, NAME), encoding="utf-8") as file:
            return Before(file.read(), found)
    except (OSError, ValueError):
        return Before(None, found)


def put_back(root, had, status):
    """Gives a folder the setup that it had, where a run ended before it had opened the folder. Words that opened it stay:
    what the logs have since is by these."""
    try:
        if had and status and (status == NO_YARD or not logs.has_changes(root, had.newest)):
            put(root, had.text)
    except OSError:
        pass


def write(root, setup):
    """Writes the setup of a folder, which is made where it is absent."""
    put(root, text_of(setup))


def put(root, text):
    """Makes a text the setup of a folder, or removes it where there is none. A folder that can't be written to stays."""
    path = os.path.join(root, NAME)
    made = f"{path}.{os.getpid()}"
    try:
        if text is None:
            os.remove(path)
            return
        os.makedirs(root, exist_ok=True)
        with open(made, "w", encoding="utf-8") as file:
            file.write(text)
        os.replace(made, path)
    except OSError:
        pass


def guess(root, now):
    """Returns what the files of a folder without a setup show: as many nodes as have files, and the other words as
        now."""
    return now._replace(nodes=max(logs.nodes_in(root)))


def queue_text(setup, place):
    """Returns a queue as a difference shows it."""
    if place >= len(setup.queues):
        return "none"
    (name, arguments), size = setup.queues[place], groups(setup)[place]
    shown = {key: value for key, value in arguments.items() if key != "x-quorum-initial-group-size"}
    where = "1 node" if size == 1 else f"{size} nodes"
    return f"`{name}` over {where}" + (f" {json.dumps(shown, sort_keys=True)}" if shown else "")


def differences(made, now):
    """Names each word and queue that differs."""
    found = []
    for name in ("nodes", "log_bytes"):
        if getattr(made, name) != getattr(now, name):
            word = name.replace("_", "-")
            found.append(f"--{word}: made with {getattr(made, name)}, now {getattr(now, name)}")
    if made.nodes == now.nodes:
        for place in range(max(len(made.queues), len(now.queues))):
            texts = queue_text(made, place), queue_text(now, place)
            if texts[0] != texts[1]:
                found.append(f"queue {place + 1}: made with {texts[0]}, now {texts[1]}")
    elif names(made) != names(now):
        found.append(f"queues: made with {', '.join(names(made)) or 'none'}, now {', '.join(names(now)) or 'none'}")
    return found


def words_of(setup):
    """Returns the words that ask for a setup."""
    told = [f"--nodes {setup.nodes}"]
    if setup.definitions is None:
        told += [f"--group {setup.group}", f"--queues {len(setup.queues)}"]
    else:
        told.append(f"--definitions {setup.definitions}")
    return " ".join([*told, f"--log-bytes {setup.log_bytes}"])


def why_not(made, now):
    """Says what a run with other words would do."""
    if made.nodes != now.nodes:
        return (
            "fewer or more nodes go on without what the others have, and a later run with all of them is refused as "
            "lost, status 9"
        )
    if names(made) != names(now)[: len(made.queues)]:
        return "queues are numbers in a folder: the messages of one queue would be handed out of another"
    if len(now.queues) > len(made.queues):
        return "the queues that are there keep their numbers, so the further ones do them no harm"
    if made.queues != now.queues:
        return "what is in the logs would be carried out by other arguments than those that it was answered by"
    return "another size of the log files does the messages no harm"


def taken(root, setup, script):
    """Says which sessions' numbers are taken in a folder, and which line of a script is the first of such a session."""
    try:
        found, is_all = logs.sessions_in(root, READ_SECONDS)
    except OSError:
        return []
    sessions = sorted({session for of in found.values() for session in of})
    if not sessions:
        return [] if is_all else [f"some sessions' numbers may be taken in {root}: its logs weren't read to their end"]
    told = ", ".join(map(str, sessions[:12])) + (f" and {len(sessions) - 12} more" if len(sessions) > 12 else "")
    free = next(number for number in range(2, 2**32) if number not in sessions)
    named = [name for name in names(setup) if " " not in name]
    lines = f"`send {free} - {named[0]} b` and `get {free} {named[0]}`" if named else f"`get {free} #1`"
    rows = [
        f"sessions whose numbers are taken in {root}: {told}" + ("" if is_all else ", and others maybe"),
        "  a number that was used is answered as it was, or `forgotten`, and nothing is stored; use a session of your "
        f"own, as {lines}",
    ]
    first = scripts.first_of(sessions, script)
    if first:
        number, line, session = first
        rows.append(f"  line {number} of this script, `{scripts.shown(line)}`, is of session {session}")
    elif 1 in sessions:
        rows.append("  `publish` and `get` are of session 1")
    return rows


def gone(root, setup):
    """Names the folders of nodes that have no files where others have. Such a node counts as one that never had any."""
    there, sizes = logs.nodes_in(root), groups(setup)
    members = {(place + k) % setup.nodes + 1 for place, size in enumerate(sizes) for k in range(size)}
    return [f"{logs.folder_of(root, node)} has no log files" for node in sorted(members - set(there))]


def refusal(root, made_with, why, other, lost):
    """Says why a run doesn't start over a folder."""
    if other:
        return [
            f"not started: {root} was made with other words or queues",
            *(f"  {it}" for it in other),
            f"  {why}",
            f"  it was made with: {made_with}",
            "  --force starts it all the same; once it opens, the words of now are those of the folder",
        ]
    return [
        f"not started: files of {root} are gone",
        *(f"  {it}, and other nodes have" for it in lost),
        "  a node without files counts as one that never had a message: with it the others may lose what was "
        "confirmed",
        "  put the files back as they were; --force starts it all the same",
    ]


def forced(root, other, lost):
    """Says over what a run starts since it is told to."""
    told = [f"{root} goes on with other words or queues than it was made with, since --force says so"] * bool(other)
    told += [f"{root} goes on without files that are gone, since --force says so"] * bool(lost)
    return told + [f"  {it}" for it in other + lost]


def compare(root, asked, is_forced, script=b""):
    """Compares a folder with what the words ask for, and writes its setup where it has none. Returns whether the run
    may start, and what is to be said."""
    now = of_words(asked)
    if not root or now is None or os.path.exists(root) and not os.path.isdir(root):
        return True, []
    if not logs.nodes_in(root):
        write(root, now)
        return True, []
    made, told = read(root), []
    made_with = made and words_of(made)
    if made is None:
        made = guess(root, now)
        made_with = f"--nodes {made.nodes}, and other words that its files don't show"
        told.append(f"{root} has files, and no `{NAME}` that says with which words: its nodes alone were compared")
    other = differences(made, now)
    lost = [] if other else gone(root, made)
    if (other or lost) and not is_forced:
        return False, told + refusal(root, made_with, why_not(made, now), other, lost)
    told += forced(root, other, lost)
    if told:
        write(root, now)
    return True, [*told, *taken(root, now, script)]
