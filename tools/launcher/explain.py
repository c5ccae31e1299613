"""Says what a status of the program means here, and what can be done. It looks at the words, the input and the
folder, and never at what the program prints."""
import fcntl
import os
import resource
import signal
from itertools import combinations

import exports
import logs
import scripts
import setups
import table
import words
from lines import lines_of

MOST_ROWS = 12


def asked_of(given):
    """Returns what the words ask for, or None."""
    try:
        return words.read(given)
    except words.Wrong:
        return None


def script_of(asked):
    """Returns a reader of the script's lines, or None where the export can't be read."""
    setup = setups.of_words(asked)
    return setup and scripts.Script(setup.nodes, setups.names(setup), setups.groups(setup))


# Words, exports and lines


def of_words(given, _asked, _input):
    try:
        words.read(given)
    except words.Wrong as wrong:
        return [str(wrong)]
    return ["the words are no command"]


def of_export(_given, asked, _input):
    name = asked.values["--definitions"]
    with open(name, "rb") as file:
        faults = exports.read(file.read(), "--ignore-policies" in asked.values).faults
    what = "this is refused" if len(faults) == 1 else f"these {len(faults)} are refused"
    return [f"of the export {name} {what}, and nothing was read of the script:", *(f"  {it}" for it in faults)]


def of_line(_given, asked, given):
    """Names the line that was refused. The input's last bytes are enough: the program reads little ahead."""
    if asked.command != "script" or given is None or script_of(asked) is None:
        return ["a line is refused"]
    before, text = given.tail()
    script = script_of(asked)
    found = scripts.first_fault(script, lines_of(text.decode("latin-1")), before)
    if found is None:
        return ["a line is refused: it gives a taker that isn't free"]
    number, line, _, why = found
    return [scripts.told(number, line, why)]


def of_limit(_given, asked, given):
    setup = setups.of_words(asked)
    if setup is None:
        return of_export(_given, asked, given)
    return of_line(_given, asked, given)


def of_input(_given, asked, _input):
    name = asked.values.get("--definitions")
    if name is not None and not os.path.isfile(name):
        what = "is a folder" if os.path.isdir(name) else "isn't there"
        return [f"the export `{name}` {what}"]
    if name is not None and not os.access(name, os.R_OK):
        return [f"the export `{name}` may not be read"]
    return ["the standard input can't be read: is it a folder, or closed?"]


def of_output(*_):
    return ["the standard output can't be written: what read it has ended, or the disk is full"]


# Folders


def holder(path):
    """Returns the process that has a lock on a file, or None where nobody has."""
    try:
        with open(path, "rb") as file:
            try:
                fcntl.flock(file, fcntl.LOCK_EX | fcntl.LOCK_NB)
                return None
            except BlockingIOError:
                number = os.fstat(file.fileno()).st_ino
        with open("/proc/locks", encoding="ascii") as held:
            rows = [row.split() for row in held]
    except OSError:
        return None
    found = [row[4] for row in rows if row[1] == "FLOCK" and row[5].rpartition(":")[2] == str(number)]
    return found[0] if found else "another"


def root_fault(root):
    """Returns why no disk is given under a root, as far as that is seen from outside."""
    if root == "":
        return "the root is empty, as an unset variable leaves it"
    above = os.path.abspath(root)
    while not os.path.lexists(above):
        above = os.path.dirname(above)
    if not os.path.isdir(above):
        return f"{above} is no folder, so it can have no files of nodes"
    if not os.path.isdir(root):
        return f"the folder {root} can't be made in {above}: you may not write there, or nothing can be made there"
    process = holder(os.path.join(root, "lock"))
    if process:
        return f"process {process} has the folder {root}: one process at a time may; end that one first"
    if not os.access(root, os.R_OK | os.W_OK | os.X_OK):
        return f"you may not read and write the folder {root}"
    return disk_fault(root)


def disk_fault(root):
    """Returns why the disks under a root fail, where that is seen."""
    folders = [logs.folder_of(root, node) for node in range(1, 8)]
    for folder in filter(os.path.lexists, folders):
        if not os.path.isdir(folder):
            return f"{folder} is no folder, so it can have no log files"
        if not os.access(folder, os.R_OK | os.W_OK | os.X_OK):
            return f"you may not read and write the folder {folder}"
        for path in (logs.path_of(folder, number) for number in logs.numbers_in(folder)):
            if not os.path.isfile(path) or not os.access(path, os.R_OK | os.W_OK):
                return f"{path} can't be read and written as a file"
    room = os.statvfs(root)
    if room.f_bavail * room.f_frsize < 1 << 16:
        return f"the disk of {root} is full"
    most = resource.getrlimit(resource.RLIMIT_FSIZE)[0]
    if most != resource.RLIM_INFINITY:
        return f"a file may have {most:,} bytes here (ulimit -f)"
    return None


def of_yard(_given, asked, _input):
    root = asked.values.get("--root")
    why = root_fault(root) if root is not None else None
    if why:
        return [why]
    if asked.command == "dump":
        return [f"the disk of node {asked.values['--node']} under {root} failed as it was read"]
    return [f"the disk of each node under {root} failed as it was opened; the system's log (dmesg) may say why"]


def of_damage(_given, asked, _input):
    root = asked.values.get("--root")
    if root is None:
        return [
            "the bytes that a `crash N junk HEX` of the script left break the rules of a log: that is what junk may do"
        ]
    told = []
    for node in logs.nodes_in(root):
        try:
            log = logs.Log(logs.folder_of(root, node))
            log.read()
        except OSError:
            continue
        if log.damage:
            told.append(f"{log.damage.path} breaks the log's rules at byte {log.damage.place}: {log.damage.why}")
        else:
            told += unlisted(root, node, log, setups.of_words(asked))
    return told or [f"a log file under {root} breaks the rules of the log"]


def unlisted(root, node, log, setup):
    """Names the queues of a node's log that the words don't give that node."""
    if setup is None:
        return []
    groups = setups.groups(setup)
    mine = {
        place + 1 for place, size in enumerate(groups) for k in range(size) if (place + k) % setup.nodes + 1 == node
    }
    others = sorted(set(log.lanes) - mine)
    if not others:
        return []
    made = setups.read(root)
    return [
        f"{logs.folder_of(root, node)} has records of queue {', '.join(map(str, others[:MOST_ROWS]))}, of which node "
        f"{node} is no member by these words" + (f"; it was made with: {setups.words_of(made)}" if made else "")
    ]


def conflicts(root, kept):
    """Names the entries that two nodes have of one term and that differ: no group of nodes leaves those."""
    found = []
    for one, other in combinations(kept, 2):
        for queue in kept[one].keys() & kept[other].keys():
            pairs = zip(kept[one][queue].entries, kept[other][queue].entries)
            index = next((at for at, (a, b) in enumerate(pairs, 1) if a.term == b.term and a != b), None)
            if index:
                folders = " and ".join(logs.folder_of(root, node) for node in (one, other))
                found.append(
                    f"{folders} have different entries {index} of queue {queue} in one term: they are of two runs"
                )
    return found[:MOST_ROWS]


def of_loss(_given, asked, _input):
    root = asked.values.get("--root")
    if root is None:
        return [
            "a restart found fewer ops of a queue than its member had been told of: the bytes of a `crash N junk HEX` "
            "of the script may do that"
        ]
    setup, rows, kept = setups.of_words(asked), [], {}
    for node in range(1, setup.nodes + 1):
        folder = logs.folder_of(root, node)
        try:
            log = logs.Log(folder)
            log.read()
        except OSError as error:
            rows.append(
                f"{folder}: its log can't be read ({error.strerror}): a queue that it led last, or for whose leader it "
                "voted, isn't opened without it"
            )
            continue
        if not log.chain:
            rows.append(f"{folder}: no log files, so it counts as a node that never had anything")
            continue
        if not log.lanes:
            rows.append(f"{folder}: its log has nothing of any queue, as one that begins anew")
        for queue in sorted(log.lanes)[:MOST_ROWS]:
            term, last = log.lanes[queue].last()
            name = setups.names(setup)[queue - 1] if queue <= len(setup.queues) else f"queue {queue}"
            rows.append(f"{folder}: {name} term {log.lanes[queue].term}, {last} entries, the last of term {term}")
        kept[node] = log.lanes
    rows += conflicts(root, kept)
    others = [logs.folder_of(root, node) for node in logs.nodes_in(root) if node > setup.nodes]
    rows += [f"{folder}: a node that --nodes {setup.nodes} leaves out" for folder in others]
    made = setups.read(root)
    return [
        f"the logs under {root} can't be what one group of nodes left: a folder is another run's, is gone, can't be "
        "read, or wrote on without the others",
        *(f"  {row}" for row in rows),
        *([f"  it was made with: {setups.words_of(made)}"] if made else []),
    ]


def of_memory(*_):
    most = resource.getrlimit(resource.RLIMIT_AS)[0]
    if most != resource.RLIM_INFINITY:
        return [f"there was no memory: the process may have {most:,} bytes (ulimit -v)"]
    return ["there was no memory"]


def of_spent(*_):
    return ["a number stands at its end: the printed one can't rise any more"]


REASONS = {
    2: of_words,
    3: of_export,
    4: of_line,
    5: of_input,
    6: of_output,
    7: of_yard,
    8: of_damage,
    9: of_loss,
    11: of_limit,
    12: of_memory,
    20: of_spent,
}


def has_avx2():
    try:
        with open("/proc/cpuinfo", encoding="utf-8") as file:
            return " avx2 " in file.read()
    except OSError:
        return True


# What ends the program from outside, or in a build that isn't proved.
SIGNALS = {
    **dict.fromkeys(
        ("SIGINT", "SIGTERM", "SIGHUP"),
        [
            "  the audits come at the end of the input, which is Ctrl-D on a terminal. What it had printed as confirmed "
            "is there at the next run over the same folder; without --root nothing is kept"
        ],
    ),
    "SIGKILL": [
        "  somebody has ended it, or the system has, for want of memory (dmesg says so). What it had printed as "
        "confirmed is there at the next run over the same folder"
    ],
    "SIGXFSZ": ["  a file may have no more bytes here (ulimit -f)"],
    **dict.fromkeys(
        ("SIGILL", "SIGTRAP", "SIGABRT", "SIGSEGV"),
        ["  so ends a program that isn't proved, where a check of it fails: please report the words and the script"],
    ),
}
NO_AVX2 = "  the proved program wants a processor with AVX2, and this one hasn't it: build it for another (cpu.txt)"


def of_status(status, given, source):
    """Returns what is to be said after a run with these words, this status and this input."""
    if status == 0:
        return []
    if status < 0:
        name = signal.Signals(-status).name
        told = SIGNALS.get(name, []) if name != "SIGILL" or has_avx2() else [NO_AVX2]
        return [f"the program was ended by the signal {name}", *told]
    row = table.statuses().get(status)
    asked = asked_of(given)
    if status == 127 and not has_avx2():
        return ["status 127", NO_AVX2]
    if row is None or status not in REASONS or asked is None and status != 2:
        return [f"status {status}"]
    try:
        told = REASONS[status](given, asked, source)
    except (OSError, ValueError, KeyError, IndexError, AttributeError):
        told = []
    return [*(told or [row.comes]), f"  status {status}: {row.comes}", f"  {row.advice}"]
