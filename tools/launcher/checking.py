"""./qq check: reads a script or an export, names each fault in it, and runs nothing."""
import sys

import exports
import scripts
import setups
import table
import words
from lines import lines_of

MOST = 40
STATUS = {"body": 11}


def check(_program, given):
    """The words are a file and the options of `script`. The status is that with which a run would end, 0 without a
    fault."""
    files = [word for word in given[:1] if not word.startswith("--")]
    try:
        asked = words.read(["script", *given[len(files) :]])
    except words.Wrong as wrong:
        print(f"qq: {wrong}", file=sys.stderr)
        return 2
    export = asked.values.get("--definitions")
    if not files and export is None:
        print("qq: the file is missing: check FILE [OPTION..]", file=sys.stderr)
        return 2
    statuses = [look(name, asked) for name in files]
    if export is not None:
        statuses.append(look(export, asked, True))
    return max(statuses, key=bool)


def look(name, asked, as_export=False):
    try:
        with open(name, "rb") as file:
            text = file.read()
    except OSError as error:
        print(f"{name}: it can't be read: {error.strerror}")
        return 5
    is_export = as_export or exports.is_export(text)
    return look_at_export(name, text, asked) if is_export else look_at_script(name, text, asked)


def look_at_export(name, text, asked):
    export = exports.read(text, "--ignore-policies" in asked.values)
    for fault in [*export.faults, *setups.unnamed(export.queues)]:
        print(f"{name}: {fault}")
    print(f"{name}: {export.counts}" + (f"; {table.count(len(export.faults), 'fault')}" if export.faults else ""))
    return 3 if export.faults else 0


def look_at_script(name, text, asked):
    setup = setups.of_words(asked)
    if setup is None:
        print(f"{name}: it isn't read, since the export is refused")
        return 3
    script = scripts.Script(setup.nodes, setups.names(setup), setups.groups(setup))
    first = count = faults = shown = 0
    for count, line in enumerate(lines_of(text.decode("latin-1")), 1):
        found = script.fault(line)
        if found:
            first = first or STATUS.get(found[0], 4)
            faults += 1
        found = found or (None, script.goes_nowhere(line))
        if found[1] and shown < MOST:
            shown += 1
            print(f"{name}: {scripts.told(count, line, found[1])}")
    print(f"{name}: {table.count(count, 'line')}, {table.count(faults, 'fault') if faults else 'no fault'}")
    return first
