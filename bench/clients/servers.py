"""Servers that a bench starts, each in a session of its own, and the processor time that they have used."""
import glob
import os
import signal
import socket
import subprocess
import time

TICKS = os.sysconf("SC_CLK_TCK")
PATIENCE = 300


def free_port():
    with socket.socket() as it:
        it.bind(("127.0.0.1", 0))
        return it.getsockname()[1]


def waited(what, call):
    """Calls until there is an answer, and returns that."""
    until = time.monotonic() + PATIENCE
    while time.monotonic() < until:
        try:
            found = call()
        except OSError:
            found = None
        if found:
            return found
        time.sleep(0.2)
    raise SystemExit(f"bench: {what} wasn't there after {PATIENCE} seconds")


def stat_of(process):
    """Returns the state, the session and the processor time of a process, in seconds; or None where it has ended."""
    try:
        with open(f"/proc/{process}/stat", encoding="utf-8", errors="replace") as file:
            words = file.read().rpartition(")")[2].split()
    except OSError:
        return None
    return words[0], int(words[3]), (int(words[11]) + int(words[12])) / TICKS


class Servers:
    """The processes of one server's nodes. All that these start belongs to them, as far as it stays in their sessions."""

    def __init__(self, room):
        self.room, self.begun = room, []

    def begin(self, words, **more):
        with open(f"{self.room}/log-{len(self.begun)}", "wb") as log:
            given = {"stdin": subprocess.DEVNULL, "stdout": log, "stderr": log, **more}
            made = subprocess.Popen(words, cwd=self.room, start_new_session=True, **given)
        self.begun.append(made)
        return made

    def processes(self):
        sessions = {it.pid for it in self.begun}
        found = {int(name): stat_of(name) for name in os.listdir("/proc") if name.isdigit()}
        return {number: it for number, it in found.items() if it and it[1] in sessions and it[0] != "Z"}

    def seconds(self):
        """Returns the processor time of all processes that are there."""
        return sum(seconds for _, _, seconds in self.processes().values())

    def end(self):
        for how, patience in ((signal.SIGTERM, 10), (signal.SIGKILL, 5)):
            for number in self.processes():
                try:
                    os.kill(number, how)
                except OSError:
                    pass
            until = time.monotonic() + patience
            while self.processes() and time.monotonic() < until:
                time.sleep(0.1)
                for it in self.begun:
                    it.poll()
        for it in self.begun:
            it.wait()


def newest(pattern):
    found = sorted(glob.glob(pattern))
    return found[-1] if found else None
