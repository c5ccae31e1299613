"""./qq storm: publishes to queues in a folder, ends the program by a signal at random moments and opens it again. At
the end each message that was confirmed has to stand in an audit, once.

Each round has a session of its own. It begins with all that the session before has sent, again and under the same
numbers, as a client does that doesn't know what became of its last messages; then it sends messages of its own."""
import os
import random
import select
import signal
import subprocess
import sys
import time

import explain
import logs
import running
import setups
import words
from summaries import CONFIRMED, PUBLISHED, summary

NODES, QUEUES = 3, 2
AT_ONCE = 16
LONGEST_ROUND = 2.0
MOST_MESSAGES = 200_000


class Round:
    """One life of the program, from its opening to its end by a signal."""

    def __init__(self, program, words_of, session, before):
        self.session, self.before, self.sent = session, before, 0
        self.text = b""
        self.child = subprocess.Popen(
            [program, *words_of], stdin=subprocess.PIPE, stdout=subprocess.PIPE, preexec_fn=running.end_with_parent
        )

    def line(self, session, number):
        return f"send {session} - q{number % QUEUES + 1} m{session}.{number}\n"

    def lines(self):
        """Yields lines: what the session before has sent, and then messages without an end."""
        for number in range(self.before):
            yield self.line(self.session - 1, number)
        while True:
            self.sent += 1
            yield self.line(self.session, self.sent - 1)

    def publish(self, until):
        """Sends lines, some at once, and waits for their answers, until a moment of the clock."""
        lines, given = self.lines(), 0
        while time.monotonic() < until and self.child.poll() is None:
            given += AT_ONCE
            try:
                self.child.stdin.write("".join(next(lines) for _ in range(AT_ONCE)).encode())
                self.child.stdin.flush()
            except OSError:
                break
            while self.text.count(b"\n") < given and time.monotonic() < until:
                self.hear(until - time.monotonic())
                if self.child.poll() is not None:
                    break

    def hear(self, seconds):
        ready, _, _ = select.select([self.child.stdout], [], [], max(0, seconds))
        if ready:
            self.text += os.read(self.child.stdout.fileno(), 1 << 16)

    def end(self):
        """Ends the program at once. A line that the end has cut doesn't count."""
        self.child.send_signal(signal.SIGKILL)
        self.text += self.child.stdout.read()
        self.child.wait()
        try:
            self.child.stdin.close()
        except OSError:
            pass
        return self.text[: self.text.rfind(b"\n") + 1].decode("latin-1")


def count(printed, output):
    """Returns how many messages were confirmed, how many of them stand in an audit once, in none, and more than
        once."""
    confirmed = {(it[1] or "1", it[2] or "q1", it[3]) for it in map(CONFIRMED.fullmatch, printed.split("\n")) if it}
    rows, queue = {}, None
    for line in output.split("\n"):
        if line.startswith("audit "):
            queue = line.split()[1]
        elif queue and (row := PUBLISHED.fullmatch(line)):
            rows.setdefault((row[1], queue, row[2]), []).append(row[3])
    once = sum(rows.get(each) == [each[2]] for each in confirmed)
    lost = sum(each not in rows for each in confirmed)
    return len(confirmed), once, lost, sum(len(each) > 1 for each in rows.values())


def folder_fault(folder):
    if os.path.exists(folder) and not os.path.isdir(folder):
        return f"{folder} is no folder"
    if logs.nodes_in(folder):
        return f"{folder} has files of nodes: a storm begins in a new folder"
    return explain.root_fault(folder) if os.path.isdir(folder) else None


def storm(program, given):
    fault = (
        "its form is ./qq storm SECONDS DIR"
        if len(given) != 2 or not given[0].isdigit() or given[0] == "0"
        else folder_fault(given[1])
    )
    if fault:
        print(f"qq: {fault}", file=sys.stderr)
        return 2
    words_of = ["script", "--root", given[1], "--nodes", str(NODES), "--queues", str(QUEUES)]
    setups.write(given[1], setups.of_words(words.read(words_of)))
    printed, sent, session, before, ends = [], 0, 0, 0, 0
    end = time.monotonic() + int(given[0])
    while time.monotonic() < end and sent < MOST_MESSAGES:
        session += 1
        life = Round(program, words_of, session, before)
        life.publish(min(end, time.monotonic() + random.uniform(0, LONGEST_ROUND)))
        ended_by_itself = life.child.poll()
        printed.append(life.end())
        if ended_by_itself is not None:
            print(f"qq: round {session}: the program ended by itself with status {ended_by_itself}", file=sys.stderr)
            return 1
        ends, sent, before = ends + 1, sent + life.sent, life.sent
        tell(f"{ends} ends, {sent:,} messages sent, {sum(it.count('confirmed') for it in printed):,} confirmed")
    tell("")
    return report(program, words_of, "".join(printed), sent, ends)


def tell(text):
    if sys.stderr.isatty():
        sys.stderr.write("\r\x1b[K" + (f"qq: {text}" if text else ""))
        sys.stderr.flush()


def report(program, words_of, printed, sent, ends):
    """Opens the folder a last time, and counts."""
    done = subprocess.run([program, *words_of], stdin=subprocess.DEVNULL, stdout=subprocess.PIPE, check=False)
    output = done.stdout.decode("latin-1")
    confirmed, once, lost, twice = count(printed, output)
    _, wrong = summary("".join(line for line in printed.splitlines(True) if CONFIRMED.fullmatch(line[:-1])) + output)
    print(
        f"ended {ends} times with kill -9, sent {sent}, confirmed {confirmed}, in an audit once {once}, lost {lost}, "
        f"twice {twice}"
    )
    if done.returncode or wrong or lost or twice or once != confirmed or not confirmed:
        print(
            f"qq: the last opening ended with status {done.returncode}; of {len(wrong)} confirmed messages there isn't "
            "one row",
            file=sys.stderr,
        )
        return 1
    return 0
