"""Publishes by lines of a script, to a queue over folders."""
import os
import subprocess

NAME, PACKAGE = "qq", None
TOP = os.path.dirname(os.path.dirname(os.path.dirname(os.path.realpath(__file__))))


def version():
    subprocess.run([f"{TOP}/unproved/build", "--fast", "qq_main"], check=True)
    return subprocess.run(
        ["git", "log", "-1", "--format=%h"], cwd=TOP, stdout=subprocess.PIPE, text=True, check=True
    ).stdout.strip()


def begin(them, nodes):
    """Starts the program, and returns it."""
    words = [f"{TOP}/unproved/out/qq_main.fast", "script", "--root", f"{them.room}/data", "--nodes", str(nodes)]
    return them.begin(words, stdin=subprocess.PIPE, stdout=subprocess.PIPE)


class Client:
    """The lines of a script. What was sent is pumped at once, so a window is a batch."""

    def __init__(self, program, _nodes):
        self.program, self.waiting, self.open = program, [b"manual\n"], 0

    def send(self, body):
        self.waiting.append(b"publish " + body + b"\n")
        self.open += 1

    def flush(self):
        self.program.stdin.write(b"".join(self.waiting) + b"pump\n" * bool(self.open))
        self.program.stdin.flush()
        self.waiting = []

    def wait(self):
        """Returns how many more are confirmed: all that was sent."""
        count, self.open = self.open, 0
        for _ in range(count):
            line = self.program.stdout.readline()
            if not line.startswith(b"confirmed "):
                raise ConnectionError(f"qq has answered {line!r}")
        return count

    def close(self):
        pass
