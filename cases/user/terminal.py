"""Runs ./qq with a terminal as its standard error, and says what it shows there: a script from a file, one from a
pipe, a drill, and a short script."""
import os
import pty
import re
import select
import signal
import subprocess
import sys

# How long anything may take to be shown.
SECONDS = 600
# A program that reads its input late.
SLOW = """#!/bin/sh
sleep 1.5; head -n 3; sleep 3; cat > /dev/null
"""


def shown(command):
    ours, theirs = pty.openpty()
    child = subprocess.Popen(["bash", "-c", command], stderr=theirs, stdout=subprocess.DEVNULL)
    os.close(theirs)
    text = b""
    while True:
        try:
            piece = os.read(ours, 4096)
        except OSError:
            break
        if not piece:
            break
        text += piece
    child.wait()
    text = text.decode()
    rows = [row for row in re.split(r"\r\x1b\[K|\r\n", text) if row]
    return {re.sub(r"\d[\d,]*", "9", row) for row in rows}, text.endswith("\r\x1b[K")


def interrupted():
    """Returns what a terminal shows of a run that is ended there."""
    process, ours = pty.fork()
    if process == 0:
        # What runs this may ignore it, as a shell does for what it has in the background.
        signal.signal(signal.SIGINT, signal.SIG_DFL)
        os.execv("./qq", ["./qq", "script"])
    text = read_until(ours, b"printed\r\n")
    os.write(ours, b"publish a\n")
    text += read_until(ours, b"confirmed 1")
    os.write(ours, b"\x03")
    text += read_until(ours, b"nothing is kept")
    os.waitpid(process, 0)
    return [row for row in text.decode().split("\r\n") if row]


def read_until(file, wanted):
    text = b""
    while wanted not in text:
        if not select.select([file], [], [], SECONDS)[0]:
            sys.exit(f"nothing came in {SECONDS} seconds after {text}")
        text += os.read(file, 4096)
    return text


def main():
    with open("slow", "w", encoding="utf-8") as file:
        file.write(SLOW)
    os.chmod("slow", 0o755)
    with open("many.qq", "w", encoding="utf-8") as file:
        file.write("publish =100\n" * 2000)
    launch = f'python3 "{os.environ["TREE"]}/tools/launcher/launch.py" ./slow script'
    print(*shown(f"{launch} < many.qq"))
    print(*shown(f"cat many.qq | {launch}"))
    print(*shown(f"{launch[:-len('script')]}drill 7 < /dev/null"))
    print(*shown("./qq script --nodes 3 < /dev/null"))
    print(*interrupted(), sep="\n")


main()
