"""Runs the program as a child: its standard output and its status are its own.

An input that is a file is handed over as it is, and its place shows how far it was read. Any other is passed on by the
launcher, which keeps its last lines. What the program reads is the same bytes either way."""
import ctypes
import os
import signal
import stat
import subprocess
import sys
import threading
import time

LIBC = ctypes.CDLL(None, use_errno=True)
END_WITH_PARENT = 1  # PR_SET_PDEATHSIG
KEPT = 1 << 20
CHUNK = 1 << 16
QUIET_SECONDS = 2


def end_with_parent():
    """The program ends with its launcher, however that ends, and gives its folder free."""
    LIBC.prctl(END_WITH_PARENT, signal.SIGKILL)


class FileInput:
    """An input that is a file. Its place moves as the program reads."""

    def __init__(self):
        self.start = os.lseek(0, 0, os.SEEK_CUR)
        self.counted, self.place, self.all = 0, self.start, None

    def hand_over(self):
        return 0

    def lines_until(self, place):
        """Returns how many lines end before a place of the file."""
        while self.place < place:
            piece = os.pread(0, min(1 << 20, place - self.place), self.place)
            if not piece:
                break
            self.counted += piece.count(b"\n")
            self.place += len(piece)
        return self.counted

    def read(self):
        return self.lines_until(os.lseek(0, 0, os.SEEK_CUR))

    def head(self):
        """Returns the first bytes that the program will read."""
        return os.pread(0, KEPT, self.start)

    def total(self):
        if self.all is None:
            other = FileInput.__new__(FileInput)
            other.counted, other.place = 0, self.start
            self.all = other.lines_until(os.fstat(0).st_size)
        return self.all

    def tail(self):
        """Returns the last bytes that the program may have read, from the beginning of a line on, and the number of
            lines before them."""
        end = os.lseek(0, 0, os.SEEK_CUR)
        begin = max(self.start, end - KEPT)
        text = b"".join(iter_pieces(begin, end))
        if begin > self.start:
            text = text[text.find(b"\n") + 1 :]
        before = FileInput.__new__(FileInput)
        before.counted, before.place = 0, self.start
        return before.lines_until(end - len(text)), text


def iter_pieces(place, end):
    while place < end:
        piece = os.pread(0, min(CHUNK, end - place), place)
        if not piece:
            return
        yield piece
        place += len(piece)


class PassedInput:
    """An input that is passed on, piece by piece as it comes. The last pieces are kept."""

    def __init__(self):
        self.pieces, self.kept, self.dropped, self.lines = [], 0, 0, 0
        self.changing = threading.Lock()

    def hand_over(self):
        return subprocess.PIPE

    def pass_on(self, to):
        try:
            while piece := os.read(0, CHUNK):
                self.keep(piece)
                to.write(piece)
                to.flush()
        except OSError:
            pass
        try:
            to.close()
        except OSError:
            pass

    def keep(self, piece):
        with self.changing:
            self.pieces.append(piece)
            self.kept += len(piece)
            self.lines += piece.count(b"\n")
            while self.kept - len(self.pieces[0]) > KEPT:
                first = self.pieces.pop(0)
                self.kept -= len(first)
                self.dropped += first.count(b"\n")

    def read(self):
        return self.lines

    def total(self):
        return None

    def tail(self):
        with self.changing:
            text, before = b"".join(self.pieces), self.dropped
        if before:
            cut = text.find(b"\n") + 1
            return before + 1, text[cut:]
        return before, text


def input_of():
    try:
        kind = os.fstat(0).st_mode
    except OSError:
        return None
    if stat.S_ISREG(kind):
        return FileInput()
    return None if stat.S_ISCHR(kind) and not os.isatty(0) else PassedInput()


def progress(ended, given, begun):
    """Says each second how many lines were read, until the run has ended."""
    shown, before, since = False, 0, begun
    while not ended.wait(max(0.0, QUIET_SECONDS - (time.monotonic() - begun)) or 1):
        now = time.monotonic()
        text = f"{now - begun:.0f} seconds"
        if given:
            lines, total = given.read(), given.total()
            of_all = f" of {total:,}" if total is not None else ""
            text = f"{lines:,}{of_all} lines read, {(lines - before) / (now - since):,.0f} a second, {text}"
            before, since = lines, now
        sys.stderr.write(f"\r\x1b[Kqq: {text}")
        sys.stderr.flush()
        shown = True
    if shown:
        sys.stderr.write("\r\x1b[K")
        sys.stderr.flush()


def is_shown(reads_input):
    """Whether progress is shown: on a terminal, on which nothing else is printed meanwhile."""
    return sys.stderr.isatty() and not (reads_input and sys.stdout.isatty())


def run(words, reads_input=True):
    """Runs the program. Returns its status, negative after a signal, and the input as far as it is known."""
    given = input_of() if reads_input else None
    child = subprocess.Popen(words, stdin=given.hand_over() if given else None, preexec_fn=end_with_parent)
    for name in (signal.SIGTERM, signal.SIGHUP):
        if signal.getsignal(name) != signal.SIG_IGN:
            signal.signal(name, lambda number, _: child.send_signal(number))
    signal.signal(signal.SIGINT, signal.SIG_IGN)
    if isinstance(given, PassedInput):
        threading.Thread(target=given.pass_on, args=(child.stdin,), daemon=True).start()
    ended = threading.Event()
    teller = threading.Thread(target=progress, args=(ended, given, time.monotonic()), daemon=True)
    if is_shown(reads_input):
        teller.start()
    status = child.wait()
    ended.set()
    if teller.is_alive():
        teller.join()
    return status, given


def leave(status):
    """Ends the launcher as the program has ended."""
    sys.stdout.flush()
    sys.stderr.flush()
    if status < 0:
        signal.signal(-status, signal.SIG_DFL)
        os.kill(os.getpid(), -status)
    os._exit(status)
