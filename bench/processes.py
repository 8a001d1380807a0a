"""Programs that are run, timed and compared: their times, and scripts and printed files of any size."""
import collections
import os
import select
import signal
import time

PATIENCE = 1800  # seconds that a run may take
MEGABYTE = 1_000_000

Run = collections.namedtuple("Run", "seconds peak")
Times = collections.namedtuple("Times", "seconds least peak")  # of several runs


class Failed(Exception):
    """A run didn't do what it has to."""


def check(holds, what):
    if not holds:
        raise Failed(what)


def median(values):
    return sorted(values)[len(values) // 2]


def times_of(runs):
    """The median and the least seconds and the greatest peak, or None where a run failed."""
    if None in runs:
        return None
    seconds = [it.seconds for it in runs]
    return Times(median(seconds), min(seconds), max(it.peak for it in runs))


def seconds_of(times, remark=""):
    if times is None:
        return "failed"
    digits = 2 if times.seconds >= 1 else 3
    return f"{times.seconds:.{digits}f} ({times.least:.{digits}f}){remark}"


def answer(holds):
    return "yes" if holds else "no"


def lines_in(path):
    """How many lines the file has. It is never whole in memory, and neither is a script: the peak of
    a run would be at least what this process had taken."""
    count = 0
    with open(path, "rb") as it:
        while part := it.read(1 << 16):
            count += part.count(b"\n")
    return count


def last_line_of(path):
    with open(path, "rb") as it:
        it.seek(max(os.path.getsize(path) - 300, 0))
        return (it.read().split(b"\n")[-2:-1] or [b""])[0].decode("utf-8", "replace")


def write_repeated(path, front, part, times, back):
    block = part * 1000
    with open(path, "wb") as it:
        it.write(front)
        for _ in range(times // 1000):
            it.write(block)
        it.write(part * (times % 1000) + back)


def write_inserts(path, front, count):
    with open(path, "wb") as it:
        it.write(front)
        for number in range(1, count + 1):
            it.write(b"INSERT INTO n VALUES (%d);\n" % number)


class Process:
    """A program that runs in turns, with all that it prints in a file. Between them it is stopped."""

    def __init__(self, words, printed):
        self.words, self.printed, self.name = words, printed, os.path.basename(words[0])
        self.pid, self.ended, self.status, self.used, self.seconds = None, None, None, None, 0

    def start(self):
        into = (os.POSIX_SPAWN_OPEN, 1, self.printed, os.O_WRONLY | os.O_CREAT | os.O_TRUNC, 0o600)
        self.pid = os.posix_spawn(self.words[0], self.words, os.environ, file_actions=[into, (os.POSIX_SPAWN_DUP2, 1, 2)])
        self.ended = os.pidfd_open(self.pid)

    def turn(self, seconds):
        began = time.monotonic()
        if self.pid is None:
            self.start()
        else:
            os.kill(self.pid, signal.SIGCONT)
        select.select([self.ended], [], [], seconds)
        os.kill(self.pid, signal.SIGSTOP)
        # It goes on to the end of a call of the system.
        _, status, used = os.wait4(self.pid, os.WUNTRACED)
        self.seconds += time.monotonic() - began
        if not os.WIFSTOPPED(status):
            self.status, self.used = os.waitstatus_to_exitcode(status), used

    def is_done(self):
        return self.status is not None or self.seconds > PATIENCE

    def end(self):
        if self.pid is not None and self.status is None:
            os.kill(self.pid, signal.SIGKILL)
            os.wait4(self.pid, 0)
        if self.ended is not None:
            os.close(self.ended)

    def result(self, lines):
        """The whole run, which has to have printed so many lines."""
        check(self.status is not None, f"{self.name} didn't end")
        check(self.status == 0, f"{self.name} ended with status {self.status}; its last line: {last_line_of(self.printed)}")
        found = lines_in(self.printed)
        check(found == lines, f"{self.name} printed {found} lines and not {lines}; the last one: {last_line_of(self.printed)}")
        return Run(self.seconds, self.used.ru_maxrss * 1024)


def run_whole(process, lines):
    take_turns([process], PATIENCE)
    return process.result(lines)


def take_turns(all_of_them, seconds):
    try:
        while left := [it for it in all_of_them if not it.is_done()]:
            for it in left:
                it.turn(seconds)
    finally:
        for it in all_of_them:
            it.end()
