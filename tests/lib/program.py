"""Programs timed by their own processor time: one of document 01's kind, asked some lines at a time in a folder with tables, and one that runs to its end."""
import os
import select
import subprocess
import tempfile
import time

ROOT = os.path.abspath(os.path.join(os.path.dirname(__file__), "..", ".."))
# bytes of lines that are written before answers are read: a pipe takes more, so that nobody waits for the other
BESIDE = 32768
HUNG = 600  # seconds by the wall, after which a program that takes no processor time is given up


def proved():
    """The command of the proved program, which is built if need be; RECIPE may name another one."""
    if "RECIPE" in os.environ:
        return [os.path.abspath(os.environ["RECIPE"])]
    subprocess.run([os.path.join(ROOT, "recipe")], stdin=subprocess.DEVNULL, check=True)
    return [os.path.join(ROOT, "tools/x86-64"), "run", os.path.join(ROOT, "crates/recipe/out/recipe")]


def replaying():
    """The command of the proved program that runs files of calls, which is built if need be."""
    subprocess.run([os.path.join(ROOT, "tools/build-program"), "test_replay"], check=True)
    return [os.path.join(ROOT, "tools/x86-64"), "run", os.path.join(ROOT, "crates/test_replay/out/test_replay")]


def is_emulated():
    """Whether the proved program runs in an emulator here, as tools/x86-64 decides."""
    return "RECIPE" not in os.environ and os.environ.get("DRUNQUILL_MACHINE", os.uname().machine) != "x86_64"


class TooLong(Exception):
    """The lines took more than was allowed, and the program was stopped."""


def clock_of(process):
    """The clock of a process's processor time: clock_getcpuclockid(3)."""
    return (~process.pid << 3) | 2


def seconds_to_end(command, most):
    """The processor time of a program that runs to its end; TooLong past so many seconds of it."""
    process = subprocess.Popen(command, stdin=subprocess.DEVNULL, stdout=subprocess.DEVNULL)
    given_up = time.monotonic() + HUNG
    while True:
        ended, status, used = os.wait4(process.pid, os.WNOHANG)
        if ended:
            process.returncode = os.waitstatus_to_exitcode(status)
            return used.ru_utime + used.ru_stime
        if time.clock_gettime(clock_of(process)) > most or time.monotonic() > given_up:
            process.kill()
            process.wait()
            raise TooLong
        time.sleep(0.005)


class Program:
    """The program in a folder. Neither its start nor other work on the machine is in the seconds that it gives."""

    def __init__(self, command, folder):
        self.said = tempfile.TemporaryFile()
        self.process = subprocess.Popen(command, cwd=folder, stdin=subprocess.PIPE, stdout=subprocess.PIPE, stderr=self.said, bufsize=0)
        self.clock = clock_of(self.process)
        self.unread = b""

    def __enter__(self):
        return self

    def __exit__(self, *_):
        self.process.stdin.close()
        self.process.stdout.close()
        self.process.kill()
        self.process.wait()
        self.said.close()

    def seconds(self):
        return time.clock_gettime(self.clock)

    def messages(self):
        """What it has written to standard error: the messages of all lines but perhaps the last that was answered."""
        return os.pread(self.said.fileno(), os.fstat(self.said.fileno()).st_size, 0)

    def answer(self, end):
        """The next answer, a line; TooLong where the program's clock passes `end` first."""
        given_up = time.monotonic() + HUNG
        while b"\n" not in self.unread:
            if select.select([self.process.stdout], [], [], 0.05)[0]:
                got = os.read(self.process.stdout.fileno(), 65536)
                if not got:
                    raise EOFError(f"the program ended: {self.messages()[:200]!r}")
                self.unread += got
            elif self.seconds() > end or time.monotonic() > given_up:
                raise TooLong
        answer, _, self.unread = self.unread.partition(b"\n")
        return answer

    def ask(self, lines, most=float("inf")):
        """The answers to some lines, and the seconds that they took, at most so many."""
        start = self.seconds()
        answers, waiting = [], b""
        for number, line in enumerate(lines, 1):
            waiting += line + b"\n"
            if number == len(lines) or len(waiting) > BESIDE - 4096:
                self.process.stdin.write(waiting)
                answers += [self.answer(start + most) for _ in range(number - len(answers))]
                waiting = b""
        taken = self.seconds() - start
        if taken > most:
            raise TooLong
        return answers, taken
