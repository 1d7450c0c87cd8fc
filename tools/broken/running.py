"""Runs the program as people call it, with limits of time and memory, and tells how it ended."""
import os
import queue
import signal
import subprocess
import tempfile
import threading
import time

import program

# What a run may take: seconds of a processor, seconds by the clock (the machine may be busy), and memory in MiB.
SECONDS, PATIENCE, MEMORY = 10, 600, 300
PAGE = os.sysconf("SC_PAGE_SIZE")
TICKS = os.sysconf("SC_CLK_TCK")


class Wanting(Exception):
    """What a tool can't do without, in a sentence."""


class Stopped(Exception):
    """The tool is about to end, so a run was ended too."""


class Ended:
    """How a run ended: its status (below 0 for a signal), both outputs, its seconds and MiB, and the limit that it passed."""

    def __init__(self, status, output, errors, used, passed):
        self.status, self.output, self.errors, self.passed = status, output, errors, passed
        self.seconds = used.ru_utime + used.ru_stime
        self.memory = used.ru_maxrss / 1024


def place():
    """The path of the program that is tried."""
    found = os.environ.get("EUROPA") or program.PROVED
    path = os.path.abspath(found)
    if not os.path.isfile(path) or not os.access(path, os.X_OK):
        raise Wanting(f"there is no program at {found}: ./prove makes it, or the environment variable EUROPA names another one")
    return path


def end_as_by_hand():
    """Lets a tool end in order where it is told to end, as by Ctrl-C."""
    signal.signal(signal.SIGINT, signal.default_int_handler)
    signal.signal(signal.SIGTERM, signal.default_int_handler)


class Live:
    """A process that is under way, since when, and the limit that it has passed."""

    def __init__(self, process):
        self.process, self.began, self.passed = process, time.monotonic(), ""

    def look(self):
        """Ends the process where it has passed a limit."""
        seconds, memory = usage(self.process.pid)
        if seconds > SECONDS or time.monotonic() - self.began > PATIENCE:
            self.passed = self.passed or "time"
        elif memory > MEMORY:
            self.passed = self.passed or "memory"
        if self.passed:
            self.process.kill()


class Runner:
    """Runs of one program. `stop` ends those that are under way, and then there are no more."""

    def __init__(self, path):
        self.path, self.stopping = path, threading.Event()
        self.lock, self.live, self.guard = threading.Lock(), {}, threading.Thread(target=self.watch, daemon=True)

    def stop(self):
        with self.lock:
            self.stopping.set()
            for live in self.live.values():
                live.process.kill()

    def watch(self):
        """Looks at all that is under way, ten times a second."""
        while not self.stopping.wait(0.1):
            with self.lock:
                for live in self.live.values():
                    live.look()

    def run(self, words, folder, given, environment=None):
        """A run with these words in a folder; what is given is an open file, or subprocess.DEVNULL."""
        with tempfile.TemporaryFile() as output, tempfile.TemporaryFile() as errors:
            live = self.begin(words, cwd=folder, env=environment, stdin=given, stdout=output, stderr=errors)
            status, used = self.await_end(live)
            output.seek(0)
            errors.seek(0)
            if not live.passed and used.ru_maxrss > MEMORY * 1024:
                live.passed = "memory"
            return Ended(status, output.read(), errors.read(), used, live.passed)

    def begin(self, words, **options):
        with self.lock:
            if self.stopping.is_set():
                raise Stopped
            if self.guard.ident is None:
                self.guard.start()
            # (a session of its own, so that Ctrl-C comes to the tool alone, which then ends its runs)
            process = subprocess.Popen([self.path, *words], start_new_session=True, **options)
            live = self.live[process.pid] = Live(process)
        return live

    def await_end(self, live):
        """The status of a process at its end, and what it has used. It is forgotten before its number can be given anew."""
        process = live.process
        os.waitid(os.P_PID, process.pid, os.WEXITED | os.WNOWAIT)
        with self.lock:
            del self.live[process.pid]
            _, status, used = os.wait4(process.pid, 0)
        process.returncode = -os.WTERMSIG(status) if os.WIFSIGNALED(status) else os.WEXITSTATUS(status)
        if self.stopping.is_set():
            raise Stopped
        return process.returncode, used


def usage(number):
    """The seconds of a processor that a process has had, and the MiB that it has now."""
    try:
        with open(f"/proc/{number}/stat", "rb") as file:
            fields = file.read().rpartition(b")")[2].split()
    except OSError:
        return 0, 0
    return (int(fields[11]) + int(fields[12])) / TICKS, int(fields[21]) * PAGE / 2**20


def over(runner, jobs, items, act):
    """Gives what `act` gives for each item, as it comes, with so many threads at work; where it is left, all runs are ended."""
    ahead, lock, results = iter(items), threading.Lock(), queue.SimpleQueue()
    end = object()

    def work():
        try:
            while not runner.stopping.is_set():
                with lock:
                    item = next(ahead, end)
                if item is end:
                    break
                results.put((act(item), None))
        except Exception as error:
            results.put((end, error))
        else:
            results.put((end, None))

    threads = [threading.Thread(target=work) for _ in range(jobs)]
    try:
        for thread in threads:
            thread.start()
        left = jobs
        while left:
            found, error = results.get()
            if error:
                raise error
            if found is end:
                left -= 1
            else:
                yield found
    except BaseException:
        runner.stop()
        raise
    finally:
        for thread in threads:
            thread.join()
