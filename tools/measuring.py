"""Runs the program on a task of places.py, and measures what that costs.

`measure(program, task, room, bounds, counts)` gives a Cost. The files of the run are in the folder `room`; a run that takes
more seconds of processor time than its bounds say, or too much memory, is stopped, and its stack is as large as they say, in
MiB, or as it is anyway. Where `counts` is true valgrind counts the instructions of the run instead of its seconds.
"""
import collections
import os
import re
import resource
import signal
import subprocess
import time

# Seconds or instructions, and the greatest memory in MiB; or, in words, why there are none, and whether the program has
# done what it must not.
Cost = collections.namedtuple("Cost", "amount mebibytes failed wrong", defaults=(None, False))
Bounds = collections.namedtuple("Bounds", "seconds stack", defaults=(None,))
# How much memory a run may take before it is stopped, in MiB.
MOST_MEMORY = 2048
# A run with less seconds than this is made three times, and the one with the least counts.
SHORT = 0.1
# The program's status where memory ran out.
MEMORY_RAN_OUT = 30
COUNTER = ["valgrind", "--tool=cachegrind", "--cache-sim=no", "--branch-sim=no", "--cachegrind-out-file=/dev/null"]
COUNTED = re.compile(r"I\s+refs:\s+([\d,]+)")


class Stopped(Exception):
    """Why a run has no cost, in a few words."""


class Wrong(Stopped):
    """The same, where the program has done what it must not."""


def memory_of(number):
    """The greatest memory of a running process so far, in MiB, or 0 where it has ended."""
    try:
        with open(f"/proc/{number}/status", encoding="utf-8") as file:
            found = [int(line.split()[1]) for line in file if line.startswith("VmHWM:")]
    except OSError:
        return 0
    return found[0] / 1024 if found else 0


def wait_for(process):
    """Waits for the end of a process, and gives what it has used and its greatest memory in MiB."""
    began, most = time.monotonic(), 0
    # (what is told of a process behind its end isn't less than what this one had when it made it)
    least = resource.getrusage(resource.RUSAGE_SELF).ru_maxrss / 1024
    while True:
        number, status, used = os.wait4(process.pid, os.WNOHANG)
        if number:
            break
        most = max(most, memory_of(process.pid))
        if most > MOST_MEMORY:
            raise Stopped(f"over {MOST_MEMORY} MiB")
        time.sleep(min(0.02, 0.001 + (time.monotonic() - began) / 20))
    process.returncode = -os.WTERMSIG(status) if os.WIFSIGNALED(status) else os.WEXITSTATUS(status)
    told = used.ru_maxrss / 1024
    return used, told if told > least else most


def run(command, room, bounds):
    """Runs a command with the input of the room, and gives its status, its seconds, and its greatest memory in MiB."""

    def set_limits():
        resource.setrlimit(resource.RLIMIT_CPU, (bounds.seconds, bounds.seconds + 1))
        resource.setrlimit(resource.RLIMIT_CORE, (0, 0))
        if bounds.stack:
            resource.setrlimit(resource.RLIMIT_STACK, (bounds.stack << 20, bounds.stack << 20))

    with open(f"{room}/input", "rb") as source, open(f"{room}/output", "wb") as sink:
        process = subprocess.Popen(command, cwd=room, stdin=source, stdout=sink, stderr=subprocess.DEVNULL, preexec_fn=set_limits)
    try:
        used, mebibytes = wait_for(process)
    finally:
        if process.returncode is None:
            process.kill()
            process.wait()
    return process.returncode, used.ru_utime + used.ru_stime, mebibytes


def judge(task, status, seconds, room, limit):
    """Says by Stopped why a run that has ended isn't one of the task, where it isn't."""
    if seconds >= limit or status == -signal.SIGXCPU:
        raise Stopped(f"over {limit} s")
    if status < 0:
        raise Wrong(f"ended by {signal.Signals(-status).name}")
    if status == MEMORY_RAN_OUT:
        raise Stopped("memory ran out")
    with open(f"{room}/output", encoding="utf-8", errors="replace") as file:
        unlike = first_unlike(file, task.answer)
    if unlike is not None:
        raise Wrong(f"wrong answer, status {status}: {unlike[:80].strip() or 'no further line'}")


def first_unlike(file, wanted):
    """The first line of a file that isn't as it is wanted, empty where one is missing, or None where all are."""
    for pattern, number in wanted:
        matches = re.compile(f"{pattern}\n").fullmatch
        for _ in range(number):
            line = file.readline()
            if not matches(line):
                return line
    return file.readline() or None


def write_files(task, room):
    """Writes the problem and the input of a task into the room."""
    for name, text in (("problem.nddl", task.problem), ("input", task.script or "")):
        with open(f"{room}/{name}", "w", encoding="utf-8") as file:
            file.write(text)


def measure(program, task, room, bounds, counts):
    """What the program costs on a task, as told above."""
    write_files(task, room)
    command = [program, task.command, "problem.nddl", *task.further]
    if counts:
        command = [*COUNTER, f"--log-file={room}/counted", *command]
    costs = []
    try:
        while not costs or (len(costs) < 3 and costs[-1].amount < SHORT):
            status, seconds, mebibytes = run(command, room, bounds)
            judge(task, status, seconds, room, bounds.seconds)
            costs.append(Cost(counted(room) if counts else seconds, mebibytes))
    except Stopped as why:
        return Cost(None, None, str(why), isinstance(why, Wrong))
    return min(costs)


def counted(room):
    """The number of instructions that valgrind has counted."""
    with open(f"{room}/counted", encoding="utf-8", errors="replace") as file:
        found = COUNTED.search(file.read())
    if not found:
        raise Stopped("valgrind has counted nothing")
    return int(found[1].replace(",", ""))
