"""Times programs that print one line, from their start to their end, and reads their peak memory.

Called by the script `start` beside it: measure.py RUNS XS SCRIPT.
"""

import os
import shutil
import statistics
import subprocess
import sys
import tempfile
import time


def run(words):
    """One run with its output thrown away, in milliseconds."""
    away = [(os.POSIX_SPAWN_OPEN, 1, os.devnull, os.O_WRONLY, 0)]
    begun = time.perf_counter()
    child = os.posix_spawn(words[0], words, os.environ, file_actions=away)
    _, status = os.waitpid(child, 0)
    spent = (time.perf_counter() - begun) * 1000
    if os.waitstatus_to_exitcode(status) != 0:
        sys.exit(f"{words[0]} failed")
    return spent


def peak(words):
    """The peak memory of one run, as GNU time reads it. A child's own count begins with what its parent
    had, so that Python itself, which is large, can't read it."""
    gnu_time = shutil.which("time")
    if gnu_time is None:
        return "peak unknown: GNU time isn't installed"
    timed = [gnu_time, "-f", "%M", *words]
    done = subprocess.run(timed, stdout=subprocess.DEVNULL, stderr=subprocess.PIPE, check=True)
    return f"{int(done.stderr.split()[-1]) / 1024:6.2f} MB"


def measure(words, runs):
    for _ in range(min(runs, 20)):
        run(words)
    times = [run(words) for _ in range(runs)]
    tenths = statistics.quantiles(times, n=10)
    return statistics.median(times), tenths[0], tenths[-1]


def rivals(folder):
    """The other engines that are installed, on a program that prints the same line."""
    script = os.path.join(folder, "hi.js")
    with open(script, "w") as file:
        file.write('print("hi");\n')
    for name in ("mujs", "duk"):
        path = shutil.which(name)
        if path is None:
            print(f"{name}: not installed")
        else:
            yield name, [path, script]


def main():
    runs, xs, script = int(sys.argv[1]), sys.argv[2], sys.argv[3]
    if runs < 2:
        sys.exit("at least 2 runs")
    with tempfile.TemporaryDirectory() as folder:
        rows = [("xs eval", [xs, "eval", script]), *rivals(folder), ("true", [shutil.which("true")])]
        print(f"{runs} runs each; milliseconds: median (a tenth below .. a tenth above); peak memory")
        for name, words in rows:
            median, low, high = measure(words, runs)
            print(f"{name:8} {median:6.2f} ms ({low:.2f} .. {high:.2f})  {peak(words)}")


main()
