"""Times the front end's layers over a module, and node's check beside them.

Called by the script `front` beside it: front.py RUNS FRONT_BENCH FOLDER, where FOLDER has module.mjs and
empty.mjs.
"""

import os
import shutil
import subprocess
import sys
import time

TRIES = 7


def seconds(words):
    """The least time of some runs."""
    best = None
    for _ in range(TRIES):
        begun = time.perf_counter()
        subprocess.run(words, stdout=subprocess.DEVNULL, check=True)
        spent = time.perf_counter() - begun
        best = spent if best is None else min(best, spent)
    return best


def peak_bytes(words):
    """The peak memory of a run, as GNU time reads it; None where that isn't installed."""
    gnu_time = shutil.which("time")
    if gnu_time is None:
        return None
    done = subprocess.run([gnu_time, "-f", "%M", *words], stdout=subprocess.DEVNULL, stderr=subprocess.PIPE, check=True)
    return int(done.stderr.split()[-1]) * 1024


def count_tokens(program, module):
    """How many tokens the module has."""
    return int(subprocess.run([program, "tokens", module, "1"], stdout=subprocess.PIPE, check=True).stdout)


def measure(layer, runs, program, module):
    """The layer's speed, and its peak memory by the tokens of the module."""
    size = os.path.getsize(module)
    count = count_tokens(program, module)
    one = seconds([program, layer, module, "1"])
    many = seconds([program, layer, module, str(runs + 1)])
    rate = size * runs / (many - one) / 1e6
    print(f"{layer}: {size} bytes, {count} tokens, {rate:.1f} MB/s, {1000 * (many - one) / runs:.1f} ms a run")
    empty = peak_bytes([program, layer, module, "0"])
    full = peak_bytes([program, layer, module, "1"])
    if empty is None:
        print(f"{layer}: memory unknown: GNU time isn't installed")
    else:
        print(f"{layer}: {(full - empty) / count:.1f} bytes of memory a token, texts included, at the peak")


def measure_node(module, empty):
    node = shutil.which("node")
    if node is None:
        print("node: not installed")
        return
    spent = seconds([node, "--check", module]) - seconds([node, "--check", empty])
    print(f"node --check: {os.path.getsize(module) / spent / 1e6:.1f} MB/s, {1000 * spent:.1f} ms beyond an empty module")


def main():
    runs, program, folder = int(sys.argv[1]), sys.argv[2], sys.argv[3]
    module = os.path.join(folder, "module.mjs")
    measure("tokens", runs, program, module)
    measure("module", runs, program, module)
    measure_node(module, os.path.join(folder, "empty.mjs"))


main()
