"""What the programs of this folder share: the program that is timed, runs, instructions, the slots of names, and images in sparse files."""

import mmap
import os
import re
import subprocess
import sys
import time

PART = 1 << 16  # bytes of a file that are written, or are a hole


def program(at=1, default="crates/adf/out/adf"):
    """The program that a word of the command line names, or the one that a check leaves here."""
    return os.path.abspath(sys.argv[at] if len(sys.argv) > at else default)


def best(command, given, taken, repeats, environment=None):
    """The least seconds and the greatest peak memory in bytes over several runs."""
    seconds, peak = [], 0
    for _ in range(repeats):
        with open(given, "rb") as source, open(taken, "wb") as target:
            begin = time.perf_counter()
            child = subprocess.Popen(command, stdin=source, stdout=target, stderr=subprocess.PIPE, env=environment)
            said = child.stderr.read()
            _, status, usage = os.wait4(child.pid, 0)
            seconds.append(time.perf_counter() - begin)
            child.stderr.close()
        if status != 0:
            sys.exit(f"{command}: status {status}, {said.decode()}")
        peak = max(peak, usage.ru_maxrss * 1024)
    return min(seconds), peak


def instructions(command, given, folder, within=None):
    """Instructions of a run, or of what one function of it does; copies of memory left out. valgrind counts them."""
    out = os.path.join(folder, "callgrind")
    valgrind = ["valgrind", "--tool=callgrind", f"--callgrind-out-file={out}"]
    only = [f"--toggle-collect={within}"] if within else []
    with open(given, "rb") as source:
        subprocess.run([*valgrind, *only, *command], stdin=source, stdout=subprocess.DEVNULL, stderr=subprocess.DEVNULL)
    said = subprocess.run(["callgrind_annotate", "--threshold=100", out], capture_output=True, text=True).stdout
    total = copies = 0
    for line in said.splitlines():
        number = re.match(r"\s*([\d,]+)", line)
        if number and "PROGRAM TOTALS" in line:
            total = int(number[1].replace(",", ""))
        elif number and re.search(r":__mem(cpy|move|set)", line):
            copies += int(number[1].replace(",", ""))
    return total - copies


def empty_image(blocks):
    """The bytes of so many blocks, which are zeros, and take memory only where they are changed."""
    return mmap.mmap(-1, 512 * blocks, flags=mmap.MAP_PRIVATE | mmap.MAP_ANONYMOUS)


def save(image, path):
    """Writes an image into a new file, with holes where it has zeros."""
    with open(path, "wb") as file:
        file.truncate(len(image))
        for at in range(0, len(image), PART):
            part = image[at : at + PART]
            if part.count(0) != len(part):
                file.seek(at)
                file.write(part)


def slot_of(name):
    """The slot of a name's chain."""
    number = len(name)
    for byte in name.upper():
        number = (number * 13 + byte) % 2048
    return number % 72
