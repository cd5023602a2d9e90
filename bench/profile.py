"""Where the instructions of a workload go, by function: how many, how many calls, and how many a call.

    python3 bench/profile.py NAME SIDE [FUNCTION]

NAME and SIDE as in bench/main.rs. With FUNCTION, its blocks of code too, those that run most first, each disassembled. Counts are those of one run
of the workload less those of SIDE none, divided by its units. It wants what bench/run made, and qemu-x86_64 with its plugin.
"""

import bisect
import collections
import pathlib
import shutil
import subprocess
import sys

WORK = pathlib.Path(__file__).parent.parent / "target" / "bench"
PROGRAM = str(WORK / "main")
FOREIGN = "other libraries"
SHOWN_BLOCKS = 25


def tool(name):
    """A tool for x86-64 programs."""
    return shutil.which(f"x86_64-linux-gnu-{name}") or name


def blocks(name, side, repeats):
    """What each block of code did: (address, "runs" or "instructions") -> how many."""
    listed = WORK / "blocks"
    plugin = f"{WORK / 'count.so'},out={WORK / 'count'},blocks={listed}"
    root = "/" if pathlib.Path("/lib64/ld-linux-x86-64.so.2").exists() else "/usr/x86_64-linux-gnu"
    command = ["qemu-x86_64", "-L", root, "-plugin", plugin, PROGRAM, name, side, str(repeats)]
    subprocess.run(command, check=True, stdout=subprocess.DEVNULL)
    found = collections.Counter()
    for line in listed.read_text().splitlines():
        address, runs, instructions = line.split()
        found[int(address, 16), "runs"] += int(runs)
        found[int(address, 16), "instructions"] += int(instructions)
    return found


def one_run(name, side):
    found = blocks(name, side, 2)
    found.subtract(blocks(name, side, 1))
    return found


def symbols():
    text = subprocess.run([tool("nm"), "-C", "-S", "--defined-only", PROGRAM], check=True, capture_output=True, text=True).stdout
    found = []
    for line in text.splitlines():
        parts = line.split(None, 3)
        if len(parts) == 4 and parts[2] in "tTwW":
            found.append((int(parts[0], 16), int(parts[1], 16), parts[3]))
    return sorted(found)


def units(name):
    for line in (WORK / "list").read_text().splitlines():
        known, count, _ = line.split()
        if known == name:
            return int(count)
    sys.exit(f"no workload {name}")


def main():
    name, side, *wanted = sys.argv[1:]
    per = units(name)
    done = one_run(name, side)
    done.subtract(one_run(name, "none"))
    known = symbols()
    starts = [start for start, _, _ in known]

    def function(address):
        place = bisect.bisect(starts, address) - 1
        if place >= 0 and address < known[place][0] + known[place][1]:
            return known[place][2]
        return FOREIGN

    total, calls = collections.Counter(), collections.Counter()
    for (address, kind), count in done.items():
        if kind == "instructions":
            total[function(address)] += count
        elif address in starts:
            calls[function(address)] += count
    print(f"{name}, {side}: {sum(total.values()) / per:,.1f} instructions a unit")
    for label, count in total.most_common(20):
        if abs(count) / per >= 0.5:
            each = f"{calls[label] / per:10,.2f} calls of {count / calls[label]:8,.1f}" if calls[label] > 0 else ""
            print(f"{count / per:14,.1f}  {label:32} {each}")
    if wanted:
        show_blocks(done, per, wanted[0], function)


def show_blocks(done, per, wanted, function):
    inside = {address: done[address, "runs"] for address, _ in done if function(address) == wanted and done[address, "runs"] > 0}
    for address in sorted(inside, key=lambda address: -done[address, "instructions"])[:SHOWN_BLOCKS]:
        cost, count = done[address, "instructions"], inside[address]
        size = round(cost / count)
        print(f"\n{cost / per:,.1f} a unit: {size} instructions, {count / per:,.2f} times, at {address:x}")
        command = [tool("objdump"), "-d", "-C", "--no-show-raw-insn", f"--start-address={address}", f"--stop-address={address + 15 * size}", PROGRAM]
        lines = subprocess.run(command, check=True, capture_output=True, text=True).stdout.splitlines()
        for line in [line for line in lines if line.startswith("  ")][:size]:
            print("   ", line.split("\t", 1)[1])


if __name__ == "__main__":
    main()
