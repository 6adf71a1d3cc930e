"""Instructions a byte of one call, by function, as a table: where.py PROGRAM WITH WITHOUT BYTES, the blocks of a run with the call and of one without it."""
import bisect
import re
import subprocess
import sys
from collections import Counter

TOOLS = "x86_64-linux-gnu-"


def said(tool, *words, given=None):
    return subprocess.run([TOOLS + tool, *words], input=given, capture_output=True, text=True, check=True).stdout


def places(program):
    return [int(found, 16) for found in re.findall(r"^ *([0-9a-f]+):\t", said("objdump", "-d", "--no-show-raw-insn", program), re.M)]


def counts(order, blocks):
    total = Counter()
    for line in open(blocks):
        at, width, times = map(int, line.split())
        first = bisect.bisect_left(order, at)
        # the C library is loaded elsewhere
        if first < len(order) and order[first] == at:
            total.update(dict.fromkeys(order[first : first + width], times))
    return total


# The functions that each place is in, the innermost first: addr2line says the place, then a name and a line for each.
def functions(program, wanted):
    named, lines = {}, iter(said("addr2line", "-f", "-i", "-a", "-e", program, given="\n".join("%x" % at for at in wanted)).split("\n")[:-1])
    for line in lines:
        if line.startswith("0x"):
            here = named.setdefault(int(line, 16), [])
            continue
        next(lines)
        # the driver and the C library are not asked about
        if "::" in line or line.startswith("vealtikum_"):
            here.append(line)
    return named


def main(program, with_call, without, size):
    order = places(program)
    total = counts(order, with_call)
    total.subtract(counts(order, without))
    total = {at: count for at, count in total.items() if count}
    alone, whole = Counter(), Counter()
    for at, names in functions(program, total).items():
        alone[names[0] if names else None] += total[at]
        whole.update(dict.fromkeys(names, total[at]))
    del alone[None]
    print("| Function | Alone | With what is put into it |\n|---|--:|--:|")
    shown = [name for name, count in whole.most_common() if 2 * size <= count or size <= alone[name]]
    for name in shown:
        print("| `%s` | %.1f | %.1f |" % (name, alone[name] / size, whole[name] / size))
    print("| all else | %.1f | |" % ((sum(alone.values()) - sum(alone[name] for name in shown)) / size))


main(sys.argv[1], sys.argv[2], sys.argv[3], int(sys.argv[4]))
