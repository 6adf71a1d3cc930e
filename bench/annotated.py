"""Instructions a byte of one call, by function, as a table: annotated.py WITH WITHOUT BYTES, what callgrind_annotate says of a run with the call and of one without it."""
import re
import sys

LINE = re.compile(r"\s*([\d,]+) \(\s*[\d.]+%\)\s+\S+?:(.+?)(?: \[.*)?$")


def counts(path):
    total = {}
    for line in open(path):
        found = LINE.match(line)
        # a function that calls itself stands there with a number for each round
        name = found and re.sub(r"'\d+$", "", found.group(2).strip())
        # the driver and the C library are not asked about
        if name and ("::" in name or name.startswith("vealtikum_")):
            total[name] = total.get(name, 0) + int(found.group(1).replace(",", ""))
    return total


def main(with_call, without, size):
    before = counts(without)
    print("| Function | Instructions a byte |\n|---|--:|")
    rest = 0
    for name, count in sorted(((n, c - before.get(n, 0)) for n, c in counts(with_call).items()), key=lambda pair: -pair[1]):
        if 2 * count < size:
            rest += count
        else:
            print("| `%s` | %.1f |" % (name, count / size))
    print("| all else | %.1f |" % (rest / size))


main(sys.argv[1], sys.argv[2], int(sys.argv[3]))
