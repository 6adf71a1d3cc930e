"""Makes the sources that the speed is measured on: python3 bench/generate.py FOLDER

The same sources come out each time. Each is one expression, with no line ending behind it.
"""
import pathlib
import random
import sys

SIZES = {"4k": 4096, "16k": 16384, "64k": 65535}
MIXED = 60000
LEVELS = 64
WORDS = "count cutoff depth gene genome index kit lane library log mapped mean median quality rate reads region ribosomal run sample scale seed site species strand tissue total trim window".split()


def name(r):
    return "_".join(r.choice(WORDS) for _ in range(r.randint(1, 3)))


def value(r, deep=0):
    """A value as settings have them: mostly plain, now and then a list, a call or a formula."""
    plain = [
        lambda: str(r.randint(0, 9999)),
        lambda: f"{r.randint(0, 9)}.{r.randint(0, 999)}",
        lambda: r.choice(["true", "false", "null"]),
        lambda: f'"{" ".join(r.choice(WORDS) for _ in range(r.randint(1, 6)))}"',
        lambda: f'"data/{r.choice(WORDS)}/{r.choice(WORDS)}-{r.randint(1, 99)}.tsv"',
        lambda: f'"${{{name(r)}}}/{r.choice(WORDS)}.log"',
        lambda: f"{name(r)}.{r.choice(WORDS)}[{r.randint(0, 9)}]",
    ]
    rich = [
        lambda: "[" + ", ".join(value(r, deep + 1) for _ in range(r.randint(1, 6))) + "]",
        lambda: f"{r.choice(WORDS)}({', '.join(value(r, deep + 1) for _ in range(r.randint(1, 3)))})",
        lambda: f"{name(r)} * {r.randint(1, 99)} + ({name(r)} - 1) / 2",
        lambda: f"{name(r)} > {r.randint(1, 99)} ? {value(r, deep + 1)} : {value(r, deep + 1)}",
        lambda: f"[for s in {name(r)} : s.{r.choice(WORDS)} if s.{r.choice(WORDS)} >= {r.randint(1, 9)}]",
    ]
    return r.choice(plain + (rich if deep < 2 else []))()


def mixed(size):
    """Named groups of settings, a comment here and there."""
    r = random.Random(7)
    out, n = "{\n", 0
    while True:
        group = [f"  # {' '.join(r.choice(WORDS) for _ in range(6))}"] if r.random() < 0.5 else []
        group.append(f"  group_{n} = {{")
        group += [f"    {name(r)}_{i} = {value(r)}" for i in range(r.randint(6, 24))]
        group.append("  }")
        more = "\n".join(group) + "\n"
        if size < len(out) + len(more) + 1:
            return out + "}"
        out, n = out + more, n + 1


def operators(size):
    """Names and numbers with an operator between each two."""
    r = random.Random(11)
    every = "* / % + - > >= < <= == != && ||".split()
    out = "a"
    while True:
        more = f" {r.choice(every)} {r.choice(['a', 'b1', '7', '42', 'rate'])}"
        if size < len(out) + len(more):
            return out
        out += more


def brackets(size):
    """An array whose every item opens all levels that are left."""
    item = "(" * (LEVELS - 1) + "1" + ")" * (LEVELS - 1)
    return listed(size, lambda i: item)


def listed(size, item):
    """An array of items."""
    out, n = "[" + item(0), 1
    while len(out) + len(item(n)) + 2 <= size:
        out, n = out + "," + item(n), n + 1
    return out + "]"


def texts(size):
    """Heredocs and templates."""
    r = random.Random(13)
    out, n = "{\n", 0
    while True:
        lines = [f"    {' '.join(r.choice(WORDS) for _ in range(8))} ${{{name(r)}}} {r.choice(WORDS)}" for _ in range(4)]
        more = f"  text_{n} = <<-EOT\n" + "\n".join(lines) + "\n  EOT\n"
        more += f'  line_{n} = "{r.choice(WORDS)}\\t${{{name(r)}}} of ${{upper({name(r)})}}: {" ".join(r.choice(WORDS) for _ in range(5))}\\n"\n'
        if size < len(out) + len(more) + 1:
            return out + "}"
        out, n = out + more, n + 1


def keys(count, between="=", brackets="{}"):
    """Short keys in one object; with a comma for each `=` and other brackets the same bytes are an array."""
    return brackets[0] + ",".join(f"k{i}{between}{i % 10}" for i in range(count)) + brackets[1]


def keyed(size):
    count = 1
    while len(keys(count + 1)) <= size:
        count += 1
    return keys(count)


def comments(size):
    """Long comments of both forms."""
    r = random.Random(17)
    out = "["
    while True:
        words = " ".join(r.choice(WORDS) for _ in range(60))
        more = f"\n  # {words}\n  /* {words} */ 1,"
        if size < len(out) + len(more) + 1:
            return out + "]"
        out += more


MATERIALS = {"mixed": mixed, "operators": operators, "brackets": brackets, "texts": texts, "keys": keyed, "comments": comments}


def main():
    folder = pathlib.Path(sys.argv[1])
    folder.mkdir(parents=True, exist_ok=True)
    made = {f"{n}-{k}": f(s) for n, f in MATERIALS.items() for k, s in SIZES.items()}
    made["mixed-60000"] = mixed(MIXED)
    for count in (200, 2000):
        made[f"keys-{count}"] = keys(count)
        made[f"array-{count}"] = keys(count, ",", "[]")
    for file, source in made.items():
        (folder / f"{file}.hcl").write_text(source, newline="")


main()
