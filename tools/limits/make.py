"""Makes crates/limits/stdin and crates/limits/stdout: the cases below, and what a reading in Python answers to them: python3 tools/limits/make.py READING

READING is a folder with a module `hcl`, whose `answer` gives ((kind, place), records, text) of a source."""
import pathlib
import struct
import sys

CRATE = pathlib.Path(__file__).resolve().parent.parent.parent / "crates" / "limits"
NODES, TEXT, WIDTH = 7000, 65535, 7

# What opens a level, and what ends it.
OPENERS = [
    (b"(", b")"),
    (b"[", b"]"),
    (b"{a=", b"}"),
    (b'"${', b'}"'),
    (b"-", b""),
    (b"!", b""),
    (b"a[", b"]"),
    (b"[for a in b:", b"]"),
    (b"{for a in b:", b"=>a}"),
    (b"a?", b":a"),
    (b"a?a:", b""),
    (b"f(", b")"),
]
# A source of one kind of text, at 65,535 bytes and one more: what comes before, what is repeated, what comes after.
LONG = [(b"[", b" ", b"]"), (b"1", b"1", b""), (b"a", b"a", b""), (b"(/*", b"x", b"*/1)"), (b'"\\n', b"x", b'"'), (b"[a#", b"x", b"\n]")]
# Many of a thing, which is no deeper than one: with room for none of the records, both needs are told.
MANY = [
    [(32767, b"1+"), (1, b"1")],
    [(1, b"["), (16000, b"1,"), (1, b"]")],
    [(1, b'"'), (10000, b"${a}"), (1, b'"')],
    [(1, b'"'), (10000, b"\\n${a}"), (1, b'"')],
    [(1, b"a"), (10000, b".b")],
    [(1, b"f("), (10000, b"a,"), (1, b")")],
]
# Sources whose room is exactly enough, one short, and no multiple of seven; the last three have text.
ROOM = [b"1", b"[]", b"1+2*3", b"{a=1,b=[c]}", b'"\\n"', b'"a\\tb${c}\\u00e9"', b"<<E\n$${x\nE"]

# The examples of the rules, the first ten and the others.
EXAMPLES = [
    b"1+2*3", b"8-3-2", b'"$$${"', b'"\\uD800"', b"f(a...)", b"a..b", b"", b"{a=1,a=2}", b'{a=1,"a"=2}', b"<<E\nx\nE", b"-1",
    b"<<E\nE", b"<<E\nEx\nE", b"[,]", b'"\\U0010FFFF"', b'"\\U00110000"',
]


def source(parts):
    return b"".join(part * times for times, part in parts)


def case(parts, nodes=NODES, text=TEXT):
    return parts, nodes, text


def cases():
    for opens, closes in OPENERS:
        for n in (64, 65):
            yield case([(n, opens), (1, b"a"), (n, closes)])
    for before, part, after in LONG:
        for n in (65535, 65536):
            yield case([(1, before), (n - len(before) - len(after), part), (1, after)])
    for parts in MANY:
        yield case(parts, 0, 0)
    for s in EXAMPLES:
        yield case([(1, s)])


def rooms(need):
    """Each source with the room that it needs, and with less and more."""
    for s in ROOM:
        nodes, text = need(s)
        for more in (0, -1, 1, 6, -WIDTH):
            yield case([(1, s[:13]), (1, s[13:])], nodes * WIDTH + more, text)
        if text:
            yield case([(1, s[:13]), (1, s[13:])], nodes * WIDTH, text - 1)
            yield case([(1, s[:13]), (1, s[13:])], nodes * WIDTH - 1, text - 1)


def written(parts, nodes, text):
    """A case as the program reads it."""
    out = struct.pack("<II", nodes, text)
    for times, part in (parts + [(0, b"")] * 4)[:4]:
        assert len(part) <= 13 and times < 65536
        out += struct.pack("<HB13s", times, len(part), part)
    return out


def main():
    sys.path.insert(0, sys.argv[1])
    sys.setrecursionlimit(1000000)
    from hcl import answer

    def lines(parts, nodes, text):
        s = source(parts)
        (kind, place), rows, bytes_ = answer(s)
        if kind:
            return f"{kind} {place} 0 0\n"
        needs = f"{len(rows)} {len(bytes_)}\n"
        if nodes // WIDTH < len(rows):
            return "11 0 " + needs
        if text < len(bytes_):
            return "12 0 " + needs
        return f"0 {place} {needs}" + "".join(" ".join(map(str, r)) + "\n" for r in rows)

    def need(s):
        _, rows, text = answer(s)
        return len(rows), len(text)

    all_ = list(cases()) + list(rooms(need))
    (CRATE / "stdin").write_bytes(b"".join(written(*c) for c in all_))
    (CRATE / "stdout").write_text("".join(lines(*c) for c in all_))
    print(len(all_), "cases")


main()
