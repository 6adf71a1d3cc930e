"""Makes crates/cases/stdin and crates/cases/stdout: the records of list.txt, and what reading.py answers to them."""
import pathlib
import re
import sys

from reading import QUESTIONS

HERE = pathlib.Path(__file__).resolve().parent
CRATE = HERE.parent.parent / "crates" / "cases"
FAR, LARGEST = 255, 18446744073709551615
SIGNS = {"↵": b"\n", "␍": b"\r", "⇥": b"\t", "␀": b"\0", "␠": b" "}


def source(text):
    """The bytes of a source as the list writes it."""
    parts = re.findall(r"‹([0-9A-F]{2})›|(.)", text)
    return b"".join(bytes([int(h, 16)]) if h else SIGNS.get(c, c.encode()) for h, c in parts)


def places(word, s):
    if word == "*":
        return 0, len(s)
    if word == "far":
        return FAR, FAR
    first, _, last = word.partition("-")
    return int(first), int(last or first)


def span(word):
    a, e = word.split("-")
    return int(a), int(e)


def further(name, words, s):
    """The four further numbers of a record, and the same as reading.py takes them."""
    if name == "within":
        return [int(w) for w in words], [int(w) for w in words]
    if name in ("one_at", "two_at", "mark_end", "pair_end"):
        return list(words[0].encode()), [words[0].encode()]
    if name in ("all_at", "word_end"):
        a, e = span(words[0])
        return [a, e], [s[a:e] if e <= len(s) else b""]
    if name == "line_at":
        return list(span(words[0])), list(span(words[0]))
    if name in ("unit_at", "run_at", "write"):
        quoted = words[0] == "q"
        a, e = (0, 0) if words[0] in "qh" else span(words[0][1:])
        more = [int(w) for w in words[1:]]
        return [a, e, int(quoted)] + more, [None if quoted else s[a:e]] + more
    if name == "same_key":
        return [int(words[0])], [int(words[0])]
    if name == "met_before":
        starts = [int(w) for w in words[0].split(",")]
        return (starts + [0, 0])[:3] + [int(words[1])], [starts, int(words[1])]
    return [], []


def case(question, s):
    """A record, and its line."""
    name, where, *words = question.split(" ")
    number, answer = QUESTIONS[name]
    first, last = places(where, s)
    numbers, given = further(name, words, s)
    head = [number, first, last] + (numbers + [0] * 4)[:4] + [len(s)]
    asked = [LARGEST if p == FAR else p for p in range(first, last + 1)]
    line = ",".join("".join(" %d" % n for n in answer(s, p, *given)) for p in asked)
    return bytes(head) + s, "%d:%s\n" % (number, line)


def cases(text):
    """The records of the list, in its order: for each source the questions of its block."""
    questions, open_block = [], False
    for line in text.splitlines():
        if line.startswith("? "):
            if not open_block:
                questions, open_block = [], True
            questions.append(line[2:])
        elif line.startswith("`"):
            open_block = False
            s = source(line[1:line.rindex("`")])
            for q in questions:
                yield case(q, s)
        elif line and not line.startswith("#"):
            sys.exit("no line of the list: " + line)


if __name__ == "__main__":
    made = list(cases((HERE / "list.txt").read_text(encoding="utf-8")))
    (CRATE / "stdin").write_bytes(b"".join(r for r, _ in made))
    (CRATE / "stdout").write_text("".join(l for _, l in made))
    print(len(made), "records")
