"""Makes crates/recheck/stdin and crates/recheck/stdout out of crates/replay/stdin and crates/replay/stdout: python3 tools/recheck/make.py

A source has one reading. So a table and a text get 1 where they are the ones that the list of `replay` gives the source, and 0 where they differ from those in
any number or byte, or where the list says that the source is refused. No expected answer comes from the checker or the reader."""
import itertools
import pathlib
import random
import struct

CRATES = pathlib.Path(__file__).resolve().parent.parent.parent / "crates"
WIDTH = 7
# So many bytes of changed copies for each reading, at least so many copies and at most so many.
BYTES, FEWEST, MOST = 2450, 3, 48
# Only a table of fewer numbers is put under another source.
SMALL = 100
NUMBER, VARIABLE, STRING, TEMPLATE, HEREDOC, PIECE, ARRAY, OBJECT, PARENTHESES = 4, 5, 6, 7, 8, 9, 11, 12, 15
CONDITIONAL, NEGATION, NOT, TRAVERSAL = 21, 22, 23, 37
OPERATORS = dict(zip(range(24, 37), (b"*", b"/", b"%", b"+", b"-", b">", b">=", b"<", b"<=", b"==", b"!=", b"&&", b"||")))
# Another operator of the same length.
OTHER = {b"*": b"%", b"/": b"*", b"%": b"/", b"+": b"-", b"-": b"+", b">": b"<", b"<": b">"}
OTHER |= {b">=": b"<=", b"<=": b">=", b"==": b"!=", b"!=": b"==", b"&&": b"||", b"||": b"&&"}


def readings():
    """Each source of the list with its table and its text, or None where it is refused."""
    data = (CRATES / "replay" / "stdin").read_bytes()
    lines = (CRATES / "replay" / "stdout").read_text().split("\n")
    at = line = 0
    while at < len(data):
        end = at + 4 + struct.unpack_from("<I", data, at)[0]
        kind, _, nodes, _ = (int(x) for x in lines[line].split())
        if kind:
            yield data[at + 4 : end], None
            line += 3
        else:
            table = [int(x) for one in lines[line + 1 : line + 1 + nodes] for x in one.split()]
            yield data[at + 4 : end], (table, bytes.fromhex(lines[line + 1 + nodes]))
            line += 3 + nodes
        at = end


def rows(table):
    return [tuple(table[i : i + WIDTH]) for i in range(0, len(table), WIDTH)]


def flat(records):
    return [x for row in records for x in row]


def tree(records):
    """The root as (kind, flag, start, end, text start, text length, children)."""
    stack = []
    for kind, flag, start, end, count, text, length in records:
        children, under = [], count - 1
        while under:
            size, child = stack.pop()
            children.insert(0, child)
            under -= size
        stack.append((count, (kind, flag, start, end, text, length, children)))
    return stack[0][1]


def table_of(root):
    """The table of a tree, with the counts that belong to it."""
    records = []

    def put(node):
        before = len(records)
        for child in node[6]:
            put(child)
        records.append((*node[:4], len(records) - before + 1, *node[4:6]))

    put(root)
    return flat(records)


def with_node(root, change):
    """Each tree in which one node, with all under it, is exchanged for what `change` gives for it: lists of nodes that stand in its place."""
    for new in change(root):
        if len(new) == 1:
            yield new[0]
    for i, child in enumerate(root[6]):
        for new in with_node_list(child, change):
            yield (*root[:6], root[6][:i] + new + root[6][i + 1 :])


def with_node_list(node, change):
    yield from change(node)
    for i, child in enumerate(node[6]):
        for new in with_node_list(child, change):
            yield [(*node[:6], node[6][:i] + new + node[6][i + 1 :])]


def over(node, children):
    """A node over other children, from the first of them to the last."""
    return (*node[:2], children[0][2], children[-1][3], *node[4:6], children)


def regroup(node):
    """An operator that takes its operand's place, and the operand its own: to the right, to the left, with a condition, with a sign, with a traversal."""
    kind, children = node[0], node[6]
    if kind in OPERATORS:
        left, right = children
        if left[0] in OPERATORS:
            yield [over(left, [left[6][0], over(node, [left[6][1], right])])]
        if right[0] in OPERATORS:
            yield [over(right, [over(node, [left, right[6][0]]), right[6][1]])]
        if left[0] in (NEGATION, NOT):
            yield [(*left[:3], node[3], *left[4:6], [over(node, [left[6][0], right])])]
        if right[0] == CONDITIONAL:
            yield [over(right, [over(node, [left, right[6][0]])] + right[6][1:])]
    if kind == CONDITIONAL:
        first, second, third = children
        if first[0] in OPERATORS:
            yield [over(first, [first[6][0], over(node, [first[6][1], second, third])])]
        if third[0] in OPERATORS:
            yield [over(third, [over(node, [first, second, third[6][0]]), third[6][1]])]
        if third[0] == CONDITIONAL:
            yield [over(third, [over(node, [first, second, third[6][0]])] + third[6][1:])]
    if kind in (NEGATION, NOT) and children[0][0] == TRAVERSAL:
        inner = children[0]
        yield [over(inner, [(*node[:3], inner[6][0][3], *node[4:6], [inner[6][0]])] + inner[6][1:])]
    if kind == TRAVERSAL and len(children) > 2:
        yield [over(node, [over(node, children[:2])] + children[2:])]


def halves(node):
    """A literal piece in two, or with an empty one after it."""
    kind, flag, start, end, text, length, _ = node
    if kind == PIECE and not flag:
        for cut in {1, length // 2, length - 1, length} - {0}:
            yield [(kind, flag, start, start + cut, text, cut, []), (kind, flag, start + cut, end, text + cut, length - cut, [])]


def gone(node):
    yield []


def twice(node):
    yield [node, node]


def wrapped(node):
    yield [(PARENTHESES, 0, *node[2:4], 0, 0, [node])]


def turned(node):
    children = node[6]
    for i in range(len(children) - 1):
        yield [(*node[:6], children[:i] + [children[i + 1], children[i]] + children[i + 2 :])]


def copied(source, table, text):
    """A table in which the text of the source stands in the text buffer too, all in order."""
    records, buffer = [], b""
    for kind, flag, start, end, count, at, length in rows(table):
        if kind in (STRING, PIECE):
            said = text[at : at + length] if flag else source[at : at + length]
            records.append((kind, 1, start, end, count, len(buffer), length))
            buffer += said
        else:
            records.append((kind, flag, start, end, count, at, length))
    return flat(records), buffer


def trees(change):
    def of(source, table, text, draw):
        for root in with_node(tree(rows(table)), change):
            new = table_of(root)
            if all(0 <= x <= 65535 for x in new):
                yield source, new, text

    return of


def column(k):
    def of(source, table, text, draw):
        values = table[k::WIDTH]
        for i in range(k, len(table), WIDTH):
            for x in (table[i] + 1, table[i] - 1, draw.choice(values), draw.choice((0, 65535, draw.randrange(65536), draw.randrange(44)))):
                if 0 <= x <= 65535:
                    yield source, table[:i] + [x] + table[i + 1 :], text

    return of


def dropped(source, table, text, draw):
    for i in range(0, len(table), WIDTH):
        yield source, table[:i] + table[i + WIDTH :], text


def doubled(source, table, text, draw):
    for i in range(0, len(table), WIDTH):
        yield source, table[:i] + table[i : i + WIDTH] + table[i:], text


def swapped(source, table, text, draw):
    for i in range(0, len(table) - WIDTH, WIDTH):
        yield source, table[:i] + table[i + WIDTH : i + 2 * WIDTH] + table[i : i + WIDTH] + table[i + 2 * WIDTH :], text


def texts(source, table, text, draw):
    for i in range(len(text)):
        yield source, table, text[:i] + bytes([text[i] ^ 1 << draw.randrange(8)]) + text[i + 1 :]
        yield source, table, text[:i] + text[i + 1 :]
    for i in range(len(text) + 1):
        yield source, table, text[:i] + bytes([draw.randrange(256)]) + text[i:]
    yield (source, *copied(source, table, text))
    if text:
        yield source, table, b""


def longer(source, table, text, draw):
    """Another length of the source: the end of its last node is another."""
    for b in draw.sample(b" \n1a)+\"#}", 4):
        yield source + bytes([b]), table, text
        at = draw.randrange(len(source))
        yield source[:at] + bytes([b]) + source[at:], table, text
    for at in {0, len(source) - 1, draw.randrange(len(source))}:
        yield source[:at] + source[at + 1 :], table, text


def damaged(source, table, text, draw):
    """Another byte under a node that its kind cannot have there."""

    def put(at, b):
        return source[:at] + b + source[at + len(b) :], table, text

    for kind, flag, start, end, *_ in rows(table):
        if kind == NUMBER:
            yield put(end - 1, b"x")
        if kind == VARIABLE:
            yield put(start, b"7")
        if kind in (STRING, TEMPLATE):
            yield put(start, b" ")
            yield put(end - 1, b" ")
        if kind in (ARRAY, OBJECT, PARENTHESES):
            yield put(start, b"(" if kind == ARRAY else b"[")
            yield put(end - 1, b")" if kind == ARRAY else b"]")
    yield put(draw.randrange(len(source)), b"\xff")


def reoperated(source, table, text, draw):
    """Another operator between two operands that have nothing but it and space between them."""
    found = []

    def walk(node):
        if node[0] in OPERATORS:
            start, end = node[6][0][3], node[6][1][2]
            operator = OPERATORS[node[0]]
            if source[start:end].strip(b" ") == operator:
                found.append((start + source[start:end].index(operator), OTHER[operator]))
        for child in node[6]:
            walk(child)

    walk(tree(rows(table)))
    for at, other in found:
        yield source[:at] + other + source[at + len(other) :], table, text


def cut(source, table, text, draw):
    """Lengths that are no multiple of 7."""
    for n in (1, draw.randrange(2, 6), 6):
        yield source, table[:-n], text
        yield source, table + [draw.choice(table) for _ in range(n)], text
    yield source, [], text


def chance(source, table, text, draw):
    n = len(table)
    yield source, [draw.randrange(65536) for _ in range(n)], text
    yield source, [draw.randrange(44) for _ in range(n)], text
    yield source, [draw.choice(table) for _ in range(n)], text
    yield source, [draw.choice(table[k::WIDTH]) for _ in range(n // WIDTH) for k in range(WIDTH)], text
    yield source, table[:-WIDTH][: draw.randrange(n)] + table[-WIDTH:], text


# The changes, and those that few readings allow.
CHANGES = [column(k) for k in range(WIDTH)]
CHANGES += [dropped, doubled, swapped, longer, damaged, cut, chance, trees(gone), trees(twice), trees(wrapped)]
SELDOM = [trees(regroup), trees(halves), trees(turned), reoperated, texts]


def changed(source, table, text, draw):
    """Changed copies of a reading, the changes in turn, as many as the bytes allow; the seldom ones first."""
    most = max(FEWEST, min(MOST, BYTES // len(packed(source, table, text))))
    turns = []
    for change in draw.sample(SELDOM, len(SELDOM)) + draw.sample(CHANGES, len(CHANGES)):
        of = [one for one in change(source, table, text, draw) if one != (source, table, text)]
        if of:
            turns.append(draw.sample(of, min(len(of), most)))
        if len(turns) == most:
            break
    seen = []
    for one in itertools.chain.from_iterable(itertools.zip_longest(*turns)):
        if one and len(seen) < most and one not in seen:
            seen.append(one)
    return seen


def chain(n):
    """`1-1-1..` with n operators: source, table, and the table that is folded to the right."""
    leaves = [(NUMBER, 0, 2 * i, 2 * i + 1, 1, 0, 0) for i in range(n + 1)]
    left, right = [leaves[0]], list(leaves)
    for i in range(1, n + 1):
        left += [leaves[i], (28, 0, 0, 2 * i + 1, 2 * i + 1, 0, 0)]
        right.append((28, 0, 2 * (n - i), 2 * n + 1, 2 * i + 1, 0, 0))
    return b"1" + b"-1" * n, flat(left), flat(right)


def forged(table, count):
    """The counts of all rows but the last by `count`."""
    records = rows(table)
    return flat([(*row[:4], count(i), *row[5:]) for i, row in enumerate(records[:-1])] + [records[-1]])


def written(draw):
    """Cases that are written by hand: a source, a table, a text and the answer."""
    one = [(NUMBER, 0, 0, 1, 1, 0, 0), (NUMBER, 0, 2, 3, 1, 0, 0), (NUMBER, 0, 4, 5, 1, 0, 0)]
    yield b"8-3-2", flat([one[0], one[1], (28, 0, 0, 3, 3, 0, 0), one[2], (28, 0, 0, 5, 5, 0, 0)]), b"", 1
    yield b"8-3-2", flat([*one, (28, 0, 2, 5, 3, 0, 0), (28, 0, 0, 5, 5, 0, 0)]), b"", 0
    yield b"1+2*3", flat([*one, (24, 0, 2, 5, 3, 0, 0), (27, 0, 0, 5, 5, 0, 0)]), b"", 1
    yield b"1+2*3", flat([one[0], one[1], (27, 0, 0, 3, 3, 0, 0), one[2], (24, 0, 0, 5, 5, 0, 0)]), b"", 0
    yield b'"$$${"', [STRING, 1, 0, 6, 1, 0, 3], b"$${", 1
    yield b'"$$${"', [STRING, 0, 0, 6, 1, 1, 4], b"", 0
    yield b'"$$${"', [STRING, 1, 0, 6, 1, 0, 4], b"$$${", 0
    yield b'"$$${"', [STRING, 1, 0, 6, 1, 0, 2], b"${", 0
    yield b"<<E\nx\nE", [PIECE, 0, 4, 6, 1, 4, 2, HEREDOC, 0, 0, 7, 2, 0, 0], b"", 1
    yield b"-1", [NUMBER, 1, 0, 2, 1, 0, 0], b"", 1
    yield b"-1", [NUMBER, 0, 1, 2, 1, 0, 0, NEGATION, 0, 0, 2, 2, 0, 0], b"", 0
    keys = [(14, 0, 1, 2, 1, 0, 0), (NUMBER, 0, 3, 4, 1, 0, 0), (13, 0, 1, 4, 3, 0, 0)]
    keys += [(14, 0, 5, 6, 1, 0, 0), (NUMBER, 0, 7, 8, 1, 0, 0), (13, 0, 5, 8, 3, 0, 0), (OBJECT, 0, 0, 9, 7, 0, 0)]
    yield b"{a=1,a=2}", flat(keys), b"", 0
    yield b"[1]\n+2", [NUMBER, 0, 1, 2, 1, 0, 0, ARRAY, 0, 0, 3, 2, 0, 0, NUMBER, 0, 5, 6, 1, 0, 0, 27, 0, 0, 6, 4, 0, 0], b"", 0
    yield b"", [], b"", 0
    yield b"", [VARIABLE, 0, 0, 0, 1, 0, 0], b"", 0
    yield b"1", [], b"", 0
    # Not UTF-8, and with the same table as the source beside it would have.
    for bad in (b"\xff", b"\x80", b"\xc0\xaf", b"\xed\xa0\x80", b"\xf4\x90\x80\x80", b"\xe2\x82"):
        yield b'"' + bad + b'"', [STRING, 0, 0, len(bad) + 2, 1, 1, len(bad)], b"", 0
    # The longest source, and longer ones.
    yield b'"' + b"a" * 65533 + b'"', [STRING, 0, 0, 65535, 1, 1, 65533], b"", 1
    yield b'"' + b"a" * 65533 + b'"', [STRING, 0, 0, 65535, 1, 1, 65532], b"", 0
    yield b'"' + b"a" * 65534 + b'"', [STRING, 0, 0, 0, 1, 1, 65534], b"", 0
    yield b'"' + b"a" * 65534 + b'"', [STRING, 0, 0, 65535, 1, 1, 65534], b"", 0
    yield b"1" + b" " * 65536, [NUMBER, 0, 0, 1, 1, 0, 0], b"", 0
    # Chains of operators, and counts of all kinds.
    for n in (1, 2, 3, 15, 250):
        source, left, right = chain(n)
        yield source, left, b"", 1
        if right != left:
            yield source, right, b"", 0
    source, left, right = chain(4096)
    yield source, left, b"", 1
    yield source, right, b"", 0
    for n in (3, 12, 200, 500):
        source, left, right = chain(n)
        last = len(left) // WIDTH
        counts = [lambda i: 0, lambda i: 65535, lambda i: i + 1, lambda i: i + 2, lambda i: last, lambda i: 2, lambda i: 3, lambda i: max(i, 1)]
        counts += [lambda i: draw.randrange(65536), lambda i: draw.randrange(1, i + 2), lambda i: draw.randrange(4)]
        for count in counts:
            new = forged(left, count)
            assert new != left
            yield source, new, b"", 0
        for x in (0, 1, last - 1, last + 1, 65535):
            yield source, left[:-3] + [x] + left[-2:], b"", 0
    # Items that are made up inside comments behind a key.
    for n in (1, 2, 300):
        for source in comments(n):
            yield source, made_up(source), b"", 0


def comments(n):
    """Keys inside one comment, which nothing closes, or which has more comments behind it; and in each comment of a chain, of which the last two share bytes."""
    one = b",".join([b"k/*"] * n)
    yield b"{" + one + b"}"
    for end in (b"*/.b=1}", b"*/=1}"):
        yield b"{" + one + end
        yield b"{" + one + b"*/" + b"/**/" * n + b"/*" + end
        yield b"{k/*" + b",k/**//*" * n + end
        yield b"{k/*" + b",k/*/ /*" * n + end
        yield b"{k/*" + b",k/*/ /*/ /*" * n + end


def made_up(source):
    """An object with an item from each key to the comma behind it."""
    keys = [i for i, b in enumerate(source) if b == ord("k")]
    ends = [source.find(b",", i) for i in keys]
    rows = [(13, 0, i, e if e > 0 else i + 3, 1, 0, 0) for i, e in zip(keys, ends)]
    return flat(rows + [(OBJECT, 0, 0, len(source), len(rows) + 1, 0, 0)])


def packed(source, table, text):
    head = struct.pack("<III", len(source), len(table), len(text))
    return head + source + struct.pack(f"<{len(table)}H", *table) + text


def triples():
    draw = random.Random(6)
    near = None
    for source, right in readings():
        if right:
            yield source, *right, 1
            for one in changed(source, *right, draw):
                yield *one, 0
            if near and near[1:] != right and max(len(near[1]), len(right[0])) < SMALL:
                yield source, *near[1:], 0
                yield near[0], *right, 0
            near = (source, *right)
        elif near and len(near[1]) < SMALL and draw.randrange(3) == 0:
            # A refused source has no reading.
            yield source, *near[1:], 0
    yield from written(draw)


def main():
    asked, expected = [], []
    for source, table, text, answer in triples():
        asked.append(packed(source, table, text))
        expected.append(b"%d\n" % answer)
    (CRATES / "recheck" / "stdin").write_bytes(b"".join(asked))
    (CRATES / "recheck" / "stdout").write_bytes(b"".join(expected))
    print(len(asked), "triples,", expected.count(b"1\n"), "of them with 1;", sum(map(len, asked)), "bytes")


main()
