"""What stands at a place of a source: the lexical rules of 01 once more, apart from the definitions and the code of `lexis`.

Most of it is regular expressions, where the definitions are functions on lists and the code is loops. Each function of `QUESTIONS` takes a
source, a place and what the question further takes, and answers a list of numbers. A place past the end of the source is allowed.
"""
import re

NOTHING = 256  # the byte past the end
LIMIT = 18446744073709551615  # the largest legacy index


def pattern(text):
    return re.compile(text, re.DOTALL)


SPACE = pattern(rb"[ \t]*")
LINE_ENDING = pattern(rb"\r?\n")
LINE_COMMENT = pattern(rb"(?:#|//)(?:(?!\r?\n).)*(\r?\n)?")
SAME_LINE = pattern(rb"(?:[ \t]|/\*.*?\*/)*")
ANY_TRIVIA = pattern(rb"(?:[ \t]|/\*.*?\*/|\r?\n|(?:#|//)(?:(?!\r?\n).)*(?:\r?\n)?)*")
IDENTIFIER = pattern(rb"[A-Za-z_][A-Za-z0-9_-]*")
GOES_ON = pattern(rb"[A-Za-z0-9_-]")
FOR = pattern(rb"for(?=[ \t\r\n#/])")
DIGITS = pattern(rb"[0-9]+")
NUMBER = pattern(rb"[0-9]+(?:\.[0-9]+)?(?:[eE][+-]?[0-9]+)?")
INDEX = pattern(rb"0|[1-9][0-9]*")
OPENER = pattern(rb"<<(-?)([A-Za-z_][A-Za-z0-9_-]*)?(\r?\n)?")
MARKER = pattern(rb"(\$\$|%%)\{")
ESCAPE = pattern(rb'\\(?:([nrt\\"])|u([0-9A-Fa-f]{4})|U([0-9A-Fa-f]{8}))')

# kind and level; the longer ones first, and what starts a comment is none
OPERATORS = [
    (b"//", 0, 0), (b"/*", 0, 0),
    (b">=", 30, 4), (b"<=", 32, 4), (b"==", 33, 3), (b"!=", 34, 3), (b"&&", 35, 2), (b"||", 36, 1),
    (b"*", 24, 6), (b"/", 25, 6), (b"%", 26, 6), (b"+", 27, 5), (b"-", 28, 5), (b">", 29, 4), (b"<", 31, 4),
]

QUOTE, INTERPOLATION, DIRECTIVE, BAD_ESCAPE, CLOSING, FOREIGN, END = range(1, 8)


def match(what, s, p):
    return what.match(s, p) if p <= len(s) else None


def end(what, s, p):
    """Where a match ends; p where there is none."""
    m = match(what, s, p)
    return m.end() if m else p


def at(s, p):
    return s[p] if p < len(s) else NOTHING


def stands(w, s, p):
    return s[p:p + len(w)] == w


# bytes

def classes(s, p):
    b = at(s, p)
    c = bytes([b]) if b < 256 else b""
    tests = [rb"[ \t]", rb"[0-9]", rb"[A-Za-z]", rb"[0-9A-Fa-f]", rb"[A-Za-z_]", rb"[A-Za-z0-9_-]", rb"[\x80-\xff]"]
    return [b] + [int(bool(re.fullmatch(t, c))) for t in tests]


def within(s, p, low, high):
    return [int(low <= at(s, p) <= high)]


def all_at(s, p, w):
    return [int(stands(w, s, p))]


def first_bad(s, p):
    try:
        s.decode("utf-8")
        return [len(s)]
    except UnicodeDecodeError as e:
        return [e.start]


# trivia

def line_ending(s, p):
    return [end(LINE_ENDING, s, p) - p]


def skipped(what, s, p):
    e = end(what, s, p)
    return [e, int(stands(b"/*", s, e))]


def skip_line(s, p):
    return skipped(SAME_LINE, s, p)


def skip_any(s, p):
    return skipped(ANY_TRIVIA, s, p)


def terminator(s, p):
    m = match(LINE_COMMENT, s, p)
    if m:
        return [m.end(), 1 if m.group(1) else 2]
    if stands(b",", s, p):
        return [p + 1, 1]
    e = end(LINE_ENDING, s, p)
    return [e, int(e != p)]


# words and numbers

def ident_end(s, p):
    return [end(IDENTIFIER, s, p)]


def is_word(w, s, p):
    return stands(w, s, p) and not match(GOES_ON, s, p + len(w))


def word_end(s, p, w):
    return [p + len(w) if is_word(w, s, p) else p]


def in_end(s, p):
    return [p + 2 if is_word(b"in", s, p) else p]


def if_end(s, p):
    return [p + 2 if is_word(b"if", s, p) else p]


def for_end(s, p):
    return [end(FOR, s, p)]


def constant_at(s, p):
    return [max(k * int(is_word(w, s, p)) for k, w in [(1, b"null"), (2, b"true"), (3, b"false")])]


def digits_end(s, p):
    return [end(DIGITS, s, p)]


def number_end(s, p):
    return [end(NUMBER, s, p)]


def index_at(s, p):
    e = end(INDEX, s, p)
    return [e, int(e != p and int(s[p:e]) > LIMIT)]


# operators and marks

def op_at(s, p):
    for w, kind, level in OPERATORS:
        if stands(w, s, p):
            return [kind, level, len(w) if kind else 0]
    return [0, 0, 0]


def mark(w, s, p, *longer):
    return [p + len(w) if stands(w, s, p) and not any(stands(l, s, p) for l in longer) else p]


def mark_end(s, p, w):
    return mark(w, s, p)


def question_end(s, p):
    return mark(b"?", s, p)


def colon_end(s, p):
    return mark(b":", s, p)


def colons_end(s, p):
    return mark(b"::", s, p)


def dot_end(s, p):
    return mark(b".", s, p, b"..")


def dots_end(s, p):
    return mark(b"...", s, p)


def equals_end(s, p):
    return mark(b"=", s, p, b"=>", b"==")


def arrow_end(s, p):
    return mark(b"=>", s, p)


def bang_end(s, p):
    return mark(b"!", s, p, b"!=")


# literal text: `d` is None for quoted text, and the delimiter for a heredoc

def escape(s, p):
    """The width and the bytes of the escape at p; width 0 where it is bad."""
    m = match(ESCAPE, s, p)
    if not m:
        return 0, BAD_ESCAPE
    if m.group(1):
        return 2, {b"n": b"\n", b"r": b"\r", b"t": b"\t"}.get(m.group(1), m.group(1))
    v = int(m.group(2) or m.group(3), 16)
    if v > 0x10FFFF or 0xD800 <= v <= 0xDFFF:
        return 0, BAD_ESCAPE
    return m.end() - p, chr(v).encode("utf-8")


def unit(s, p, d):
    """The width and the bytes of the unit at p; width 0, and why, where none stands."""
    if p >= len(s):
        return 0, END
    m = match(MARKER, s, p)
    if m:
        return 3, s[p + 1:p + 3]
    if stands(b"${", s, p):
        return 0, INTERPOLATION
    if stands(b"%{", s, p):
        return 0, DIRECTIVE
    if d is None and s[p] == 34:
        return 0, QUOTE
    if d is None and s[p] == 92:
        return escape(s, p)
    return 1, s[p:p + 1]


def closing(s, p, d):
    """What the line at p is: [0] text, [1, end] a closing line, [2, place] a foreign scalar."""
    q = end(SPACE, s, p)
    if d and not stands(d, s, q):
        return [0]
    e = q + len(d)
    if match(GOES_ON, s, e):
        return [0]
    return [2 if 128 <= at(s, e) < NOTHING else 1, e]


def run(s, p, d):
    """The end of the longest run of literal text from p, its text, whether it has an escape or an escaped marker, and why it ends."""
    text, escaped = b"", False
    while True:
        if d is not None and 0 < p < len(s) and s[p - 1] == 10:
            how = closing(s, p, d)
            if how != [0]:
                return p, text, escaped, CLOSING if how[0] == 1 else FOREIGN
        width, got = unit(s, p, d)
        if not width:
            return p, text, escaped, got
        text, escaped, p = text + got, escaped or width > 1, p + width


def unit_at(s, p, d):
    width, got = unit(s, p, d)
    if not width:
        return [0, 0, 0, got]
    return [width, int.from_bytes(got, "little"), len(got), END]


def run_at(s, p, d):
    e, text, escaped, why = run(s, p, d)
    return [e, len(text), int(escaped), why]


def write(s, p, d, place):
    room = bytearray(b"\xff" * 12)
    text = run(s, p, d)[1]
    fits = place + len(text) <= len(room)
    if fits:
        room[place:place + len(text)] = text
    return [int(fits)] + list(room)


# heredocs

def opener_at(s, p):
    m = match(OPENER, s, p)
    if not m:
        return [0, 0, 0, 0, p]
    dash, word, ending = m.groups()
    after = m.end(1) if word is None else m.end(2)
    if word is None or ending is None:
        return [0, 0, 0, 0, after]
    return [1, int(dash == b"-"), m.start(2), m.end(2), m.end()]


def line_at(s, p, a, e):
    return closing(s, p, s[a:e])


def starts_line(s, p):
    return [int(0 < p <= len(s) and s[p - 1] == 10)]


# keys

def key(s, p):
    m = match(IDENTIFIER, s, p)
    if m:
        return "word", m.group()
    if stands(b'"', s, p):
        e, text, escaped, why = run(s, p + 1, None)
        if why == QUOTE:
            return "string", text
    return None


def equal(s, a, b):
    return key(s, a) is not None and key(s, a) == key(s, b)


def same_key(s, p, other):
    return [int(equal(s, p, other))]


def met_before(s, p, starts, count):
    return [int(any(equal(s, a, p) for a in starts[:count]))]


# the number of each question in a record, and what answers it
QUESTIONS = {
    "classes": (1, classes), "within": (2, within), "one_at": (3, all_at), "two_at": (4, all_at), "all_at": (5, all_at),
    "first_bad": (6, first_bad),
    "line_ending": (10, line_ending), "skip_line": (11, skip_line), "skip_any": (12, skip_any), "terminator": (13, terminator),
    "ident_end": (20, ident_end), "word_end": (21, word_end), "in_end": (22, in_end), "if_end": (23, if_end), "for_end": (24, for_end),
    "constant_at": (25, constant_at),
    "digits_end": (30, digits_end), "number_end": (31, number_end), "index_at": (32, index_at),
    "op_at": (40, op_at), "mark_end": (41, mark_end), "pair_end": (42, mark_end), "question_end": (43, question_end),
    "colon_end": (44, colon_end), "colons_end": (45, colons_end), "dot_end": (46, dot_end), "dots_end": (47, dots_end),
    "equals_end": (48, equals_end), "arrow_end": (49, arrow_end), "bang_end": (50, bang_end),
    "unit_at": (60, unit_at), "run_at": (61, run_at), "write": (62, write),
    "opener_at": (70, opener_at), "line_at": (71, line_at), "starts_line": (72, starts_line),
    "same_key": (80, same_key), "met_before": (81, met_before),
}
