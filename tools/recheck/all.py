"""Asks `recheck` about every accepted reading of the vectors, as it is and with any single number changed by one: python3 tools/recheck/all.py VECTORS COMMAND..

The readings are the ones that the vectors give, so the reader has no part in this. One number changed by one, up, or down where it is over 0, makes another
table, and a source has one reading: the answer must be 1 for the reading and 0 for each of the others. A refused source is asked about with the reading of the
last accepted one before it (or the first of all), and must get 0.

COMMAND is what runs the program `recheck`."""
import collections
import pathlib
import struct
import subprocess
import sys
import threading

NAMES = ("points", "mixed", "tokens")


def sources(data):
    at = 0
    while at < len(data):
        n = struct.unpack_from("<I", data, at)[0]
        yield data[at + 4 : at + 4 + n]
        at += 4 + n


def answers(lines):
    """Of each source its table as numbers and its text, or None where it is refused."""
    at = 0
    while at < len(lines):
        kind, _, nodes, _ = (int(x) for x in lines[at].split())
        if kind:
            yield None
            at += 3
        else:
            records = [int(x) for line in lines[at + 1 : at + 1 + nodes] for x in line.split()]
            yield records, bytes.fromhex(lines[at + 1 + nodes].decode())
            at += 3 + nodes


def triple(source, table, text):
    head = struct.pack("<III", len(source), len(table), len(text))
    return head + source + struct.pack("<%dH" % len(table), *table) + text


def asked(source, table, text):
    """The triples of one reading, each with where it was changed and by how much; the reading itself first."""
    whole = bytearray(triple(source, table, text))
    yield bytes(whole), None, 0
    first = 12 + len(source)
    for i, x in enumerate(table):
        for by in (1, -1):
            if 0 <= x + by <= 65535:
                struct.pack_into("<H", whole, first + 2 * i, x + by)
                yield bytes(whole), i, by
        struct.pack_into("<H", whole, first + 2 * i, x)


def run(command, parts):
    """Hands triples to the program and gives each with what it answered. The program answers in order."""
    program = subprocess.Popen(command, stdin=subprocess.PIPE, stdout=subprocess.PIPE)
    waiting = collections.deque()

    def feed():
        for one, what in parts:
            waiting.append(what)
            program.stdin.write(one)
        program.stdin.close()

    feeder = threading.Thread(target=feed)
    feeder.start()
    for line in program.stdout:
        yield waiting.popleft(), line
    feeder.join()
    program.wait()
    assert not waiting, f"{len(waiting)} triples without an answer"


def main():
    vectors = pathlib.Path(sys.argv[1])
    command = sys.argv[2:]
    wrong = 0
    for name in NAMES:
        of = list(sources((vectors / f"{name}.bin").read_bytes()))
        said = list(answers((vectors / f"{name}.expected").read_bytes().split(b"\n")[:-1]))
        assert len(of) == len(said)
        accepted = [(k, of[k], *said[k]) for k in range(len(of)) if said[k]]

        def parts():
            near = accepted[0]
            for k, source in enumerate(of):
                if said[k]:
                    near = (k, source, *said[k])
                    for one, i, by in asked(source, *said[k]):
                        yield one, (k, i, by, b"1\n" if i is None else b"0\n")
                else:
                    yield triple(source, near[2], near[3]), (k, "refused", near[0], b"0\n")

        count = 0
        for (k, i, by, right), line in run(command, parts()):
            count += 1
            if line != right:
                wrong += 1
                if wrong <= 20:
                    print("WRONG", name, k, "number", i, "by", by, "answered", line, "for", of[k][:200])
        print(f"{name}: {len(of)} sources, {len(accepted)} accepted, {count} triples", flush=True)
    print(wrong, "wrong answers")


main()
