"""Makes crates/replay/stdin and crates/replay/stdout out of a folder of vectors: python3 tools/replay/make.py VECTORS"""
import pathlib
import struct
import sys

CRATE = pathlib.Path(__file__).resolve().parent.parent.parent / "crates" / "replay"
# Of each file every n-th source, from the first on.
EVERY = {"points": 1, "mixed": 5, "tokens": 29}


def sources(data):
    """The sources, each with its length before it."""
    at = 0
    while at < len(data):
        end = at + 4 + struct.unpack_from("<I", data, at)[0]
        yield data[at:end]
        at = end


def answers(lines):
    """The lines of each source: the answer, the records of an acceptance, the text in hex, an empty line."""
    at = 0
    while at < len(lines):
        kind, _, nodes, _ = lines[at].split()
        end = at + 3 + (int(nodes) if kind == b"0" else 0)
        yield b"".join(line + b"\n" for line in lines[at:end])
        at = end


def main():
    vectors = pathlib.Path(sys.argv[1])
    asked, expected = [], []
    for name, n in EVERY.items():
        of = list(sources((vectors / f"{name}.bin").read_bytes()))
        said = list(answers((vectors / f"{name}.expected").read_bytes().split(b"\n")[:-1]))
        assert len(of) == len(said)
        asked += of[::n]
        expected += said[::n]
    (CRATE / "stdin").write_bytes(b"".join(asked))
    (CRATE / "stdout").write_bytes(b"".join(expected))
    print(len(asked), "sources")


main()
