#!/usr/bin/env python3
"""What each kernel is given and what it is to give: `expected.py` writes NAME.input and NAME.expected of each beside itself.

What is expected comes from Python's library, from published vectors and solutions, or from plain Python with its unbounded whole numbers, for
most kernels in another way than theirs. The program is never asked. `make test` compares the files with what this makes, and the program with
the files.
"""

import base64
import dataclasses
import hashlib
import itertools
import pathlib
import zlib

FOLDER = pathlib.Path(__file__).resolve().parent


@dataclasses.dataclass
class Kernel:
    """A kernel: its name, a line on its input, the rows of this, and what its variables of the file hold at the end, but for zeros behind it."""

    name: str
    about: str
    rows: dict
    results: dict

    def input(self):
        return f"# {self.about}\n" + text(self.rows)

    def expected(self):
        return text(self.results)


def text(rows):
    """Rows as an input has them, and as `print` shows them."""
    return "".join(f"{name} = {' '.join(str(it) for it in ([of] if isinstance(of, int) else of))}\n" for name, of in rows.items())


def numbers(name, count):
    """So many numbers of 32 bits, which are always the same for one name."""
    return [int.from_bytes(hashlib.sha256(f"{name} {number}".encode()).digest()[:4], "big") for number in range(count)]


def words(content, order):
    """The words of 32 bits that bytes are."""
    return [int.from_bytes(content[at : at + 4], order) for at in range(0, len(content), 4)]


def places(parts):
    """Where each part begins in all of them one behind the other, and how long it is."""
    lengths = [len(it) for it in parts]
    return {"start": [sum(lengths[:number]) for number in range(len(parts))], "length": lengths}


def sha256():
    """The digests of hashlib. K are the first 32 bits behind the point of the cube roots of the first 64 primes (FIPS 180-4, 4.2.2)."""
    primes = [it for it in range(2, 312) if all(it % of for of in range(2, it))]
    k = [root(prime << 96, 3) & 0xFFFFFFFF for prime in primes]
    assert (k[0], k[63]) == (0x428A2F98, 0xC67178F2)
    of_two_blocks = b"abcdbcdecdefdefgefghfghighijhijkijkljklmklmnlmnomnopnopq"
    messages = [b"abc", b"", of_two_blocks, b"a" * 55, b"a" * 119, b"The quick brown fox jumps over the lazy dog"]
    digests = [hashlib.sha256(it).digest() for it in messages]
    # Both examples of NIST for FIPS 180-4.
    assert digests[0].hex() == "ba7816bf8f01cfea414140de5dae2223b00361a396177a9cb410ff61f20015ad"
    assert digests[2].hex() == "248d6a61d20638b8e5c026930c3e6039a33ce45964ff2167f6ecedd419db06c1"
    rows = {"K": k, "messages": len(messages), **places(messages), "text": b"".join(messages)}
    about = "K of FIPS 180-4; six messages, those of NIST's examples and some whose padding just fits into a block, or does not."
    return Kernel("sha256", about, rows, {"digests": words(b"".join(digests), "big")})


def root(number, degree):
    """The greatest whole number whose power is at most the number."""
    low, high = 0, 1 << 64
    while high - low > 1:
        middle = (low + high) // 2
        low, high = (middle, high) if middle**degree <= number else (low, middle)
    return low


def chacha20():
    """Block after block by the text of RFC 8439; the first is the example of 2.3.2 there."""
    key, nonce, counter, blocks = words(bytes(range(32)), "little"), words(bytes.fromhex("000000090000004a00000000"), "little"), 1, 6
    sigma = words(b"expand 32-byte k", "little")
    stream = [word for number in range(blocks) for word in chacha20_block([*sigma, *key, counter + number, *nonce])]
    assert stream[:8] == [0xE4E7F110, 0x15593BD1, 0x1FDD0F50, 0xC47120A3, 0xC7F4D1C7, 0x0368C033, 0x9AAA2204, 0x4E6CD4C3]
    assert stream[8:16] == [0x466482D2, 0x09AA9F07, 0x05D7C214, 0xA2028BD9, 0xD19C12B5, 0xB94E16DE, 0xE883D0CB, 0x4E3C50A2]
    rows = {"blocks": blocks, "counter": counter, "sigma": sigma, "key": key, "nonce": nonce}
    return Kernel("chacha20", 'Key, nonce and counter of RFC 8439, 2.3.2; sigma is "expand 32-byte k".', rows, {"stream": stream})


def chacha20_block(state):
    columns = [(at, at + 4, at + 8, at + 12) for at in range(4)]
    diagonals = [(at, 4 + (at + 1) % 4, 8 + (at + 2) % 4, 12 + (at + 3) % 4) for at in range(4)]
    mixed = list(state)
    for _ in range(10):
        for quarter in (*columns, *diagonals):
            mix_quarter(mixed, *quarter)
    return [(of + was) % 2**32 for of, was in zip(mixed, state)]


def mix_quarter(state, a, b, c, d):
    """A quarter round of the words at four places."""
    for to, by, turned, bits in ((a, b, d, 16), (c, d, b, 12), (a, b, d, 8), (c, d, b, 7)):
        state[to] = (state[to] + state[by]) % 2**32
        mixed = state[turned] ^ state[to]
        state[turned] = (mixed << bits | mixed >> 32 - bits) % 2**32


# A block with codes of its own, an empty stored one, one with sixteen bytes, another empty one, and one with the fixed codes: made once by zlib
# 1.2.13. Another zlib may make another stream of the same text; each decodes this one alike.
DEFLATED = """
nI/BDcIwDEVX+QOgDsCNHbqAk7hJRYij2AJ1e5KqnAoXJB/87e+n7zkxIpWIxhQU1qVbrTcSuYt2AZWATIUVXuqGVyID4UHmUz+qTKYTbsfAxlae3DJVRQdxXj6uIbGsTQ1uM9Zr
x/6qCfM5WOYSLSlk2aWXwHrKt38w8MNGUJPGAS6Lv3+F/vHtGwAA//8AEADv/1N0b3JlZCBhcyBpdCBpcy4AAAD//0vMS1EoyUhVSM1L0cFg6AEA
"""


def inflate():
    """What zlib decodes."""
    data = base64.b64decode(DEFLATED)
    out = zlib.decompress(data, -zlib.MAX_WBITS)
    rows = {
        "length_base": [3, 4, 5, 6, 7, 8, 9, 10, 11, 13, 15, 17, 19, 23, 27, 31, 35, 43, 51, 59, 67, 83, 99, 115, 131, 163, 195, 227, 258],
        "length_extra": [0] * 8 + [number // 4 for number in range(4, 24)] + [0],
        "distance_base": [1, 2, 3, 4] + [(2 + number % 2 << number // 2 - 1) + 1 for number in range(4, 30)],
        "distance_extra": [0] * 4 + [number // 2 - 1 for number in range(4, 30)],
        "order": [16, 17, 18, 0, 8, 7, 9, 6, 10, 5, 11, 4, 12, 3, 13, 2, 14, 1, 15],
        "data": data,
    }
    return Kernel("inflate", "The tables of RFC 1951, 3.2.5 and 3.2.7, and a stream with blocks of each kind.", rows, {"size": len(out), "out": out})


def radix_sort():
    keys = numbers("radix", 45)
    return Kernel("radix_sort", "45 keys of 32 bits.", {"n": len(keys), "keys": keys}, {"keys": sorted(keys)})


def bitonic_sort():
    a = [it % 1999 - 999 for it in numbers("bitonic", 32)]
    return Kernel("bitonic_sort", "32 numbers.", {"n": len(a), "a": a}, {"a": sorted(a)})


def quicksort():
    a = [it % 100 for it in numbers("quick", 50)]
    return Kernel("quicksort", "50 numbers, some of them twice.", {"n": len(a), "a": a}, {"a": sorted(a)})


def levenshtein():
    """The table row by row; the distance of these two words is the example of Jurafsky and Martin's Speech and Language Processing."""
    one, two = b"intention", b"execution"
    row = list(range(len(two) + 1))
    for number, letter in enumerate(one):
        row = next_row(row, number, letter, two)
    assert row[-1] == 5
    rows = {"n": len(one), "m": len(two), "one": one, "two": two}
    return Kernel("levenshtein", 'one is "intention", two is "execution".', rows, {"distance": row[-1]})


def next_row(row, number, letter, word):
    made = [number + 1]
    for at, other in enumerate(word):
        made.append(min(row[at] + (letter != other), row[at + 1] + 1, made[at] + 1))
    return made


def mandelbrot():
    one, width, height, most = 1 << 24, 20, 11, 50
    rows = {"x0": -2 * one - one // 4, "y0": -one - one // 4, "dx": 3 * one // width, "dy": 5 * one // 2 // height}
    points = [(rows["x0"] + i * rows["dx"], rows["y0"] + j * rows["dy"]) for j in range(height) for i in range(width)]
    turns = [turns_of(*point, one, most) for point in points]
    about = "20 by 11 points from -2.25 - 1.25i on, 0.15 and 0.227 apart, with 24 fraction bits."
    return Kernel("mandelbrot", about, rows | {"width": width, "height": height, "most": most}, {"turns": turns})


def turns_of(re, im, one, most):
    """After how many turns z * z + c is outside the circle of radius 2."""
    x, y = re, im
    for turns in range(most):
        if x * x // one + y * y // one > 4 * one:
            return turns
        x, y = re + x * x // one - y * y // one, im + 2 * x * y // one
    return most


def queens():
    """All permutations are tried: a queen in each row and column, no two on a diagonal. Their numbers are OEIS A000170."""
    n, known = 6, [1, 1, 0, 0, 2, 10, 4, 40, 92]
    pairs = list(itertools.combinations(range(n), 2))
    found = sum(all(abs(of[i] - of[j]) != j - i for i, j in pairs) for of in itertools.permutations(range(n)))
    assert found == known[n]
    return Kernel("queens", "A board of 6 by 6.", {"n": n}, {"recursive": found, "stacked": found})


# Arto Inkala's puzzle of 2012, and its one solution, as it was printed.
GIVENS = "800000000 003600000 070090200 050007000 000045700 000100030 001000068 008500010 090000400"
SOLUTION = "812753649 943682175 675491283 154237896 369845721 287169534 521974368 438526917 796318452"


DIGITS = set(range(1, 10))

# The cells of each cell's row, column and box.
SEEN = [[it for it in range(81) if it // 9 == at // 9 or it % 9 == at % 9 or (it // 27, it % 9 // 3) == (at // 27, at % 9 // 3)] for at in range(81)]


def sudoku():
    """The printed solution; and how many digits a search puts until it is there, by sets of digits and a function that calls itself."""
    givens, board = ([int(it) for it in of.replace(" ", "")] for of in (GIVENS, SOLUTION))
    assert all(given in (0, digit) for given, digit in zip(givens, board))
    rows = [board[at : at + 9] for at in range(0, 81, 9)]
    boxes = [[rows[down + at // 3][across + at % 3] for at in range(9)] for down in (0, 3, 6) for across in (0, 3, 6)]
    assert all(sorted(it) == list(range(1, 10)) for it in [*rows, *map(list, zip(*rows)), *boxes])
    is_solved, tries = searched(list(givens))
    assert is_solved
    about = "Arto Inkala's puzzle of 2012, row by row; 0 is an open cell."
    return Kernel("sudoku", about, {"givens": givens}, {"board": board, "tries": tries, "wrong": 0})


def searched(board):
    """Whether a board can be filled, the cell with the fewest candidates first and the least digit first, and how many digits that puts."""
    found = {at: DIGITS - {board[it] for it in SEEN[at]} for at in range(81) if board[at] == 0}
    if not found:
        return True, 0
    at, tries = min(found, key=lambda it: (len(found[it]), it)), 0
    for board[at] in sorted(found[at]):
        is_solved, more = searched(board)
        tries += 1 + more
        if is_solved:
            return True, tries
    board[at] = 0
    return False, tries


def utf8():
    """What Python's decoder says: where a text is wrong, and the characters before that."""
    texts = ["Grüße, 你好 😀".encode(), b"plain", b"", b"\xc0\xaf", b"ab\xe0\x80\x80", b"\xed\xa0\x80", b"\xf4\x90\x80\x80", b"\xc3\xa4\x80"]
    texts += [b"\xe2\x82", "größer".encode() + b"\xf0\x9f\x98", b"\xf5", "\ud7ff\ue000\U0010ffff".encode(), b"\xf0\x80\x80\x80", b"x\xfe"]
    wrong = [first_wrong(it) for it in texts]
    characters = [len((it if at < 0 else it[:at]).decode()) for it, at in zip(texts, wrong)]
    rows = {"texts": len(texts), **places(texts), "bytes": b"".join(texts)}
    about = "14 texts, some of them wrong: forms that are too long, surrogates, texts that end too early."
    return Kernel("utf8", about, rows, {"wrong": wrong, "characters": characters})


def first_wrong(content):
    try:
        content.decode()
    except UnicodeDecodeError as fault:
        return fault.start
    return -1


def kernels():
    """All kernels, in the order of the list in ../README.md."""
    makers = (mandelbrot, bitonic_sort, radix_sort, quicksort, sha256, chacha20, inflate, queens, levenshtein, utf8, sudoku)
    return [make() for make in makers]


def main():
    for kernel in kernels():
        (FOLDER / f"{kernel.name}.input").write_text(kernel.input(), encoding="utf-8")
        (FOLDER / f"{kernel.name}.expected").write_text(kernel.expected(), encoding="utf-8")


if __name__ == "__main__":
    main()
