"""Bytes from recipes, as tests/README.md tells: `"ABCD" 00ff 3*"x" at 512 u32 7`."""
import random
import re
import struct

TOKEN = re.compile(r'"(?:[^"\\]|\\.)*"|\d+\*|[()]|[^\s()"]+')
HEX = re.compile(r"(?:[0-9a-f]{2})+")
ESCAPE = re.compile(rb"\\(x[0-9a-f]{2}|.)", re.DOTALL)
LETTERS = {b"n": b"\n", b"r": b"\r", b"t": b"\t"}
NUMBERS = {"u16": "<H", "u32": "<I", "u64": "<Q"}
RAW, FILL, SKIP, CRC32 = 0xCAC1, 0xCAC2, 0xCAC3, 0xCAC4


def text_of(quoted):
    """The bytes of a text in quotes."""

    def byte(found):
        it = found[1]
        return bytes([int(it[1:], 16)]) if len(it) == 3 else LETTERS.get(it, it)

    return ESCAPE.sub(byte, quoted[1:-1].encode("utf-8"))


class Recipe:
    """The tokens of a recipe that are still to be read; `named` answers the bytes that have a name."""

    def __init__(self, text, named):
        self.tokens = TOKEN.findall(text)
        self.named = named

    def next(self):
        if not self.tokens:
            raise ValueError("a recipe ends too soon")
        return self.tokens.pop(0)

    def number(self):
        return int(self.next(), 0)

    def goes_on(self):
        return self.tokens and self.tokens[0] != ")"

    def row(self):
        """What stands up to the end or a closing bracket, one behind the other."""
        made = bytearray()
        while self.goes_on():
            word = self.next()
            if word == "at":
                place = self.number()
                if place < len(made):
                    raise ValueError(f"at {place}: there are {len(made)} bytes before it")
                made += bytes(place - len(made))
            elif word == "put":
                place = self.number()
                new = self.item(self.next())
                made[place : place + len(new)] = new
            elif word == "first":
                del made[self.number() :]
            elif word == "from":
                del made[: self.number()]
            else:
                made += self.item(word)
        return bytes(made)

    def item(self, word):
        """One item, which begins with this word."""
        if word[0] == '"':
            return text_of(word)
        if word == "(":
            made = self.row()
            if self.next() != ")":
                raise ValueError("a bracket is not closed")
            return made
        if word.endswith("*"):
            return int(word[:-1]) * self.item(self.next())
        if word in NUMBERS:
            return struct.pack(NUMBERS[word], self.number())
        if word == "noise":
            size = self.number()
            return random.Random(size).getrandbits(8 * size + 1).to_bytes(size + 1, "little")[:size]
        if word == "words":
            return b"".join(struct.pack("<I", it) for it in range(self.number()))
        if word == "sparse":
            return self.sparse()
        return bytes.fromhex(word) if HEX.fullmatch(word) else self.named(word)

    def sparse(self):
        """A sparse image: the bytes of a block, and then its chunks, written as `list` prints them."""
        block = self.number()
        chunks = []
        while self.goes_on():
            kind = self.next()
            if kind == "raw":
                data = self.item(self.next())
                chunks.append((RAW, len(data) // block, data))
            elif kind == "fill":
                chunks.append((FILL, self.number(), self.item(self.next())))
            elif kind == "skip":
                chunks.append((SKIP, self.number(), b""))
            elif kind == "crc32":
                chunks.append((CRC32, 0, struct.pack("<I", int(self.next(), 16))))
            elif kind == "words":
                chunks += [(FILL, 1, struct.pack("<I", it)) for it in range(self.number())]
            elif kind == "gaps":
                chunks += self.number() * [(SKIP, 1, b"")]
            else:
                raise ValueError(f"{kind}: no kind of chunk")
        blocks = sum(count for _, count, _ in chunks)
        made = struct.pack("<IHHHHIIII", 0xED26FF3A, 1, 0, 28, 12, block, blocks, len(chunks), 0)
        for kind, count, data in chunks:
            made += struct.pack("<HHII", kind, 0, count, 12 + len(data)) + data
        return made


def bytes_of(text, named):
    """The bytes of a recipe; `named` answers the bytes that have a name."""
    recipe = Recipe(text, named)
    made = recipe.row()
    if recipe.tokens:
        raise ValueError("a bracket is closed that was not opened")
    return made
