#!/usr/bin/env python3
"""Lays a good sparse image over a file that is there, as flashing does, by a few lines that share nothing with the program.

  tools/lay_sparse.py IMAGE FILE

Scripts compare what `abootimg flash` leaves with what this leaves.
"""
import struct
import sys


def main():
    image, file = open(sys.argv[1], "rb"), open(sys.argv[2], "r+b")
    _, _, _, head_size, chunk_head_size, block, _, chunks, _ = struct.unpack("<IHHHHIIII", image.read(28))
    image.seek(head_size)
    at = 0
    for _ in range(chunks):
        kind, _, blocks, total = struct.unpack("<HHII", image.read(12))
        image.seek(chunk_head_size - 12, 1)
        file.seek(at)
        if kind == 0xCAC1:
            for _ in range(blocks):
                file.write(image.read(block))
        elif kind == 0xCAC2:
            file.write(image.read(4) * (block // 4 * blocks))
        else:
            image.seek(total - chunk_head_size, 1)
        if kind != 0xCAC4:
            at += blocks * block
    file.close()


if __name__ == "__main__":
    main()
