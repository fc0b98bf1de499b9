#!/usr/bin/env python3
"""Writes a sparse image of any size directly, without its raw form.

  make_sparse.py OUT [--mib 1024] [--block 4096] [--run 256] [--chunks N] [--shares 40,30,10,20]
  make_sparse.py OUT --like runs|mixed|single

The shares are per cent of raw data, zero fill, other fill and don't care. They come in turn, in runs of `--run` blocks, so
that every kind stands all over the image. With --chunks N the image has N chunks of one block each in the same turn.
The bytes are the same at every run: nothing is random.

The images of docs/PERF.md have names:
  runs    512 MiB in runs of 1 MiB
  mixed   512 MiB in runs of 1 to 3 blocks of 4,096 bytes: raw, fill, raw and don't care in turn, so that no two join
  single  1,000,000 chunks of one block of 4 bytes
"""
import argparse
import struct


def header(block, blocks, chunks):
    return struct.pack("<IHHHHIIII", 0xED26FF3A, 1, 0, 28, 12, block, blocks, chunks, 0)


def chunk(kind, blocks, data_len):
    return struct.pack("<HHII", kind, 0, blocks, 12 + data_len)


RAW, FILL, SKIP = 0xCAC1, 0xCAC2, 0xCAC3
# The words of an image that has a name. In an order of its own runs are 1 to `run` blocks long.
LIKE = {
    "runs": {"mib": 512},
    "mixed": {"mib": 512, "run": 3, "order": ("raw", "zero", "raw", "skip", "raw", "other", "raw", "skip")},
    "single": {"block": 4, "chunks": 1000000},
}


def turns(shares):
    """Ten kinds in a fixed order, each as often as its share says."""
    raw, zero, other, skip = (share // 10 for share in shares)
    left = {"raw": raw, "zero": zero, "other": other, "skip": skip}
    order = []
    while any(left.values()):
        for kind in ("raw", "zero", "skip", "other"):
            if left[kind]:
                left[kind] -= 1
                order.append(kind)
    return order


def lengths(blocks, run, is_varied):
    """How many blocks each run has, which are `blocks` in all."""
    found, state = [], 1
    while blocks:
        state = (state * 6364136223846793005 + 1442695040888963407) % 2**64
        found.append(min(blocks, 1 + (state >> 33) % run if is_varied else run))
        blocks -= found[-1]
    return found


def main():
    parser = argparse.ArgumentParser(description=__doc__, formatter_class=argparse.RawDescriptionHelpFormatter)
    parser.add_argument("out")
    parser.add_argument("--mib", type=int, default=1024)
    parser.add_argument("--block", type=int, default=4096)
    parser.add_argument("--run", type=int, default=256)
    parser.add_argument("--chunks", type=int)
    parser.add_argument("--shares", default="40,30,10,20")
    parser.add_argument("--like", choices=LIKE)
    parser.set_defaults(order=())
    words = parser.parse_args()
    vars(words).update(LIKE.get(words.like, {}))
    order = words.order or turns([int(share) for share in words.shares.split(",")])
    run = 1 if words.chunks else words.run
    blocks = words.chunks or words.mib * 1024 * 1024 // words.block
    runs = lengths(blocks, run, bool(words.order))
    page = bytes((i * 7 + i // 251) & 255 for i in range(words.block))
    raw = b"".join(struct.pack("<I", i) + page[4:] for i in range(run))
    with open(words.out, "wb", buffering=1 << 20) as out:
        out.write(header(words.block, blocks, len(runs)))
        for index, size in enumerate(runs):
            kind = order[index % len(order)]
            if kind == "raw":
                out.write(chunk(RAW, size, size * words.block))
                out.write(raw[: size * words.block])
            elif kind == "skip":
                out.write(chunk(SKIP, size, 0))
            else:
                out.write(chunk(FILL, size, 4))
                out.write(b"\0\0\0\0" if kind == "zero" else struct.pack("<I", 0x5A000000 + index))


if __name__ == "__main__":
    main()
