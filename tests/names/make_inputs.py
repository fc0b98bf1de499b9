#!/usr/bin/env python3
"""Makes the inputs of board.mk and recovery.sh in a new folder, the same ones every time: make_inputs.py FOLDER."""
import os
import random
import sys

SIZES = {"kernel": 40_961, "ramdisk.img": 9_001, "second.img": 700, "dtb.img": 3_000, "dtbo.img": 5_000,
         "overlay.cpio": 1_234, "vendor_ramdisk.img": 12_345, "recovery_ramdisk.img": 4_096, "dlkm_ramdisk.img": 1}


def noise(name, size):
    return random.Random(name).getrandbits(8 * size + 1).to_bytes(size + 1, "little")[:size]


def raw_image(name, blocks, tail=0):
    """Blocks of noise, of zeros and of one word, as a file system has them, and some bytes more."""
    chance, made = random.Random(name), bytearray()
    while len(made) < blocks * 4096:
        count = chance.randint(1, 9)
        kind = chance.choice("nnzzw")
        data = noise(f"{name}{len(made)}", 4096 * count) if kind == "n" else bytes(4096 * count)
        made += chance.randbytes(4) * (1024 * count) if kind == "w" else data
    return bytes(made[: blocks * 4096]) + noise(name, tail)


def main():
    folder = sys.argv[1]
    os.makedirs(folder)
    files = {name: noise(name, size) for name, size in SIZES.items()}
    files["vendor-bootconfig.img"] = b"androidboot.hardware=qcom\nandroidboot.usbcontroller=a600000.dwc3\n"
    files["system.raw"] = raw_image("system", 120)
    files["vendor.raw"] = raw_image("vendor", 25)
    files["product.raw"] = raw_image("product", 3, 1000)
    for name, data in files.items():
        with open(os.path.join(folder, name), "wb") as file:
            file.write(data)


if __name__ == "__main__":
    main()
