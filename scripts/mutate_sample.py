#!/usr/bin/env python3
"""Makes pseudo-random mutations of the sample, always the same ones, and names to look up.

usage: mutate_sample.py FOLDER COUNT

Writes m000.dir, m000.pag, m001.dir, ... and the file `names` in FOLDER.
"""

import os
import random
import sys

sys.dont_write_bytecode = True

from reference_list import read_page

PAGE = 1024
SAMPLE = os.path.join(os.path.dirname(os.path.abspath(__file__)), "..", "crates", "list_image", "data", "sample")


def some_page(r, pag):
    return PAGE * r.randrange(max(1, len(pag) // PAGE))


def put(data, at, byte):
    if at < len(data):
        data[at] = byte


def put_number(data, at, number):
    put(data, at, number & 255)
    put(data, at + 1, number >> 8 & 255)


def number(data, at):
    return data[at] + 256 * data[at + 1] if at + 1 < len(data) else 0


def flip_pag_bits(r, directory, pag):
    for _ in range(1 + r.randrange(8)):
        at = r.randrange(max(1, len(pag)))
        put(pag, at, (pag[at] if at < len(pag) else 0) ^ 1 << r.randrange(8))


def flip_dir_bits(r, directory, pag):
    for _ in range(1 + r.randrange(3)):
        at = r.randrange(4)
        put(directory, at, (directory[at] if at < len(directory) else 0) ^ 1 << r.randrange(8))


def deepen(r, directory, pag):
    h = r.getrandbits(15)
    index = 0
    for depth in range(1 + r.randrange(15)):
        if index // 8 < len(directory):
            directory[index // 8] |= 1 << index % 8
        index = 2 * index + 1 + (h >> depth & 1)


def cut_pag(r, directory, pag):
    del pag[r.randrange(len(pag) + 1) :]


def cut_pag_to_pages(r, directory, pag):
    del pag[PAGE * r.randrange(len(pag) // PAGE + 1) :]


def resize_dir(r, directory, pag):
    size = r.choice([0, 1, 2, 3, 100, 4095, 4096, 4097, 5000])
    del directory[size:]
    while len(directory) < size:
        directory.append(r.getrandbits(8))


def change_count(r, directory, pag):
    at = some_page(r, pag)
    put_number(pag, at, (number(pag, at) + r.choice([-4, -2, -1, 1, 2, 4, 400, 512, 65534])) % 65536)


def change_offset(r, directory, pag):
    at = some_page(r, pag)
    n = number(pag, at)
    at += 2 * (1 + r.randrange(max(1, min(n, 511))))
    put_number(pag, at, (number(pag, at) + r.choice([-300, -20, -10, -1, 1, 10, 20, 300])) % 65536)


def equal_offsets(r, directory, pag):
    # a key or a value of no bytes
    at = some_page(r, pag)
    n = number(pag, at)
    at += 2 * (2 + r.randrange(max(1, min(n, 510) - 1)))
    put_number(pag, at, number(pag, at - 2))


def touch_offset_end(r, directory, pag):
    # the last offset at, or one below, the end of the offsets
    at = some_page(r, pag)
    n = number(pag, at)
    if 0 < n <= 510:
        put_number(pag, at + 2 * n, 2 * (n + 1) - r.randrange(2))


def swap_pages(r, directory, pag):
    a = some_page(r, pag)
    b = some_page(r, pag)
    one, other = bytes(pag[a : a + PAGE]), bytes(pag[b : b + PAGE])
    if len(one) == len(other):
        pag[a : a + PAGE], pag[b : b + PAGE] = other, one


def copy_page(r, directory, pag):
    a = some_page(r, pag)
    b = some_page(r, pag)
    if a + PAGE <= len(pag) and b + PAGE <= len(pag):
        pag[b : b + PAGE] = pag[a : a + PAGE]


def change_key(r, directory, pag):
    # a key gets another byte, or the bytes of another key of the same length
    at = some_page(r, pag)
    pairs = read_page(bytes(pag[at : at + PAGE])) if at + PAGE <= len(pag) else None
    if not pairs:
        return
    i = r.randrange(len(pairs))
    key_start = number(pag, at + 2 * (2 * i + 1))
    key = pairs[i][0]
    alike = [k for k, _ in pairs if len(k) == len(key) and k != key]
    if alike and r.randrange(2) == 0:
        pag[at + key_start : at + key_start + len(key)] = r.choice(alike)
    else:
        pag[at + key_start + r.randrange(len(key))] = r.getrandbits(8)


def lengthen_pag(r, directory, pag):
    for _ in range(1 + r.randrange(3000)):
        pag.append(r.getrandbits(8) if r.randrange(4) == 0 else 0)


KINDS = [
    flip_pag_bits,
    flip_dir_bits,
    deepen,
    cut_pag,
    cut_pag_to_pages,
    resize_dir,
    change_count,
    change_offset,
    equal_offsets,
    touch_offset_end,
    swap_pages,
    copy_page,
    change_key,
    lengthen_pag,
]


def read(path):
    with open(path, "rb") as file:
        return file.read()


def write(path, data):
    with open(path, "wb") as file:
        file.write(data)


def names(r, pag):
    out = []
    for p in range(len(pag) // PAGE):
        for key, _ in read_page(pag[PAGE * p : PAGE * (p + 1)]):
            out.append(key)
            if r.randrange(3) == 0:
                out.append(key[:-1] + bytes([key[-1] ^ 1]))
    out += [b"", b"no_such", b"a", b'"quoted"', b"back\\slash", b"tab\there", b"cr\r", b"nul\0", bytes(range(0x7F, 0x100))]
    out += [bytes([0xC3, 0xA9]), b" ", b"", b"x" * 1500, b"stray_label", b"last, without a line's end"]
    return b"\n".join(out)


def main():
    if len(sys.argv) != 3:
        sys.exit(__doc__.strip())
    folder = sys.argv[1]
    r = random.Random(1)
    directory = read(SAMPLE + ".dir")
    pag = read(SAMPLE + ".pag")
    write(os.path.join(folder, "names"), names(r, pag))
    for i in range(int(sys.argv[2])):
        new_directory, new_pag = bytearray(directory), bytearray(pag)
        KINDS[i % len(KINDS)](r, new_directory, new_pag)
        for _ in range(r.randrange(3)):
            r.choice(KINDS)(r, new_directory, new_pag)
        write(os.path.join(folder, "m%03d.dir" % i), new_directory)
        write(os.path.join(folder, "m%03d.pag" % i), new_pag)


if __name__ == "__main__":
    main()
