#!/usr/bin/env python3
"""Makes damaged copies of the sample: NAME.dir and NAME.pag for every NAME below, always the same bytes.

usage: make-damaged.py [FOLDER]    (without FOLDER: beside this script)

`absent` has no files: nothing is made for it.
"""

import os
import sys

HERE = os.path.dirname(os.path.abspath(__file__))
TOP = os.path.dirname(os.path.dirname(os.path.dirname(HERE)))
sys.dont_write_bytecode = True
sys.path.insert(0, os.path.join(TOP, "scripts"))

from reference_list import hash_of, lookup, number_at, read_page

PAGE = 1024
SAMPLE = os.path.join(TOP, "crates", "list_image", "data", "sample")


def build_page(pairs):
    """A page that holds the pairs, in order, zeros between."""
    page = bytearray(PAGE)
    page[0:2] = (2 * len(pairs)).to_bytes(2, "little")
    end = PAGE
    at = 2
    for key, value in pairs:
        for part in (key, value):
            page[end - len(part) : end] = part
            end -= len(part)
            page[at : at + 2] = end.to_bytes(2, "little")
            at += 2
    assert at <= end
    return page


def page_at(pag, p):
    return bytes(pag[PAGE * p : PAGE * (p + 1)])


def put_page(pag, p, page):
    pag[PAGE * p : PAGE * (p + 1)] = page


def whole(directory, pag):
    pass


def cut(directory, pag):
    # in the middle of page 6: pages 6, 7, 8 and 14 are missing
    del pag[PAGE * 6 + 500 :]


def short_dir(directory, pag):
    # bit 10 is lost: page 6 is no longer split, page 14 is not reached
    del directory[1:]


def long_dir(directory, pag):
    directory.extend(b"\xff" * 70)


def bad_page(directory, pag):
    # on page 4 the value of pair 2 starts above the start of its key
    at = PAGE * 4 + 2 * 6
    key_start = number_at(pag, at - 2)
    pag[at : at + 2] = (key_start + 1).to_bytes(2, "little")
    assert read_page(page_at(pag, 4)) is None


def twice(directory, pag):
    # page 5 has its pair 3 again at the end, with another value
    pairs = read_page(page_at(pag, 5))
    put_page(pag, 5, build_page(pairs + [(pairs[3][0], b"again")]))
    assert read_page(page_at(pag, 5)) is None


def stray(directory, pag):
    # pair 0 of page 7 is a key that is at home on page 1, with another value
    key = read_page(page_at(pag, 1))[0][0]
    assert lookup(directory, hash_of(key)) == 1
    put_page(pag, 7, build_page([(key, b"stray")] + read_page(page_at(pag, 7))))
    assert read_page(page_at(pag, 7)) is not None
    # the middle pair of page 3 is a key that is on no other page
    key = b"stray_label"
    assert lookup(directory, hash_of(key)) != 3
    pairs = read_page(page_at(pag, 3))
    put_page(pag, 3, build_page(pairs[:8] + [(key, b"stray")] + pairs[8:]))
    assert read_page(page_at(pag, 3)) is not None


def empty(directory, pag):
    directory.clear()
    pag.clear()


def random(directory, pag):
    state = 10
    out = bytearray()
    for _ in range(4096 + 20000):
        state = (1103515245 * state + 12345) % 2**31
        out.append(state >> 16 & 255)
    directory[:] = out[:4096]
    pag[:] = out[4096:]


def main():
    folder = sys.argv[1] if len(sys.argv) > 1 else HERE
    for make in (whole, cut, short_dir, long_dir, bad_page, twice, stray, empty, random):
        with open(SAMPLE + ".dir", "rb") as file:
            directory = bytearray(file.read())
        with open(SAMPLE + ".pag", "rb") as file:
            pag = bytearray(file.read())
        make(directory, pag)
        for ending, data in ((".dir", directory), (".pag", pag)):
            with open(os.path.join(folder, make.__name__ + ending), "wb") as file:
                file.write(data)


if __name__ == "__main__":
    main()
