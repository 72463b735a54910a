#!/usr/bin/env python3
"""Lists an sdbm database and looks names up in it: written directly from the format, with no tricks.

usage: reference_list.py [--go-on] [--symbol=NAME].. [--member=NAME].. DIR PAG [NAMES-FILE]

The names stand one per line in NAMES-FILE, or on standard input without it. With --go-on the listing goes on past refused
pages. The values of the other names are told as records.
"""

import sys

PAGE_BYTES = 1024
DIR_BYTES = 4096
MOST_DEPTH = 15
FIRST_PAGE_BLOCK = 4

NOT_GOOD = "refused 6 by the database at block {}: the page is not good"
PAST_END = "refused 9 by the bottom device at block {}: the block's number is not below the limit"
EMPTY_NAME = "refused 1 by the database at block 0: the key is empty"
NO_CODE = "refused 13 by the database at block {}: the value is no code of this kind"
SORTS = ["object", "data", "other"]


def number_at(data, at):
    return data[at] + 256 * data[at + 1]


def hash_of(key):
    h = 0
    for byte in key:
        h = (byte + 65599 * h) % 2**32
    return h


def bit(directory, i):
    if i >= 32767 or i // 8 >= len(directory):
        return False
    return directory[i // 8] >> (i % 8) & 1 == 1


def lookup(directory, h):
    """The page where a hash is at home."""
    index = 0
    depth = 0
    while depth < MOST_DEPTH and bit(directory, index):
        if h >> depth & 1 == 0:
            index = 2 * index + 1
        else:
            index = 2 * index + 2
        depth += 1
    return h % 2**depth


def reachable_pages(directory):
    return [p for p in range(2**MOST_DEPTH) if lookup(directory, p) == p]


def read_page(page):
    """The pairs of a page, in order, or None when the page is not good."""
    n = number_at(page, 0)
    if n % 2 != 0 or n > 510:
        return None
    pairs = []
    seen = set()
    end = PAGE_BYTES
    for i in range(0, n, 2):
        key_start = number_at(page, 2 * (i + 1))
        value_start = number_at(page, 2 * (i + 2))
        if key_start >= end or value_start > key_start:
            return None
        key = page[key_start:end]
        if key in seen:
            return None
        seen.add(key)
        pairs.append((key, page[value_start:key_start]))
        end = value_start
    if n > 0 and end < 2 * (n + 1):
        return None
    return pairs


def shown(data):
    text = '"'
    for byte in data:
        if 0x20 <= byte <= 0x7E and byte not in b'"\\':
            text += chr(byte)
        else:
            text += "\\x%02x" % byte
    return text + '"'


def read_file(path):
    try:
        with open(path, "rb") as file:
            return file.read()
    except OSError:
        return None


def split_names(data):
    names = data.split(b"\n")
    if names[-1] == b"":
        names.pop()
    return names


class Database:
    def __init__(self, directory, pages):
        self.directory = directory[:DIR_BYTES]
        self.pages = pages
        self.whole_pages = len(pages) // PAGE_BYTES

    def page(self, p):
        """The pairs of page p, and the refusal: one of the two is None."""
        if p >= self.whole_pages:
            return None, PAST_END.format(FIRST_PAGE_BLOCK + p)
        pairs = read_page(self.pages[PAGE_BYTES * p : PAGE_BYTES * (p + 1)])
        if pairs is None:
            return None, NOT_GOOD.format(FIRST_PAGE_BLOCK + p)
        return pairs, None

    def home(self, key):
        return lookup(self.directory, hash_of(key))


def signed(number, bits):
    return number - 2**bits if number >= 2 ** (bits - 1) else number


def long_at(data, at):
    return number_at(data, at) + 65536 * number_at(data, at + 2)


def symbol_text(value):
    """A symbol's record as text, or None."""
    if len(value) != 10:
        return None
    address, section, addend = long_at(value, 0), number_at(value, 4), signed(long_at(value, 6), 32)
    return f"address 0x{address:08x}, section {section}, addend {addend}"


def member_text(value):
    """A library member's record as text, or None."""
    if len(value) != 9 or value[8] >= len(SORTS):
        return None
    return f"offset {long_at(value, 0)}, length {long_at(value, 4)}, {SORTS[value[8]]}"


def value_text(value):
    return value.hex() or "(empty)"


def look_up(database, word, names, text):
    """The lines for some names, and their count in words."""
    lines = []
    found = not_there = refused = 0
    for name in names:
        if name == b"":
            answer = EMPTY_NAME
            refused += 1
        else:
            home = database.home(name)
            pairs, refusal = database.page(home)
            values = dict(pairs or [])
            if refusal is not None:
                answer = refusal
                refused += 1
            elif name not in values:
                answer = "not there"
                not_there += 1
            elif text(values[name]) is None:
                answer = NO_CODE.format(FIRST_PAGE_BLOCK + home)
                refused += 1
            else:
                answer = text(values[name])
                found += 1
        lines.append(f"{word} {shown(name)}: {answer}")
    return lines, f"{word}s: {found} found, {not_there} not there, {refused} refused"


def listing(dir_path, pag_path, names, symbols=(), members=(), go_on=False):
    """The lines to print."""
    lines = []

    directory = read_file(dir_path)
    if directory is None:
        lines.append(f"{dir_path}: cannot be read: taken as empty")
        directory = b""
    elif len(directory) == DIR_BYTES:
        lines.append(f"{dir_path}: {len(directory)} bytes, a whole directory")
    elif len(directory) < DIR_BYTES:
        short = DIR_BYTES - len(directory)
        lines.append(f"{dir_path}: {len(directory)} bytes, {short} short of a whole directory: filled up with zeros")
    else:
        past = len(directory) - DIR_BYTES
        lines.append(f"{dir_path}: {len(directory)} bytes, {past} past the directory: left alone")

    pages = read_file(pag_path)
    if pages is None:
        lines.append(f"{pag_path}: cannot be read: taken as empty")
        pages = b""
    else:
        line = f"{pag_path}: {len(pages)} bytes, {len(pages) // PAGE_BYTES} whole pages"
        if len(pages) % PAGE_BYTES != 0:
            line += f", and a part page of {len(pages) % PAGE_BYTES} bytes: left alone"
        lines.append(line)

    database = Database(directory, pages)
    reachable = reachable_pages(database.directory)
    missing = [p for p in reachable if p >= database.whole_pages]
    if missing:
        lines.append(f"{pag_path}: {len(missing)} reachable pages lie past the end, from page {missing[0]} on")

    pairs_shown = pages_refused = 0
    stopped = None
    for p in reachable:
        pairs, refusal = database.page(p)
        if refusal is not None and go_on:
            lines.append(f"page {p}: {refusal}")
            pages_refused += 1
            continue
        if refusal is not None:
            stopped = f"stopped at page {p}: {refusal}"
            break
        for k, (key, value) in enumerate(pairs):
            if database.home(key) == p:
                lines.append(f"page {p} pair {k}: {shown(key)} = {shown(value)}")
                pairs_shown += 1

    counts = []
    for word, asked, text in [
        ("name", names, value_text),
        ("symbol", symbols, symbol_text),
        ("member", members, member_text),
    ]:
        told, count = look_up(database, word, asked, text)
        lines += told
        if asked or word == "name":
            counts.append(count)

    end = stopped or "listed to the end"
    if pages_refused:
        end += f", {pages_refused} pages refused"
    lines.append(f"pairs: {pairs_shown} shown, {end}")
    return lines + counts


def main():
    words = sys.argv[1:]
    go_on = "--go-on" in words
    symbols = [word[9:].encode() for word in words if word.startswith("--symbol=")]
    members = [word[9:].encode() for word in words if word.startswith("--member=")]
    files = [word for word in words if not word.startswith("--")]
    if len(files) not in (2, 3):
        sys.exit(__doc__.strip())
    if len(files) == 3:
        with open(files[2], "rb") as file:
            names = split_names(file.read())
    else:
        names = split_names(sys.stdin.buffer.read())
    for line in listing(files[0], files[1], names, symbols, members, go_on):
        sys.stdout.buffer.write(line.encode("utf-8", "surrogateescape") + b"\n")


if __name__ == "__main__":
    main()
