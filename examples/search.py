#!/usr/bin/env python3
"""A search from Python: opens an index, adds pages, gives a reader rights, and prints what he finds.

    python3 search.py [libvetchdawn.so]

The calls and their numbers are those of vetchdawn.h. ctypes takes an array as a pointer; its length is handed over beside it.
"""
import ctypes
import sys
from ctypes import POINTER, byref, c_size_t, c_uint8, c_uint16, c_uint32

BITS, SYMBOLS, BLOCKS, PAGES, NODES, THRESHOLD = 4, 8, 2, 100, 400, 4
READER, GROUP, OPEN_STACKS, SEALED = 5, 1, 2, 3
TOO_SHORT = 13  # the answer of a search whose lists are too short

BYTES = [POINTER(c_uint8), c_size_t]
HALVES = [POINTER(c_uint16), c_size_t]
WORDS = [POINTER(c_uint32), c_size_t]
NUMBER = [c_uint32]
OUT = [POINTER(c_uint32)]
PARAMETERS = {
    "lengths": NUMBER * 5 + OUT * 5,
    "open": WORDS * 3 + BYTES + WORDS + NUMBER * 5 + HALVES,
    "add": WORDS * 3 + BYTES + NUMBER * 2 + BYTES,
    "join": WORDS + NUMBER * 2,
    "grant": WORDS + NUMBER * 2,
    "search": WORDS * 3 + BYTES + WORDS + NUMBER * 2 + BYTES + HALVES * 2 + OUT,
    "show": WORDS * 2 + BYTES + NUMBER * 2 + OUT * 2,
}


def load(path):
    """The calls by their names without vetch_."""
    library = ctypes.CDLL(path)
    calls = {}
    for name, parameters in PARAMETERS.items():
        calls[name] = library["vetch_" + name]
        calls[name].argtypes = parameters
        calls[name].restype = c_uint32
    return calls


def must(number):
    if number != 0:
        raise SystemExit(f"refused by question {number}")


class Index:
    def __init__(self, path):
        self.calls = load(path)
        lengths = [c_uint32() for _ in range(5)]
        must(self.calls["lengths"](BITS, SYMBOLS, BLOCKS, PAGES, NODES, *map(byref, lengths)))
        types = [c_uint32, c_uint32, c_uint32, c_uint8, c_uint32]
        tables = [(kind * length.value)() for kind, length in zip(types, lengths)]
        # each table with its length, as the calls take them
        self.settings, self.nodes, self.pages, self.sketches, self.working = [[table, len(table)] for table in tables]
        self.store = self.settings + self.nodes + self.pages + self.sketches
        thresholds = (c_uint16 * 64)(*[THRESHOLD] * 64)
        must(self.calls["open"](*self.store, *self.working, BITS, SYMBOLS, BLOCKS, PAGES, NODES, thresholds, 64))

    def add(self, page, class_of_page, sketch):
        return self.calls["add"](*self.store, page, class_of_page, (c_uint8 * len(sketch))(*sketch), len(sketch))

    def join(self, reader, group):
        must(self.calls["join"](*self.settings, reader, group))

    def grant(self, group, class_of_pages):
        must(self.calls["grant"](*self.settings, group, class_of_pages))

    def search(self, reader, radius, sketch):
        """Pairs of page and distance, the nearest first."""
        query, count, places = (c_uint8 * len(sketch))(*sketch), c_uint32(), 4
        while True:
            found, distances = (c_uint16 * places)(), (c_uint16 * places)()
            number = self.calls["search"](*self.store, *self.working, reader, radius, query, len(sketch),
                                          found, places, distances, places, byref(count))
            if number != TOO_SHORT:
                must(number)
                return list(zip(found, distances))[:count.value]
            places = count.value  # so many the lists need

    def show(self, reader, page):
        """The page's symbols, or none where it is missing or closed to the reader."""
        start, length = c_uint32(), c_uint32()
        number = self.calls["show"](*self.settings, *self.pages, *self.sketches, reader, page, byref(start), byref(length))
        return None if number else self.sketches[0][start.value:start.value + length.value]


def main():
    index = Index(sys.argv[1] if len(sys.argv) > 1 else "libvetchdawn.so.3")
    charter = [1, 2, 3, 4, 5, 6, 7, 8]
    # page p differs from the charter in the first p / 3 places; every fourth one is sealed
    for page in range(12):
        sketch = [symbol ^ 8 if place < page // 3 else symbol for place, symbol in enumerate(charter)]
        must(index.add(page, SEALED if page % 4 == 0 else OPEN_STACKS, sketch))
    print("page 7 again: refused by question", index.add(7, OPEN_STACKS, charter))
    index.join(READER, GROUP)
    print("no class granted:", index.search(READER, 2, charter))
    index.grant(GROUP, OPEN_STACKS)
    print("the open stacks:", index.search(READER, 2, charter))
    index.grant(GROUP, SEALED)
    print("the sealed file too:", index.search(READER, 2, charter))
    print("page 7:", index.show(READER, 7))
    print("page 50:", index.show(READER, 50))


if __name__ == "__main__":
    main()
