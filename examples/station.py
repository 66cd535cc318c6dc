#!/usr/bin/env python3
"""station.py < STREAM: the sheets and cells of a workbook stream, a line each, by the proved library.

It needs libstation.so where the system finds it (make install, or LD_LIBRARY_PATH).
"""
import ctypes
import sys
from ctypes import c_bool, c_char_p, c_size_t, c_uint8, c_uint16, c_uint32, c_uint64

BATCH = 128
KINDS = ["blank", "number {:016X}", "text {}", "truth {}", "error {:02X}",
         "formula number {:016X}", "formula text", "formula truth {}", "formula error {:02X}", "formula empty"]


def answer(name, **fields):
    """A struct of include/station.h."""
    return type(name, (ctypes.Structure,), {"_fields_": list(fields.items())})


Check = answer("Check", number=c_uint8, offset=c_size_t, sheets=c_size_t, strings=c_uint32, sheet=c_size_t, segment=c_size_t, at=c_size_t, end=c_size_t)
Sheet = answer("Sheet", ended=c_bool, header=c_size_t, size=c_size_t, width=c_size_t, kind=c_uint8, at=c_size_t, part=c_uint16, level=c_uint8, next=c_size_t)
Filled = answer("Filled", cells=c_size_t, ended=c_bool, at=c_size_t, part=c_uint16, level=c_uint8)

library = ctypes.CDLL("libstation.so")


def question(name, result, *arguments):
    """A function of include/station.h that asks about a stream."""
    function = library[name]
    function.restype, function.argtypes = result, (c_char_p, c_size_t) + arguments
    return lambda stream, *rest: function(stream, len(stream), *rest)


check = question("station_check", Check)
next_sheet = question("station_next_sheet", Sheet, c_size_t)
rows = question("station_rows", c_uint32, c_size_t, c_uint16, c_uint8)
next_cells = question("station_next_cells", Filled, c_size_t, c_uint16, c_uint8, ctypes.POINTER(c_uint64), c_size_t)


def sheets(stream, place):
    while not (sheet := next_sheet(stream, place)).ended:
        yield sheet
        place = sheet.next


def cells(stream, place):
    words = (c_uint64 * (4 * BATCH))()
    ended = False
    while not ended:
        filled = next_cells(stream, place.at, place.part, place.level, words, len(words))
        for i in range(filled.cells):
            head, value = words[4 * i], words[4 * i + 1]
            yield f"{head & 0xFFFF} {head >> 16 & 0xFFFF} {KINDS[head >> 48].format(value)}"
        place, ended = filled, filled.ended


def main():
    stream = sys.stdin.buffer.read()
    checked = check(stream)
    if checked.number != 0:
        print(f"refused {checked.number} at {checked.offset}")
        return 1
    listed = [(rows(stream, sheet.at, sheet.part, sheet.level), list(cells(stream, sheet))) for sheet in sheets(stream, checked.sheet)]
    print(f"sheets {checked.sheets} strings {checked.strings} cells {sum(len(lines) for _, lines in listed)}")
    for number, (count, lines) in enumerate(listed):
        print(f"sheet {number} rows {count}", *lines, sep="\n")
    return 0


if __name__ == "__main__":
    sys.exit(main())
