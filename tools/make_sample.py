#!/usr/bin/env python3
"""Writes the sample books into a folder: eleven batches, their fees, and last year's archive.

The layout is the one of docs/FORMATS.md. The files under crates/register/data are what this
wrote; the script is here so that they can be made again, and no command of the product needs it.
"""
import struct
import sys

EMPTY, ENTERED, SETTLED = 0, 1, 2
PAGE = 512


def batch(number, grocer, coupons, cents, status):
    return struct.pack("<IIIQB11x", number, grocer, coupons, cents, status)


def fee(number, cents, status):
    return struct.pack("<IQB19x", number, cents, status)


def pages(*groups):
    return b"".join(b"".join(group).ljust(PAGE, b"\0") for group in groups)


BATCHES = [
    (1001, 7, 412, 30900, SETTLED),
    (1002, 7, 128, 9600, SETTLED),
    (1003, 12, 655, 52400, SETTLED),
    (1004, 31, 90, 6750, SETTLED),
    (1005, 12, 233, 18640, ENTERED),
    (1006, 31, 1207, 96560, ENTERED),
    (1007, 7, 64, 4480, ENTERED),
    (1008, 44, 318, 23850, ENTERED),
    (1009, 44, 501, 40080, ENTERED),
    (1010, 12, 77, 5775, ENTERED),
    (1011, 31, 946, 75680, ENTERED),
]

LAST_YEAR = [(901 + i, (7, 12, 31, 44)[i % 4], 100 + 37 * i, 7500 + 2775 * i, SETTLED) for i in range(18)]


def main():
    folder = sys.argv[1] if len(sys.argv) > 1 else "."
    records = [batch(*b) for b in BATCHES]
    fees = [fee(number, cents * 8 // 100, status) for number, _, _, cents, status in BATCHES]
    archive = [batch(*b) for b in LAST_YEAR]
    books = {
        "batch.book": pages(records[:8], records[8:], []),
        "fee.book": pages(fees),
        "archive.book": pages(archive[:16], archive[16:]),
        "defects.txt": b"# pages of the batch book that the disk check found bad\n1 worn\n2 lost\n",
    }
    for name, content in books.items():
        with open(f"{folder}/{name}", "wb") as file:
            file.write(content)


if __name__ == "__main__":
    main()
