#!/usr/bin/env python3
"""Writes the day files that the desk's script reads into crates/desk/data/. docs/day-file.md has the format."""
import os
import struct

FOLDER = os.path.join(os.path.dirname(os.path.abspath(__file__)), "..", "crates", "desk", "data")


def day_file(day, quantities, prices, contracts, gap=b""):
    """A whole file: quantities and prices are a list of 24 pairs for each party, contracts a list of
    (seller, buyer, hour, kWh, price); `gap` stands before each section and after the last."""
    parties = len(quantities)
    body = b""
    pairs = []
    sections = [
        b"".join(struct.pack("<ii", *pair) for party in quantities for pair in party),
        b"".join(struct.pack("<ii", *pair) for party in prices for pair in party),
        b"".join(struct.pack("<BBBBIi", seller, buyer, hour, 0, kwh, price)
                 for seller, buyer, hour, kwh, price in contracts),
    ]
    for section in sections:
        body += gap
        pairs.append((32 + len(body), len(section)))
        body += section
    body += gap
    head = b"DAY1" + bytes([day, parties, 3, 0]) + b"".join(struct.pack("<II", *pair) for pair in pairs)
    return head + body


def patched(file, at, new):
    return file[:at] + new + file[at + len(new):]


def write(name, content):
    with open(os.path.join(FOLDER, name), "wb") as out:
        out.write(content)


def real_day():
    """Three plants and two buyers. Nothing runs in hours 1 to 4 and 24; node prices are negative around noon; plant 1 draws power in hour 2."""
    coal = [(0, 0) if h <= 4 or h == 24 else (40_000, 39_000 + 120 * h) for h in range(1, 25)]
    wind = [(0, -350) if h == 2 else (0, 0) if h <= 4 or h == 24 else (12_000, 9_500 + 310 * (h % 7)) for h in range(1, 25)]
    solar = [(25_000, 26_200) if 9 <= h <= 16 else (0, 0) for h in range(1, 25)]
    steel = [(30_000, 30_400 if h % 2 else 29_700) for h in range(1, 25)]
    retail = [(18_000 + 500 * (h // 6), 17_900 + 450 * (h // 5)) for h in range(1, 25)]
    noon = lambda h: 11 <= h <= 14
    coal_prices = [(-60_000, -85_000) if noon(h) else (310_000 + 4_000 * h, 325_500 + 3_000 * h) for h in range(1, 25)]
    wind_prices = [(-75_000, -90_001) if noon(h) else (290_000 + 4_000 * h, 301_250 + 3_000 * h) for h in range(1, 25)]
    solar_prices = [(-80_000, -95_000) if noon(h) else (280_000, 275_000) for h in range(1, 25)]
    nothing = [(0, 0)] * 24
    contracts = [
        (0, 3, 8, 15_000, 352_000), (0, 4, 8, 6_000, 349_500), (0, 3, 19, 20_000, 398_000),
        (1, 4, 10, 5_000, 301_250), (2, 4, 12, 9_000, -12_500), (2, 3, 13, 4_000, 5_000),
    ]
    return day_file(7, [coal, wind, solar, steel, retail], [coal_prices, wind_prices, solar_prices, nothing, nothing], contracts)


def small_day(contracts=((0, 1, 1, 500, 350_000),), gap=b""):
    """One plant and one buyer, energy in hour 1 alone."""
    plant = [(1_000, 1_200)] + [(0, 0)] * 23
    buyer = [(900, 1_150)] + [(0, 0)] * 23
    return day_file(1, [plant, buyer], [[(300_000, 400_000)] + [(0, 0)] * 23, [(0, 0)] * 24], list(contracts), gap)


def main():
    os.makedirs(FOLDER, exist_ok=True)
    small = small_day()
    number = lambda value: struct.pack("<i", value)
    word = lambda value: struct.pack("<I", value)
    write("day-07.day", real_day())
    write("small.day", small)
    write("gaps.day", small_day(gap=b"ignored"))
    write("many.day", small_day([(0, 1, 1 + k % 24, 1 + k, 350_000) for k in range(256)]))
    write("empty.day", b"")
    write("short.day", small[:31])
    write("letter.day", patched(small, 0, b"d"))
    write("version.day", patched(small, 6, b"\x02"))
    write("early.day", patched(small, 8, word(31)))
    write("overlap.day", patched(small, 16, word(415)))
    write("cut.day", small[:-1])
    write("far.day", patched(patched(small, 24, word(2**32 - 4)), 28, word(12)))
    write("length.day", patched(small, 12, word(383)))
    write("too-many.day", small_day([(0, 1, 1 + k % 24, 1, 350_000) for k in range(257)]))
    write("quantity.day", patched(small, 32, number(4_000_001)))
    write("reading.day", patched(small, 32 + 192 + 4, number(-1)))
    write("price.day", patched(small, 416, number(-5_000_001)))
    write("buyer-price.day", patched(small, 416 + 192, number(1)))
    write("hour.day", patched(small, 800 + 2, b"\x00"))
    write("kinds.day", patched(small, 800, b"\x01\x00"))
    write("two-faults.day", patched(patched(small, 416 + 192, number(1)), 32 + 4, number(4_000_001)))


main()
