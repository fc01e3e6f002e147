#!/usr/bin/env python3
"""Draws one slice of a layer as a picture.

Usage: python3 sample/preview.py LAYER OUT.png [--mip N] [--z Z] [--zoom N] [--borders]

LAYER is a folder in the Neuroglancer precomputed format, with an `info`; its chunks are `raw` or `compressed_segmentation`. The slice
is that of the scale with number N (default 0, the finest) at z (in its voxels, counted from its offset on; default the middle one).
Each label has one colour, the same in every layer, and label 0 is black. A voxel is one dot, or with --zoom a square of N by N.
--borders draws where chunks begin. A chunk that is not there is named in a line, and drawn as grey stripes; the status is then 1.

It needs Python 3.8 and its standard library alone.
"""
import argparse
import json
import os
import struct
import sys
import zlib

WIDTHS = {"uint8": 1, "uint16": 2, "uint32": 4, "uint64": 8}
STRIPES = ((90, 90, 90), (60, 60, 60))
BORDER = (255, 255, 255)


def colour_of(label):
    """A colour that looks drawn at random, but is that of the label: bright, so that no label looks like the black of 0."""
    if label == 0:
        return 0, 0, 0
    mixed = label
    for factor in (0xBF58476D1CE4E5B9, 0x94D049BB133111EB):
        mixed = (mixed ^ mixed >> 30) * factor & (1 << 64) - 1
    mixed ^= mixed >> 31
    sector, along = divmod(mixed % (6 * 256), 256)
    high, low = 160 + (mixed >> 16) % 96, 24 + (mixed >> 24) % 72
    rising, falling = low + (high - low) * along // 255, high - (high - low) * along // 255
    return [
        (high, rising, low),
        (falling, high, low),
        (low, high, rising),
        (low, falling, high),
        (rising, low, high),
        (high, low, falling),
    ][sector]


class Scale:
    """A scale of a layer: sizes are in voxels, x, y, z."""

    def __init__(self, layer, info, number):
        scale = info["scales"][number]
        self.folder = os.path.join(layer, scale["key"])
        self.size = scale["size"]
        self.offset = scale.get("voxel_offset", [0, 0, 0])
        self.chunk = scale["chunk_sizes"][0]
        self.width = WIDTHS[info["data_type"]]
        self.block = scale.get("compressed_segmentation_block_size")
        if scale["encoding"] not in ("raw", "compressed_segmentation"):
            sys.exit(f"preview.py: chunks in the encoding {scale['encoding']} can't be read")
        self.is_raw = scale["encoding"] == "raw"

    def chunks_at(self, z):
        """The low and the high corner of each chunk that meets the slice, counted from the offset."""
        low_z = z - z % self.chunk[2]
        for y in range(0, self.size[1], self.chunk[1]):
            for x in range(0, self.size[0], self.chunk[0]):
                low = (x, y, low_z)
                yield low, tuple(min(at + side, end) for at, side, end in zip(low, self.chunk, self.size))

    def path_of(self, low, high):
        name = "_".join(f"{at + first}-{at + last}" for at, first, last in zip(self.offset, low, high))
        return os.path.join(self.folder, name)

    def rows_of(self, text, low, high, z):
        """The labels of a chunk in the slice, row by row."""
        size = [last - first for first, last in zip(low, high)]
        decode = raw_rows if self.is_raw else compressed_rows
        return decode(text, size, z - low[2], self.width, self.block)


def raw_rows(text, size, z, width, _block):
    plane = size[0] * size[1]
    labels = struct.unpack_from(f"<{plane}{' BH I   Q'[width]}", text, z * plane * width)
    return [labels[y * size[0] : (y + 1) * size[0]] for y in range(size[1])]


def compressed_rows(text, size, z, width, block):
    """Channel 0: two words a block, x fastest, then the places of indices and tables, in words of 32 bits."""
    words = struct.unpack(f"<{len(text) // 4}I", text)[struct.unpack_from("<I", text)[0] :]
    blocks = [-(-length // side) for length, side in zip(size, block)]
    rows = []
    for y in range(size[1]):
        row = []
        for x in range(size[0]):
            number = x // block[0] + blocks[0] * (y // block[1] + blocks[1] * (z // block[2]))
            head, indices = words[2 * number], words[2 * number + 1]
            bits, index = head >> 24, 0
            if bits:
                place = (x % block[0] + block[0] * (y % block[1] + block[1] * (z % block[2]))) * bits
                index = words[indices + place // 32] >> place % 32 & (1 << bits) - 1
            at = (head & 0xFFFFFF) + index * width // 4
            row.append(words[at] if width == 4 else words[at] | words[at + 1] << 32)
        rows.append(row)
    return rows


def draw(scale, z, borders):
    """The dots of the slice, row by row, and the paths of the chunks that are not there."""
    dots = [[(0, 0, 0)] * scale.size[0] for _ in range(scale.size[1])]
    missing, colours = [], {}
    for low, high in scale.chunks_at(z):
        path = scale.path_of(low, high)
        try:
            with open(path, "rb") as file:
                rows = scale.rows_of(file.read(), low, high, z)
        except FileNotFoundError:
            missing.append(path)
            rows = None
        for y in range(low[1], high[1]):
            for x in range(low[0], high[0]):
                if rows is None:
                    dots[y][x] = STRIPES[(x + y) // 4 % 2]
                else:
                    label = rows[y - low[1]][x - low[0]]
                    if label not in colours:
                        colours[label] = colour_of(label)
                    dots[y][x] = colours[label]
                if borders and (x == low[0] or y == low[1]):
                    dots[y][x] = tuple((a + b) // 2 for a, b in zip(dots[y][x], BORDER))
    return dots, missing


def write_png(path, dots, zoom):
    def part(name, data):
        return struct.pack(">I", len(data)) + name + data + struct.pack(">I", zlib.crc32(name + data))

    lines = b""
    for row in dots:
        line = b"\0" + b"".join(bytes(dot) * zoom for dot in row)
        lines += line * zoom
    head = struct.pack(">IIBBBBB", len(dots[0]) * zoom, len(dots) * zoom, 8, 2, 0, 0, 0)
    with open(path, "wb") as file:
        file.write(b"\x89PNG\r\n\x1a\n" + part(b"IHDR", head) + part(b"IDAT", zlib.compress(lines, 9)) + part(b"IEND", b""))


def main():
    parser = argparse.ArgumentParser(description="Draws one slice of a layer as a picture.")
    parser.add_argument("layer")
    parser.add_argument("out")
    parser.add_argument("--mip", type=int, default=0, metavar="N")
    parser.add_argument("--z", type=int)
    parser.add_argument("--zoom", type=int, default=1, metavar="N")
    parser.add_argument("--borders", action="store_true")
    given = parser.parse_args()
    try:
        with open(os.path.join(given.layer, "info"), "rb") as file:
            info = json.load(file)
    except (OSError, ValueError) as error:
        sys.exit(f"preview.py: {given.layer}/info: {error}")
    if not 0 <= given.mip < len(info["scales"]):
        sys.exit(f"preview.py: no scale {given.mip} of {len(info['scales'])}")
    scale = Scale(given.layer, info, given.mip)
    z = scale.size[2] // 2 if given.z is None else given.z
    if not 0 <= z < scale.size[2]:
        sys.exit(f"preview.py: z is to be from 0 to {scale.size[2] - 1}")
    dots, missing = draw(scale, z, given.borders)
    write_png(given.out, dots, max(given.zoom, 1))
    for path in missing:
        print(f"preview.py: missing {path}", file=sys.stderr)
    sys.exit(1 if missing else 0)


if __name__ == "__main__":
    main()
