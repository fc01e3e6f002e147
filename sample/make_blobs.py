#!/usr/bin/env python3
"""Makes the sample layer: a segmentation of blobs that touch, in two scales.

Usage: python3 sample/make_blobs.py FOLDER

Writes FOLDER/info and the chunks of both scales in the Neuroglancer precomputed format, with 64-bit labels, encoded as
`compressed_segmentation`. All is drawn from one seed and reckoned in whole numbers, so the bytes are the same each time.
"""
import json
import os
import random
import struct
import sys

SEED = 7
BLOBS = 40
SIZE = (101, 83, 37)  # voxels, as all sizes below; x, y, z
OFFSET = (40, 22, 9)
RESOLUTION = (16, 16, 40)  # nanometres
CHUNK = (64, 64, 16)
BLOCK = (8, 8, 8)
REACH = 1_100_000  # 1,000,000 is the ellipsoid that just touches the faces of the volume


class Scale:
    """A volume of labels, x fastest, then y, then z, and where it lies."""

    def __init__(self, size, offset, resolution, labels):
        self.size = size
        self.offset = offset
        self.resolution = resolution
        self.labels = labels

    def row(self, y, z):
        first = self.size[0] * (y + self.size[1] * z)
        return self.labels[first : first + self.size[0]]

    def key(self):
        return "_".join(map(str, self.resolution))


def from_the_middle(axis):
    """How far each place of an axis is from the middle of the volume: squares, 1,000,000 at its faces."""
    size = SIZE[axis]
    return [((2 * i + 1 - size) * 1000 // size) ** 2 for i in range(size)]


def draw_blobs(rng):
    """The seed point and the label of each blob. Labels are as wide as those of supervoxels: a level, the place, and a number."""
    middle = [from_the_middle(axis) for axis in range(3)]
    blobs = []
    while len(blobs) < BLOBS:
        x, y, z = (int(rng.random() * size) for size in SIZE)
        if middle[0][x] + middle[1][y] + middle[2][z] <= REACH:
            label = 1 << 56 | x // 32 << 48 | y // 32 << 40 | z // 16 << 32 | len(blobs) + 1
            blobs.append(((x, y, z), label))
    return blobs


def squares(axis, blobs):
    """For each blob, the squares of its distances in nanometres on this axis."""
    return [[((i - seed[axis]) * RESOLUTION[axis]) ** 2 for i in range(SIZE[axis])] for seed, _ in blobs]


def draw_volume(blobs):
    """Each voxel within the ellipsoid has the label of the nearest seed point, the first of several; outside it has 0."""
    middle = [from_the_middle(axis) for axis in range(3)]
    far = [squares(axis, blobs) for axis in range(3)]
    labels = []
    for z in range(SIZE[2]):
        for y in range(SIZE[1]):
            # a distance and the number of its blob in one number, so that the least names the nearest blob
            rows = [
                [(along + far[1][n][y] + far[2][n][z]) * BLOBS + n for along in far[0][n]] for n in range(BLOBS)
            ]
            room = REACH - middle[1][y] - middle[2][z]
            nearest = map(min, *rows)
            labels += [blobs[least % BLOBS][1] if at <= room else 0 for at, least in zip(middle[0], nearest)]
    return Scale(SIZE, OFFSET, RESOLUTION, labels)


def mode(a, b, c, d):
    """The label that most of four voxels have: of two pairs that of a, else that of b; of four different labels d."""
    if a in (b, c):
        return a
    return b if b == c else d


def halve(fine):
    """The scale with half the size in x and y: each voxel is the mode of four, where the last row or column stands for one
    that is missing."""
    width, height, depth = fine.size
    size = (-(-width // 2), -(-height // 2), depth)
    labels = []
    for z in range(depth):
        for y in range(0, height, 2):
            upper, lower = fine.row(y, z), fine.row(min(y + 1, height - 1), z)
            for x in range(0, width, 2):
                right = min(x + 1, width - 1)
                labels.append(mode(upper[x], upper[right], lower[x], lower[right]))
    offset = (fine.offset[0] // 2, fine.offset[1] // 2, fine.offset[2])
    resolution = (fine.resolution[0] * 2, fine.resolution[1] * 2, fine.resolution[2])
    return Scale(size, offset, resolution, labels)


def boxes(size, step):
    """The boxes of this step that cover a size, x fastest, each clipped: its low and its high corner."""
    for z in range(0, size[2], step[2]):
        for y in range(0, size[1], step[1]):
            for x in range(0, size[0], step[0]):
                low = (x, y, z)
                yield low, tuple(min(at + side, end) for at, side, end in zip(low, step, size))


def block_of(scale, low, end):
    """The labels of a whole block. The chunk ends at `end`: beyond it stands the label of its last voxel on the axis."""
    labels = []
    for z in range(low[2], low[2] + BLOCK[2]):
        for y in range(low[1], low[1] + BLOCK[1]):
            row = scale.row(min(y, end[1] - 1), min(z, end[2] - 1))
            labels += [row[min(x, end[0] - 1)] for x in range(low[0], low[0] + BLOCK[0])]
    return labels


def packed(indices, bits):
    """The indices in so many bits each, from the low bit of the first word up."""
    number = 0
    for position, index in enumerate(indices):
        number |= index << position * bits
    return number.to_bytes(len(indices) * bits // 8, "little")


def encode(scale, low, high):
    """A chunk as `compressed_segmentation`: the place of its one channel, then the headers of its blocks, then for each block
    its packed indices, and its table of labels unless an earlier block has the same one. Places are in words of 32 bits."""
    size = tuple(end - begin for begin, end in zip(low, high))
    blocks = list(boxes(size, BLOCK))
    headers, body, tables = [], b"", {}
    for corner, _ in blocks:
        labels = block_of(scale, tuple(begin + at for begin, at in zip(low, corner)), high)
        table = tuple(sorted(set(labels)))
        bits = next(bits for bits in (0, 1, 2, 4, 8, 16, 32) if len(table) <= 1 << bits)
        indices_at = 2 * len(blocks) + len(body) // 4
        body += packed([table.index(label) for label in labels], bits)
        if table not in tables:
            tables[table] = 2 * len(blocks) + len(body) // 4
            body += struct.pack(f"<{len(table)}Q", *table)
        headers += [tables[table] | bits << 24, indices_at]
    return struct.pack(f"<{1 + len(headers)}I", 1, *headers) + body


def info_of(scales):
    members = [
        {
            "key": scale.key(),
            "size": scale.size,
            "voxel_offset": scale.offset,
            "resolution": scale.resolution,
            "chunk_sizes": [CHUNK],
            "encoding": "compressed_segmentation",
            "compressed_segmentation_block_size": BLOCK,
        }
        for scale in scales
    ]
    return {
        "@type": "neuroglancer_multiscale_volume",
        "type": "segmentation",
        "data_type": "uint64",
        "num_channels": 1,
        "scales": members,
    }


def write(folder, scales):
    for scale in scales:
        os.makedirs(f"{folder}/{scale.key()}", exist_ok=True)
        for low, high in boxes(scale.size, CHUNK):
            name = "_".join(f"{at + low[i]}-{at + high[i]}" for i, at in enumerate(scale.offset))
            with open(f"{folder}/{scale.key()}/{name}", "wb") as file:
                file.write(encode(scale, low, high))
    with open(f"{folder}/info", "w") as file:
        json.dump(info_of(scales), file, indent=2)
        file.write("\n")


def main():
    if len(sys.argv) != 2:
        sys.exit("usage: python3 make_blobs.py FOLDER")
    fine = draw_volume(draw_blobs(random.Random(SEED)))
    write(sys.argv[1], [fine, halve(fine)])


if __name__ == "__main__":
    main()
