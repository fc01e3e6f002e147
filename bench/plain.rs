//! The plain program of the yardstick: it generates layers of 64-bit labels, and copies or halves them task by task, as the product does,
//! with the standard library alone. It refuses nothing, since its input is trusted.
//!
//!     plain generate DEST SIZE CHUNK ENCODING
//!     plain copy SRC DEST CHUNK SHAPE ENCODING
//!     plain downsample SRC DEST SHAPE
//!
//! The last writes the scale of half the size into a layer of its own. SIZE, CHUNK and SHAPE are X,Y,Z; ENCODING is `raw` or `compressed_segmentation`, in blocks of 8,8,8.

use std::path::{Path, PathBuf};
use std::{array, env, fs, process};

/// Voxels on each axis.
type Point = [usize; 3];

const KEY: &str = "8_8_8";
const HALVED_KEY: &str = "16_16_8";
const TEMPORARY: &str = ".plain-tmp";
const BLOCK: Point = [8, 8, 8];
/// About how many voxels a generated cell of one label has on each axis.
const CELL: usize = 24;

/// A box of voxels, from `lo` to before `hi`.
#[derive(Clone, Copy)]
struct Area {
    lo: Point,
    hi: Point,
}

impl Area {
    fn size(&self) -> Point {
        array::from_fn(|axis| self.hi[axis] - self.lo[axis])
    }

    fn count(&self) -> usize {
        self.size().iter().product()
    }

    fn common(&self, other: Area) -> Area {
        Area {
            lo: array::from_fn(|axis| self.lo[axis].max(other.lo[axis])),
            hi: array::from_fn(|axis| self.hi[axis].min(other.hi[axis])),
        }
    }

    /// Where the voxel stands in the list of the labels of this box, x fastest.
    fn place(&self, [x, y, z]: Point) -> usize {
        let size = self.size();
        x - self.lo[0] + size[0] * (y - self.lo[1] + size[1] * (z - self.lo[2]))
    }

    /// The first voxel of each row along x.
    fn rows(self) -> impl Iterator<Item = Point> {
        (self.lo[2]..self.hi[2])
            .flat_map(move |z| (self.lo[1]..self.hi[1]).map(move |y| [self.lo[0], y, z]))
    }

    /// The file name of the chunk that is this box.
    fn name(&self) -> String {
        let [x, y, z]: [String; 3] =
            array::from_fn(|axis| format!("{}-{}", self.lo[axis], self.hi[axis]));
        format!("{x}_{y}_{z}")
    }
}

/// The box of a layer of this size.
fn whole(size: Point) -> Area {
    Area {
        lo: [0, 0, 0],
        hi: size,
    }
}

/// The cells of a grid of this step over a layer of this size that meet the box, x fastest, each clipped at the layer's end.
fn cells(area: Area, step: Point, size: Point) -> Vec<Area> {
    let begins: [Vec<usize>; 3] = array::from_fn(|axis| {
        let first = area.lo[axis] / step[axis] * step[axis];
        (first..area.hi[axis]).step_by(step[axis]).collect()
    });
    let mut cells = Vec::new();
    for &z in &begins[2] {
        for &y in &begins[1] {
            for &x in &begins[0] {
                let lo = [x, y, z];
                let hi = array::from_fn(|axis| size[axis].min(lo[axis] + step[axis]));
                cells.push(Area { lo, hi });
            }
        }
    }
    cells
}

#[derive(Clone, Copy, PartialEq)]
enum Encoding {
    Raw,
    Compressed,
}

/// A layer of one scale of 64-bit labels.
struct Layer {
    folder: PathBuf,
    key: &'static str,
    size: Point,
    chunk: Point,
    encoding: Encoding,
}

impl Layer {
    fn open(folder: &str) -> Layer {
        let info = fs::read_to_string(Path::new(folder).join("info")).unwrap();
        Layer {
            folder: PathBuf::from(folder),
            key: KEY,
            size: numbers_after(&info, "\"size\":["),
            chunk: numbers_after(&info, "\"chunk_sizes\":[["),
            encoding: if info.contains("\"encoding\":\"raw\"") {
                Encoding::Raw
            } else {
                Encoding::Compressed
            },
        }
    }

    /// Makes the folders of the layer, and writes its info.
    fn create(&self) {
        fs::create_dir_all(self.folder.join(self.key)).unwrap();
        fs::create_dir_all(TEMPORARY).unwrap();
        let (block, encoding) = match self.encoding {
            Encoding::Raw => (String::new(), "raw"),
            Encoding::Compressed => (
                format!(
                    r#""compressed_segmentation_block_size":[{}],"#,
                    text_of(BLOCK)
                ),
                "compressed_segmentation",
            ),
        };
        let (chunk, size) = (text_of(self.chunk), text_of(self.size));
        let scale = format!(
            r#"{{"chunk_sizes":[[{chunk}]],{block}"encoding":"{encoding}","key":"{}","resolution":[8,8,8],"size":[{size}],"voxel_offset":[0,0,0]}}"#,
            self.key
        );
        let info = format!(
            r#"{{"@type":"neuroglancer_multiscale_volume","data_type":"uint64","num_channels":1,"scales":[{scale}],"type":"segmentation"}}"#
        );
        write_file(&self.folder.join("info"), info.as_bytes());
    }

    fn path(&self, chunk: Area) -> PathBuf {
        self.folder.join(self.key).join(chunk.name())
    }

    /// The labels of a box.
    fn read(&self, area: Area) -> Vec<u64> {
        let mut labels = vec![0; area.count()];
        for chunk in cells(area, self.chunk, self.size) {
            let text = fs::read(self.path(chunk)).unwrap();
            match self.encoding {
                Encoding::Raw => paste_raw(&text, chunk, area, &mut labels),
                Encoding::Compressed => {
                    paste(&decode(&text, chunk.size()), chunk, area, &mut labels)
                }
            }
        }
        labels
    }

    /// Writes the chunks of a box that consists of whole ones.
    fn write(&self, area: Area, labels: &[u64]) {
        for chunk in cells(area, self.chunk, self.size) {
            let text = match self.encoding {
                Encoding::Raw => cut_raw(labels, area, chunk),
                Encoding::Compressed => {
                    let mut own = vec![0; chunk.count()];
                    paste(labels, area, chunk, &mut own);
                    encode(&own, chunk.size())
                }
            };
            write_file(&self.path(chunk), &text);
        }
    }
}

/// The three numbers that follow this text.
fn numbers_after(info: &str, text: &str) -> Point {
    let (_, rest) = info.split_once(text).unwrap();
    point_of(rest.split(']').next().unwrap())
}

fn point_of(text: &str) -> Point {
    let mut numbers = text.split(',').map(|number| number.parse().unwrap());
    array::from_fn(|_| numbers.next().unwrap())
}

fn text_of([x, y, z]: Point) -> String {
    format!("{x},{y},{z}")
}

/// Makes the file stand whole, by way of a temporary one.
fn write_file(path: &Path, bytes: &[u8]) {
    let name = path.file_name().unwrap().to_str().unwrap();
    let temporary = format!("{TEMPORARY}/{}-{name}", process::id());
    fs::write(&temporary, bytes).unwrap();
    fs::rename(&temporary, path).unwrap();
}

/// Copies the labels of the voxels that lie in both boxes.
fn paste(source: &[u64], from: Area, to: Area, labels: &mut [u64]) {
    let part = from.common(to);
    let long = part.size()[0];
    for row in part.rows() {
        let (begin, place) = (from.place(row), to.place(row));
        labels[place..place + long].copy_from_slice(&source[begin..begin + long]);
    }
}

/// Copies the labels of the voxels that lie in both boxes out of a raw text.
fn paste_raw(text: &[u8], from: Area, to: Area, labels: &mut [u64]) {
    let part = from.common(to);
    let long = part.size()[0];
    for row in part.rows() {
        let (begin, place) = (8 * from.place(row), to.place(row));
        let bytes = text[begin..begin + 8 * long].chunks_exact(8);
        for (label, bytes) in labels[place..place + long].iter_mut().zip(bytes) {
            *label = u64::from_le_bytes(bytes.try_into().unwrap());
        }
    }
}

/// The raw text of a chunk that lies in the box.
fn cut_raw(labels: &[u64], area: Area, chunk: Area) -> Vec<u8> {
    let long = chunk.size()[0];
    let mut text = vec![0; 8 * chunk.count()];
    for (row, bytes) in chunk.rows().zip(text.chunks_exact_mut(8 * long)) {
        let place = area.place(row);
        for (label, bytes) in labels[place..place + long]
            .iter()
            .zip(bytes.chunks_exact_mut(8))
        {
            bytes.copy_from_slice(&label.to_le_bytes());
        }
    }
    text
}

/// The labels of a compressed text of a chunk of this size.
fn decode(text: &[u8], size: Point) -> Vec<u64> {
    let words: Vec<u32> = text
        .chunks_exact(4)
        .map(|bytes| u32::from_le_bytes(bytes.try_into().unwrap()))
        .collect();
    let channel = &words[words[0] as usize..];
    let mut labels = vec![0; size.iter().product()];
    for (number, block) in cells(whole(size), BLOCK, size).into_iter().enumerate() {
        decode_block(channel, number, block, size, &mut labels);
    }
    labels
}

fn decode_block(channel: &[u32], number: usize, block: Area, size: Point, labels: &mut [u64]) {
    let (first, indices) = (channel[2 * number], channel[2 * number + 1] as usize);
    let (table, bits) = ((first & 0xff_ffff) as usize, (first >> 24) as usize);
    let entry = |place: usize| u64::from(channel[place]) | u64::from(channel[place + 1]) << 32;
    let (volume, long) = (whole(size), block.size()[0]);
    for row in block.rows() {
        let place = volume.place(row);
        let labels = &mut labels[place..place + long];
        if bits == 0 {
            labels.fill(entry(table));
            continue;
        }
        let mask = u32::MAX >> (32 - bits);
        let position = position_of(row, block);
        for (x, label) in labels.iter_mut().enumerate() {
            let bit = (position + x) * bits;
            let index = channel[indices + bit / 32] >> (bit % 32) & mask;
            *label = entry(table + 2 * index as usize);
        }
    }
}

/// The position of a voxel in its block, as if the block were a full one.
fn position_of(voxel: Point, block: Area) -> usize {
    let [x, y, z] = array::from_fn(|axis| voxel[axis] - block.lo[axis]);
    x + BLOCK[0] * (y + BLOCK[1] * z)
}

/// The compressed text of the labels of a chunk of this size.
fn encode(labels: &[u64], size: Point) -> Vec<u8> {
    let blocks = cells(whole(size), BLOCK, size);
    let mut channel = vec![0; 2 * blocks.len()];
    let mut table = Vec::new();
    for (number, block) in blocks.into_iter().enumerate() {
        let indices = channel.len();
        tabulate(labels, block, size, &mut table);
        let bits = fewest_bits(table.len());
        append_indices(labels, block, size, &table, bits, &mut channel);
        channel[2 * number] = (bits << 24 | channel.len()) as u32;
        channel[2 * number + 1] = indices as u32;
        channel.extend(
            table
                .iter()
                .flat_map(|label| [*label as u32, (label >> 32) as u32]),
        );
    }
    let mut text = vec![1, 0, 0, 0];
    text.extend(channel.iter().flat_map(|word| word.to_le_bytes()));
    text
}

/// The distinct labels of the block, ascending.
fn tabulate(labels: &[u64], block: Area, size: Point, table: &mut Vec<u64>) {
    table.clear();
    let (volume, long) = (whole(size), block.size()[0]);
    for row in block.rows() {
        let place = volume.place(row);
        for label in &labels[place..place + long] {
            if table.last() != Some(label) {
                table.push(*label);
            }
        }
    }
    table.sort_unstable();
    table.dedup();
}

/// The fewest lawful bits with which all entries of a table can be named.
fn fewest_bits(entries: usize) -> usize {
    [0, 1, 2, 4, 8, 16, 32]
        .into_iter()
        .find(|bits| entries <= 1 << bits)
        .unwrap()
}

fn append_indices(
    labels: &[u64],
    block: Area,
    size: Point,
    table: &[u64],
    bits: usize,
    channel: &mut Vec<u32>,
) {
    if bits == 0 {
        return;
    }
    let first = channel.len();
    let positions: usize = BLOCK.iter().product();
    channel.resize(first + (positions * bits).div_ceil(32), 0);
    let words = &mut channel[first..];
    let (volume, long) = (whole(size), block.size()[0]);
    let mut index = 0;
    for row in block.rows() {
        let (place, position) = (volume.place(row), position_of(row, block));
        for (x, label) in labels[place..place + long].iter().enumerate() {
            if table[index] != *label {
                index = table.binary_search(label).unwrap();
            }
            let bit = (position + x) * bits;
            words[bit / 32] |= (index as u32) << (bit % 32);
        }
    }
}

/// A number that looks random for each number (splitmix64).
fn mix(number: u64) -> u64 {
    let number = number
        .wrapping_mul(0x9e37_79b9_7f4a_7c15)
        .wrapping_add(0x9e37_79b9_7f4a_7c15);
    let number = (number ^ number >> 30).wrapping_mul(0xbf58_476d_1ce4_e5b9);
    let number = (number ^ number >> 27).wrapping_mul(0x94d0_49bb_1331_11eb);
    number ^ number >> 31
}

/// The centre and the label of the cell with these numbers; each eighth is background.
fn seed(cell: Point) -> ([i64; 3], u64) {
    let random = mix((cell[0] + 1024 * (cell[1] + 1024 * cell[2])) as u64);
    let centre = array::from_fn(|axis| {
        let shift = (random >> (16 * axis)) as usize % CELL;
        (CELL * cell[axis] + shift) as i64
    });
    let label = if random >> 61 == 0 { 0 } else { mix(random) };
    (centre, label)
}

/// The seeds of the cell in which a voxel lies and of those around it. The cells are numbered from 1, so that each has all.
fn seeds_around(cell: Point) -> Vec<([i64; 3], u64)> {
    let mut seeds = Vec::new();
    for z in cell[2] - 1..=cell[2] + 1 {
        for y in cell[1] - 1..=cell[1] + 1 {
            for x in cell[0] - 1..=cell[0] + 1 {
                seeds.push(seed([x, y, z]));
            }
        }
    }
    seeds
}

/// The label of the nearest seed.
fn nearest(seeds: &[([i64; 3], u64)], voxel: Point) -> u64 {
    let distance = |centre: &[i64; 3]| -> i64 {
        (0..3)
            .map(|axis| (centre[axis] - voxel[axis] as i64).pow(2))
            .sum()
    };
    seeds
        .iter()
        .min_by_key(|(centre, _)| distance(centre))
        .unwrap()
        .1
}

/// The labels of a box of a segmentation: each voxel has that of the nearest seed.
fn generated(area: Area) -> Vec<u64> {
    let shifted = Area {
        lo: area.lo.map(|x| x + CELL),
        hi: area.hi.map(|x| x + CELL),
    };
    let mut labels = vec![0; area.count()];
    for cell in cells(shifted, [CELL; 3], shifted.hi) {
        let seeds = seeds_around(cell.lo.map(|x| x / CELL));
        let part = cell.common(shifted);
        for [x, y, z] in part.rows() {
            let place = shifted.place([x, y, z]);
            for step in 0..part.size()[0] {
                labels[place + step] = nearest(&seeds, [x + step, y, z]);
            }
        }
    }
    labels
}

fn generate(layer: &Layer) {
    layer.create();
    for chunk in cells(whole(layer.size), layer.chunk, layer.size) {
        layer.write(chunk, &generated(chunk));
    }
}

fn copy(source: &Layer, dest: &Layer, shape: Point) {
    dest.create();
    for task in cells(whole(source.size), shape, source.size) {
        dest.write(task, &source.read(task));
    }
}

/// Half of a size in x and y, up.
fn half(size: Point) -> Point {
    [size[0].div_ceil(2), size[1].div_ceil(2), size[2]]
}

/// Of four labels, at (0, 0), (1, 0), (0, 1) and (1, 1), the one that is there twice, else the last.
fn mode(a: u64, b: u64, c: u64, d: u64) -> u64 {
    if a == b || a == c {
        a
    } else if b == c {
        b
    } else {
        d
    }
}

/// The modes of the two by two blocks of a box of this size, the last column and row repeated.
fn halve(labels: &[u64], size: Point) -> Vec<u64> {
    let [wide, tall, deep] = size;
    let mut modes = Vec::with_capacity(half(size).iter().product());
    for z in 0..deep {
        for y in (0..tall).step_by(2) {
            let upper = &labels[wide * (y + tall * z)..][..wide];
            let lower = &labels[wide * ((y + 1).min(tall - 1) + tall * z)..][..wide];
            for x in (0..wide).step_by(2) {
                let next = (x + 1).min(wide - 1);
                modes.push(mode(upper[x], upper[next], lower[x], lower[next]));
            }
        }
    }
    modes
}

fn downsample(source: &Layer, dest: &str, shape: Point) {
    let dest = Layer {
        folder: PathBuf::from(dest),
        key: HALVED_KEY,
        size: half(source.size),
        chunk: source.chunk,
        encoding: source.encoding,
    };
    dest.create();
    for task in cells(whole(source.size), shape, source.size) {
        let halved = Area {
            lo: [task.lo[0] / 2, task.lo[1] / 2, task.lo[2]],
            hi: half(task.hi),
        };
        dest.write(halved, &halve(&source.read(task), task.size()));
    }
}

fn encoding_of(text: &str) -> Encoding {
    if text == "raw" {
        Encoding::Raw
    } else {
        Encoding::Compressed
    }
}

/// A layer of this size that is still to be made.
fn planned(folder: &str, size: Point, chunk: &str, encoding: &str) -> Layer {
    Layer {
        folder: PathBuf::from(folder),
        key: KEY,
        size,
        chunk: point_of(chunk),
        encoding: encoding_of(encoding),
    }
}

fn main() {
    let words: Vec<String> = env::args().skip(1).collect();
    let words: Vec<&str> = words.iter().map(String::as_str).collect();
    match words[..] {
        ["generate", dest, size, chunk, encoding] => {
            generate(&planned(dest, point_of(size), chunk, encoding));
        }
        ["copy", source, dest, chunk, shape, encoding] => {
            let source = Layer::open(source);
            let dest = planned(dest, source.size, chunk, encoding);
            copy(&source, &dest, point_of(shape));
        }
        ["downsample", source, dest, shape] => {
            downsample(&Layer::open(source), dest, point_of(shape));
        }
        _ => {
            eprintln!("plain: the words are not a command");
            process::exit(2);
        }
    }
}
