//! Save and load: the record of a state, as fields of a tag, a length and bytes. Numbers are big-endian.

use crate::checks::{self, Refusal, FORM, SHORT, UNSOUND};
use crate::fault::{planted, Fault};
use crate::plot::{Head, Map};

/// The bytes that the ground of `n` cells takes.
fn ground_bytes(n: usize) -> usize {
    n.div_ceil(8)
}

/// The length of a record of `n` cells: seven fields with three bytes before each.
pub fn record_length(n: usize) -> usize {
    7 * 3 + 1 + 1 + 2 + 2 + ground_bytes(n) + 2 * n + n
}

fn push_field(record: &mut Vec<u8>, tag: u8, bytes: &[u8]) {
    record.push(tag);
    record.extend((bytes.len() as u16).to_be_bytes());
    record.extend(bytes);
}

/// The record of a state that was accepted.
fn written(head: Head, map: &Map) -> Vec<u8> {
    let n = head.cells();
    let mut ground = vec![0; ground_bytes(n)];
    for cell in 0..n {
        ground[cell / 8] |= map.ground[cell] << (cell % 8);
    }
    let learned: Vec<u8> = map.learned[..n].iter().flat_map(|value| value.to_be_bytes()).collect();
    let mut record = Vec::new();
    push_field(&mut record, 1, &[head.width as u8]);
    push_field(&mut record, 2, &[head.height as u8]);
    push_field(&mut record, 3, &(head.goal as u16).to_be_bytes());
    push_field(&mut record, 4, &(head.cell as u16).to_be_bytes());
    push_field(&mut record, 5, &ground);
    push_field(&mut record, 6, &learned);
    push_field(&mut record, 7, &map.link[..n]);
    record
}

/// Writes the record to the front of `bytes`, and gives its length.
pub fn save(head: Head, map: &Map, bytes: &mut [u8]) -> Result<usize, Refusal> {
    checks::accepted(head, map, &[], &[])?;
    let record = written(head, map);
    checks::require(bytes.len() >= record.len(), SHORT)?;
    bytes[..record.len()].copy_from_slice(&record);
    Ok(record.len())
}

/// What a record in good form holds: a head with sides in order, and N entries of each buffer.
pub struct Read {
    pub head: Head,
    pub ground: Vec<u8>,
    pub learned: Vec<u16>,
    pub link: Vec<u8>,
}

impl Read {
    pub fn map(&mut self) -> Map<'_> {
        Map { ground: &mut self.ground, learned: &mut self.learned, link: &mut self.link }
    }
}

/// Takes the next field off the front of `rest`: its tag and its length must be these.
fn take_field<'a>(rest: &mut &'a [u8], tag: u8, length: usize) -> Result<&'a [u8], Refusal> {
    checks::require(rest.len() >= 3 + length, FORM)?;
    let stated = usize::from(u16::from_be_bytes([rest[1], rest[2]]));
    checks::require(rest[0] == tag && stated == length, FORM)?;
    let (field, after) = rest.split_at(3 + length);
    *rest = after;
    Ok(&field[3..])
}

fn number(bytes: &[u8]) -> usize {
    bytes.iter().fold(0, |sum, &byte| sum * 256 + usize::from(byte))
}

/// Reads the record as to its form: 8 for the first two fields, then 1, then 8 for the rest.
fn read_form(bytes: &[u8]) -> Result<Read, Refusal> {
    let mut rest = bytes;
    let width = number(take_field(&mut rest, 1, 1)?);
    let height = number(take_field(&mut rest, 2, 1)?);
    checks::sides(width, height)?;
    let n = width * height;
    let goal = number(take_field(&mut rest, 3, 2)?);
    let cell = number(take_field(&mut rest, 4, 2)?);
    let ground = take_field(&mut rest, 5, ground_bytes(n))?;
    let learned = take_field(&mut rest, 6, 2 * n)?;
    let link = take_field(&mut rest, 7, n)?;
    checks::require(rest.is_empty(), FORM)?;
    let bit = |k: usize| ground[k / 8] >> (k % 8) & 1;
    let spare_clear = (n..8 * ground.len()).all(|k| bit(k) == 0);
    checks::require(spare_clear || planted(Fault::TakesSpareBits), FORM)?;
    Ok(Read {
        head: Head { width, height, goal, cell },
        ground: (0..n).map(bit).collect(),
        learned: learned.chunks(2).map(|pair| number(pair) as u16).collect(),
        link: link.to_vec(),
    })
}

/// Load's checks in load's order: form and sides, then 3, then 2 for buffers of these lengths, then 4.
pub fn read(bytes: &[u8], lengths: &[usize]) -> Result<Read, Refusal> {
    let mut read = read_form(bytes)?;
    let head = read.head;
    checks::inside(head.cells(), &[head.goal, head.cell])?;
    checks::room(head.cells(), lengths)?;
    checks::require(checks::sound(head, &read.map()), UNSOUND)?;
    Ok(read)
}

/// Sets the first N entries of the map from the record, and gives its head.
pub fn load(bytes: &[u8], map: &mut Map) -> Result<Head, Refusal> {
    let read = read(bytes, &map.lengths())?;
    let n = read.head.cells();
    map.ground[..n].copy_from_slice(&read.ground);
    map.learned[..n].copy_from_slice(&read.learned);
    map.link[..n].copy_from_slice(&read.link);
    Ok(read.head)
}
