//! Records calls of the library with all memory that they are lent, before and after, as a corpus: tests/machines asks the same of other machines. Nothing is
//! recorded before `begin`.
//!
//! The form, every number little-endian and every part a multiple of 8 bytes. Behind the 16 bytes of `MAGIC` each call has
//!
//!     bytes 0-3      how many bytes follow this head of 16
//!     bytes 4-7      the function, by its place in crates/abi/src/lib.rt; its result; how many numbers; how many areas
//!     bytes 8-15     how many bytes the image has, and how many the changes
//!     numbers        8 bytes each: what is passed by value, in order
//!     areas          8 bytes each: the offset in the image of what is lent, and how many elements it has, in order
//!     image          the memory before the call: every area between guards
//!     changes        what the call makes of the image: offset and length, 4 bytes each, and the bytes, filled up to a multiple of 8
use std::cell::RefCell;
use std::fs::File;
use std::io::{self, BufWriter, Write};

const MAGIC: &[u8; 16] = b"analyser corpus\n";
const GUARD: u8 = 0xa5;
const GUARDS: usize = 16;
/// Bytes that differ belong to one change if fewer than this lie between them.
const NEAR: usize = 16;

/// What one pointer of a call is to.
pub struct Area {
    at: *const u8,
    elements: usize,
    bytes: usize,
}

impl Area {
    pub fn new<T>(at: *const T, elements: usize) -> Self {
        Area { at: at.cast(), elements, bytes: elements * size_of::<T>() }
    }
}

struct Recorder {
    file: BufWriter<File>,
    calls: u64,
}

thread_local! {
    static RECORDER: RefCell<Option<Recorder>> = const { RefCell::new(None) };
}

/// Records all calls of this thread from now on.
pub fn begin(path: &str) -> io::Result<()> {
    let mut file = BufWriter::new(File::create(path)?);
    file.write_all(MAGIC)?;
    RECORDER.with(|recorder| *recorder.borrow_mut() = Some(Recorder { file, calls: 0 }));
    Ok(())
}

/// How many calls were recorded.
pub fn end() -> io::Result<u64> {
    let recorder = RECORDER.with(|recorder| recorder.borrow_mut().take());
    recorder.map_or(Ok(0), |mut recorder| recorder.file.flush().map(|()| recorder.calls))
}

/// Makes the call.
///
/// # Safety
/// Each area is a pointer of the call, to as many elements as it says.
pub unsafe fn recorded(function: u8, numbers: &[u64], areas: &[Area], call: impl FnOnce() -> u8) -> u8 {
    if RECORDER.with(|recorder| recorder.borrow().is_none()) {
        return call();
    }
    let before = image(areas);
    let result = call();
    let record = record([function, result], numbers, areas, &before, &image(areas));
    RECORDER.with(|recorder| {
        if let Some(recorder) = &mut *recorder.borrow_mut() {
            recorder.file.write_all(&record).expect("the corpus can be written");
            recorder.calls += 1;
        }
    });
    result
}

fn offsets(areas: &[Area]) -> Vec<usize> {
    let (mut offsets, mut next) = (vec![], GUARDS);
    for area in areas {
        offsets.push(next);
        next = (next + area.bytes).next_multiple_of(8) + GUARDS;
    }
    offsets
}

/// # Safety
/// As `recorded`.
unsafe fn image(areas: &[Area]) -> Vec<u8> {
    let mut image = vec![];
    for (area, offset) in areas.iter().zip(offsets(areas)) {
        image.resize(offset, GUARD);
        image.extend_from_slice(std::slice::from_raw_parts(area.at, area.bytes));
    }
    image.resize(image.len().next_multiple_of(8) + GUARDS, GUARD);
    image
}

fn record(call: [u8; 2], numbers: &[u64], areas: &[Area], before: &[u8], after: &[u8]) -> Vec<u8> {
    let changes = changes(before, after);
    let mut record = vec![];
    let rest = 8 * (numbers.len() + areas.len()) + before.len() + changes.len();
    put(&mut record, rest);
    record.extend([call[0], call[1], numbers.len() as u8, areas.len() as u8]);
    put(&mut record, before.len());
    put(&mut record, changes.len());
    numbers.iter().for_each(|number| record.extend(number.to_le_bytes()));
    for (area, offset) in areas.iter().zip(offsets(areas)) {
        put(&mut record, offset);
        put(&mut record, area.elements);
    }
    record.extend_from_slice(before);
    record.extend(changes);
    record
}

fn put(bytes: &mut Vec<u8>, number: usize) {
    bytes.extend(u32::try_from(number).expect("a corpus has 32 bits for a length").to_le_bytes());
}

fn changes(before: &[u8], after: &[u8]) -> Vec<u8> {
    let mut changes = vec![];
    let mut from = 0;
    while let Some(first) = (from..before.len()).find(|&at| before[at] != after[at]) {
        from = first + 1;
        while let Some(next) = (from..before.len().min(from + NEAR)).find(|&at| before[at] != after[at]) {
            from = next + 1;
        }
        put(&mut changes, first);
        put(&mut changes, from - first);
        changes.extend_from_slice(&after[first..from]);
        changes.resize(changes.len().next_multiple_of(8), 0);
    }
    changes
}

#[cfg(test)]
mod tests {
    use super::*;

    #[test]
    fn a_change_is_told_with_its_place() {
        let before = [0; 64];
        let mut after = before;
        (after[3], after[5], after[40]) = (1, 2, 3);
        let mut due = vec![];
        for part in [&[3, 0, 0, 0, 3, 0, 0, 0, 1, 0, 2, 0, 0, 0, 0, 0][..], &[40, 0, 0, 0, 1, 0, 0, 0, 3, 0, 0, 0, 0, 0, 0, 0]] {
            due.extend_from_slice(part);
        }
        assert_eq!(changes(&before, &after), due);
        assert_eq!(changes(&before, &before), []);
    }

    #[test]
    fn areas_stand_apart_and_aligned() {
        let (words, bytes) = ([7u64; 2], [9u8; 3]);
        let areas = [Area::new(bytes.as_ptr(), 3), Area::new(words.as_ptr(), 2), Area::new(bytes.as_ptr(), 0)];
        let offsets = offsets(&areas);
        assert_eq!(offsets, [16, 40, 72]);
        let image = unsafe { image(&areas) };
        assert_eq!(image.len(), 88);
        assert_eq!(image[16..20], [9, 9, 9, GUARD]);
        assert_eq!(image[40..48], 7u64.to_le_bytes());
        assert!(image[..16].iter().chain(&image[20..40]).chain(&image[56..]).all(|&byte| byte == GUARD));
    }
}
