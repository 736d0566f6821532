//! The house format: records are found and judged where they lie.

const MARK: u8 = 0x52;
const MINOR_MARK: u8 = 0x4D;
const MAJOR_MARK: u8 = 0x4A;
pub const MINOR_LENGTH: usize = 59;
pub const MAJOR_LENGTH: usize = 619;
const WIRE: usize = 2;
const PATH: usize = 4;
const SAMPLES: usize = 5;
const SAMPLE_LENGTH: usize = 13;
const TEMPERATURES: usize = 57;
const REQUESTS: usize = 569;
const REQUESTS_LENGTH: usize = 8;
/// A byte for each string, behind the inhibit and re-enable words of all.
const DROPS: usize = 601;
const QUANTITIES: usize = 605;
const MOST_QUANTITY: u16 = 1_000;

pub type MinorRecord = [u8; MINOR_LENGTH];
pub type MajorRecord = [u8; MAJOR_LENGTH];
/// Those of a string.
pub type Temperatures = [u8; 128];

/// What the bytes at the front of the feed are.
pub enum Look<'a> {
    /// No good record begins before these bytes.
    Drops(&'a [u8]),
    Waits,
    /// A record and the bytes behind it.
    Minor(&'a MinorRecord, &'a [u8]),
    Major(&'a MajorRecord, &'a [u8]),
}

#[inline(always)]
pub fn look(feed: &[u8]) -> Look<'_> {
    match *feed {
        [MARK, MINOR_MARK, ..] => match feed.split_first_chunk() {
            None => return Look::Waits,
            Some((record, rest)) if good(record) => return Look::Minor(record, rest),
            Some(_) => {}
        },
        [MARK, MAJOR_MARK, ..] => match feed.split_first_chunk() {
            None => return Look::Waits,
            Some((record, rest)) if good(record) && quantities_right(record) => {
                return Look::Major(record, rest)
            }
            Some(_) => {}
        },
        [] | [MARK] => return Look::Waits,
        _ => {}
    }
    Look::Drops(from_mark(&feed[1..]))
}

/// The bytes from the first that may begin a mark. By itself: records seldom need it.
#[inline(never)]
fn from_mark(mut bytes: &[u8]) -> &[u8] {
    while let Some((chunk, rest)) = bytes.split_first_chunk::<32>() {
        // All of a chunk at once.
        if chunk.iter().fold(false, |any, &byte| any | (byte == MARK)) {
            break;
        }
        bytes = rest;
    }
    let before = bytes.iter().position(|&byte| byte == MARK).unwrap_or(bytes.len());
    &bytes[before..]
}

/// Are the reserved bits, those of the path byte, and the sum right? The bits first: they are the cheaper test.
#[inline(always)]
fn good<const LENGTH: usize>(record: &[u8; LENGTH]) -> bool {
    record[PATH] < 16 && sum(record) == half_word(record, LENGTH - 2)
}

/// The compiler adds a chunk whose length is a power of two by instructions that add eight bytes each, if nothing else is
/// added to it: so two sums are made side by side in a word, and its halves added. A minor record has chunks of 32 and
/// 16 bytes, a major one of 64 and 32, and nine bytes are left. By itself: the compiler would else take bytes that it
/// knows, those of the mark, out of their chunk.
#[inline(never)]
fn sum<const LENGTH: usize>(record: &[u8; LENGTH]) -> u16 {
    let (by_64, rest) = record[..LENGTH - 2].as_chunks::<64>();
    let (by_32, rest) = rest.as_chunks::<32>();
    let (by_16, rest) = rest.as_chunks::<16>();
    let both = (total(by_64) + total(by_16)) << 16 | total(by_32);
    let halves = both.wrapping_mul(0x1_0001) >> 16;
    (halves + added(rest)) as u16
}

#[inline(always)]
fn total<const LENGTH: usize>(chunks: &[[u8; LENGTH]]) -> u32 {
    let mut total = 0;
    for chunk in chunks {
        total += added(chunk);
    }
    total
}

#[inline(always)]
fn added(bytes: &[u8]) -> u32 {
    bytes.iter().map(|&byte| u32::from(byte)).sum()
}

fn quantities_right(record: &MajorRecord) -> bool {
    quantities(record).as_flattened().iter().all(|&quantity| quantity <= MOST_QUANTITY)
}

#[inline(always)]
fn half_word(bytes: &[u8], at: usize) -> u16 {
    u16::from_be_bytes(bytes_at(bytes, at))
}

/// A word as it lies, its bytes not turned.
#[inline(always)]
pub fn word(bytes: &[u8], at: usize) -> u32 {
    u32::from_ne_bytes(bytes_at(bytes, at))
}

/// Taken whole: of single bytes the compiler would make vectors here and there.
#[inline(always)]
fn bytes_at<const LENGTH: usize>(bytes: &[u8], at: usize) -> [u8; LENGTH] {
    bytes[at..at + LENGTH].try_into().expect("as many")
}

pub fn wire(record: &MinorRecord) -> u16 {
    half_word(record, WIRE)
}

pub fn path(record: &MinorRecord) -> u8 {
    record[PATH]
}

#[inline(always)]
pub fn commanded(record: &[u8], s: usize) -> u32 {
    word(record, SAMPLES + SAMPLE_LENGTH * s)
}

#[inline(always)]
pub fn pressure(record: &[u8], s: usize) -> u32 {
    word(record, SAMPLES + SAMPLE_LENGTH * s + 4)
}

#[inline(always)]
pub fn driver(record: &[u8], s: usize) -> u32 {
    word(record, SAMPLES + SAMPLE_LENGTH * s + 8)
}

#[inline(always)]
pub fn valves(record: &MinorRecord, s: usize) -> u8 {
    record[SAMPLES + SAMPLE_LENGTH * s + 12]
}

/// The temperatures of all strings.
pub fn temperatures(record: &MajorRecord) -> &[Temperatures] {
    record[TEMPERATURES..REQUESTS].as_chunks().0
}

/// Is there a request, or a drop?
pub fn asks(record: &MajorRecord) -> bool {
    record[REQUESTS..QUANTITIES].iter().fold(0, |any, byte| any | byte) != 0
}

/// The jets that are to be inhibited, and those that are to be re-enabled.
pub fn requests(record: &MajorRecord, s: usize) -> (u32, u32) {
    let at = REQUESTS + REQUESTS_LENGTH * s;
    (word(record, at), word(record, at + 4))
}

pub fn drops(record: &MajorRecord, s: usize) -> u8 {
    record[DROPS + s]
}

/// Fuel and oxidizer of each module.
#[inline(always)]
pub fn quantities(record: &MajorRecord) -> [[u16; 2]; 3] {
    let at = |module: usize| QUANTITIES + 4 * module;
    std::array::from_fn(|module| [half_word(record, at(module)), half_word(record, at(module) + 2)])
}
