//! The records of a job stream, as FORMAT.md lays them down.

pub const END: u8 = 0;
pub const FLOOR: u8 = 1;
pub const COSTS: u8 = 2;
pub const LOAD: u8 = 3;
pub const CHECK: u8 = 4;
pub const THIN: u8 = 5;
pub const SIGHT: u8 = 6;
pub const TABLE: u8 = 7;
pub const POST: u8 = 8;
pub const STRIKE: u8 = 9;
pub const WORKING: u8 = 10;
pub const OBSTACLE: u8 = 11;
pub const FINISH: u8 = 12;
pub const REPLAY: u8 = 13;
pub const CHANGES: u8 = 14;
pub const REPORT: u8 = 15;
pub const WRITER: u8 = 16;
pub const WRITE_MAP: u8 = 17;
pub const WRITE_JOB: u8 = 18;
pub const PROPOSE: u8 = 19;
pub const LEGS: u8 = 20;
pub const MEND: u8 = 21;

pub const WORDS: usize = 14;
pub const HEADER_SIZE: usize = 64;
pub const PAYLOAD_ROOM: usize = 16_384;
pub const MAP_ROOM: usize = 2_056;
pub const SHEET_ROOM: usize = 16_384;
pub const WORK_ROOM: usize = 65_536;
pub const LIST_ROOM: usize = 16_392;
pub const WORKING_ROOM: usize = 2_056;
pub const LOG_ROOM: usize = 16_392;
pub const CHANGES_ROOM: usize = 16_392;
pub const WRITTEN_ROOM: usize = 8_192;
pub const WRITTEN_PAST: usize = 8;
pub const MOST_DAMAGES: usize = 4;

#[derive(Clone, Debug)]
pub struct Record {
    pub operation: u8,
    pub words: [u32; WORDS],
    pub payload: Vec<u8>,
}

impl Record {
    pub fn new(operation: u8, words: &[u32], payload: Vec<u8>) -> Record {
        assert!(payload.len() <= PAYLOAD_ROOM);
        let mut all = [0; WORDS];
        all[..words.len()].copy_from_slice(words);
        Record { operation, words: all, payload }
    }

    pub fn write(&self, out: &mut Vec<u8>) {
        out.extend([self.operation, 0, 0, 0]);
        out.extend((self.payload.len() as u32).to_le_bytes());
        for word in self.words {
            out.extend(word.to_le_bytes());
        }
        out.extend(&self.payload);
    }

    /// The record at the start of the input, which is moved past it.
    pub fn read(input: &mut &[u8]) -> Option<Record> {
        let header = input.get(..HEADER_SIZE)?;
        let word = |at: usize| u32::from_le_bytes(header[at..at + 4].try_into().unwrap());
        let size = word(4) as usize;
        let payload = input.get(HEADER_SIZE..HEADER_SIZE + size)?.to_vec();
        let mut words = [0; WORDS];
        for (k, place) in words.iter_mut().enumerate() {
            *place = word(8 + 4 * k);
        }
        let operation = header[0];
        *input = &input[HEADER_SIZE + size..];
        Some(Record { operation, words, payload })
    }

    pub fn word(&self, k: usize) -> usize {
        self.words[k] as usize
    }
}

/// A sheet slice, a place in it and the value put there.
#[derive(Clone, Copy, Debug)]
pub struct Damage {
    pub slice: usize,
    pub place: usize,
    pub value: u64,
}

pub fn damages_to_bytes(damages: &[Damage]) -> Vec<u8> {
    assert!(damages.len() <= MOST_DAMAGES);
    places_to_bytes(damages)
}

/// The same of any number of places.
pub fn places_to_bytes(damages: &[Damage]) -> Vec<u8> {
    let mut bytes = Vec::new();
    for damage in damages {
        bytes.extend((damage.slice as u32).to_le_bytes());
        bytes.extend((damage.place as u32).to_le_bytes());
        bytes.extend(damage.value.to_le_bytes());
    }
    bytes
}

pub fn damages_from_bytes(bytes: &[u8]) -> Vec<Damage> {
    let number = |part: &[u8]| u32::from_le_bytes(part.try_into().unwrap()) as usize;
    let damage = |part: &[u8]| Damage {
        slice: number(&part[..4]),
        place: number(&part[4..8]),
        value: u64::from_le_bytes(part[8..].try_into().unwrap()),
    };
    bytes.chunks_exact(16).map(damage).collect()
}

/// The value put at a place before a call, cut to the slice's width.
pub fn pattern(seed: u32, place: usize) -> u64 {
    u64::from(seed) + 2_654_435_761 * place as u64
}

/// A digest of a list of numbers below 2^32; no step passes 2^64.
pub struct Digest {
    value: u64,
}

impl Digest {
    pub fn new() -> Digest {
        Digest { value: 7 }
    }

    pub fn push(&mut self, number: u32) {
        self.value = (self.value * 1_000_003 + u64::from(number) + 1) % 4_294_967_291;
    }

    pub fn of(numbers: impl Iterator<Item = u32>) -> u64 {
        let mut digest = Digest::new();
        numbers.for_each(|number| digest.push(number));
        digest.value
    }

    /// Of 64-bit numbers, each as its low half and then its high half.
    pub fn of_wide(numbers: &[u64]) -> u64 {
        Digest::of(numbers.iter().flat_map(|&x| [(x % (1 << 32)) as u32, (x >> 32) as u32]))
    }
}
