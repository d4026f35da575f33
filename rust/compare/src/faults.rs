//! Every single fault that the refusal table knows, put to one sheet.

use second::generate::split;
use second::sheet::Mark;

/// The sheet with one fault each: cut, with a field at or past an edge, with another mark, with
/// records out of order, with another end. A few are accepted still.
pub fn single_faults(bytes: &[u8]) -> Vec<Vec<u8>> {
    let records = split(bytes);
    [cuts(bytes), fields(&records), marks(&records), orders(&records), ends(bytes)].concat()
}

/// Cut at every byte.
pub fn cuts(bytes: &[u8]) -> Vec<Vec<u8>> {
    (0..bytes.len()).map(|len| bytes[..len].to_vec()).collect()
}

/// The records with one of them put in another's place.
fn with_record(records: &[Vec<u8>], index: usize, record: Vec<u8>) -> Vec<u8> {
    let mut changed = records.to_vec();
    changed[index] = record;
    changed.concat()
}

/// Every field of every record at the edges of its range.
fn fields(records: &[Vec<u8>]) -> Vec<Vec<u8>> {
    let mut all = Vec::new();
    for (index, record) in records.iter().enumerate() {
        let values = edges(&compared(&records[..index], record));
        for place in (2..record.len()).step_by(2) {
            for value in &values {
                let mut changed = record.clone();
                changed[place..place + 2].copy_from_slice(&value.to_le_bytes());
                all.push(with_record(records, index, changed));
            }
        }
    }
    all
}

/// The fields of a record.
fn read_fields(record: &[u8]) -> Vec<u16> {
    record[2..].chunks(2).map(|pair| u16::from_le_bytes([pair[0], pair[1]])).collect()
}

/// The numbers that the rules of a record compare: its own fields and, of a switch, those of its
/// mode so far. Of these a sum is a due tick, offset + LET.
fn compared(before: &[Vec<u8>], record: &[u8]) -> Vec<u16> {
    let is = |record: &[u8], mark: Mark| record.starts_with(&mark.bytes());
    let of_mode = match is(record, Mark::Sw) || is(record, Mark::Sx) {
        true => before.iter().rposition(|other| is(other, Mark::Md)).unwrap_or(0),
        false => before.len(),
    };
    let others = before[of_mode..].iter().flat_map(|other| read_fields(other));
    others.chain(read_fields(record)).collect()
}

/// The edges that a rule can set: the fixed numbers, and sums and differences of the numbers that
/// it compares, with their neighbours. They wrap, as a rule that is worked out in 16 bits would.
fn edges(numbers: &[u16]) -> Vec<u16> {
    let mut middles = vec![0, 1, 8, 128, 256, 1024, 2000, 1 << 15];
    for &one in numbers {
        middles.extend([one, one.wrapping_mul(2), one / 2, one.wrapping_add(256)]);
        middles.extend(numbers.iter().map(|&other| one.wrapping_add(other)));
        middles.extend(numbers.iter().map(|&other| one.wrapping_sub(other)));
    }
    let around = |middle: u16| [middle.wrapping_sub(1), middle, middle.wrapping_add(1)];
    let mut all: Vec<u16> = middles.into_iter().flat_map(around).collect();
    all.sort_unstable();
    all.dedup();
    all
}

/// Every mark changed to each of the others, and to some that are not in the list.
fn marks(records: &[Vec<u8>]) -> Vec<Vec<u8>> {
    let mut all = Vec::new();
    for (index, record) in records.iter().enumerate() {
        let (first, second) = (record[0], record[1]);
        let unknown = [[second, first], [first | 32, second | 32], [first, 0], [0, second]];
        for mark in Mark::ALL.map(Mark::bytes).into_iter().chain(unknown) {
            let changed = [&mark[..], &record[2..]].concat();
            all.push(with_record(records, index, changed));
        }
    }
    all
}

/// Every record left out, put twice, exchanged with the next, and one of each kind put before it.
fn orders(records: &[Vec<u8>]) -> Vec<Vec<u8>> {
    let mut all = Vec::new();
    for (index, record) in records.iter().enumerate() {
        all.push(with_record(records, index, Vec::new()));
        all.push(with_record(records, index, record.repeat(2)));
        if let Some(next) = records.get(index + 1) {
            let mut exchanged = records.to_vec();
            exchanged[index + 1] = record.clone();
            all.push(with_record(&exchanged, index, next.clone()));
        }
        all.extend(Mark::ALL.map(|mark| {
            let put = [&mark.bytes()[..], &[1, 0].repeat(mark.fields()), record].concat();
            with_record(records, index, put)
        }));
    }
    all
}

/// Bytes after EN.
fn ends(bytes: &[u8]) -> Vec<Vec<u8>> {
    let after: [&[u8]; 5] = [b"\0", b"E", b"EN", b"EN\0\0", bytes];
    after.map(|more| [bytes, more].concat()).to_vec()
}

#[cfg(test)]
mod tests {
    use super::*;

    /// An SX comes to the period of its mode, and to the release and the due tick of the mode's
    /// task, with their neighbours; the mode before plays no part.
    #[test]
    fn sx_at_the_borders() {
        let before = [&b"MD\x90\0"[..], b"MD\x3C\0", b"TK\x0A\0\x01\0\x0A\0\x1E\0"];
        let values = edges(&compared(&before.map(<[u8]>::to_vec), b"SX\x01\0\x0F\0"));
        for border in [10, 20, 60] {
            assert!([border - 1, border, border + 1].iter().all(|value| values.contains(value)));
        }
        assert!(!values.contains(&144));
    }
}
