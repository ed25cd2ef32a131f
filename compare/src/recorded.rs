//! The form of the recorded answers, as FORMAT.md has it.

use crate::case::{AREAS, Answer, Case};
use crate::show::used_length;

/// Shorter repetitions of a piece of the source are written out.
const SHORTEST_RUN: usize = 32;
const LONGEST_PERIOD: usize = 16;

pub fn write(case: &Case, answer: &Answer) -> Vec<u8> {
    let mut bytes = vec![];
    let runs = runs(&case.source);
    push_number(&mut bytes, runs.len());
    for (times, piece) in runs {
        push_number(&mut bytes, times);
        push_bytes(&mut bytes, piece);
    }
    bytes.extend(case.flags.to_le_bytes());
    push_bytes(&mut bytes, &case.verdicts);
    for length in case.capacities {
        push_number(&mut bytes, length);
    }
    push_number(&mut bytes, answer.word as usize);
    bytes.extend(answer.counts.iter().flat_map(|count| count.to_le_bytes()));
    for area in &answer.areas {
        push_bytes(&mut bytes, &area[..used_length(area)]);
    }
    bytes
}

fn push_number(bytes: &mut Vec<u8>, number: usize) {
    let number = u32::try_from(number).expect("every number of a record fits 4 bytes");
    bytes.extend(number.to_le_bytes());
}

fn push_bytes(bytes: &mut Vec<u8>, part: &[u8]) {
    push_number(bytes, part.len());
    bytes.extend(part);
}

/// The source as pieces with the times each is repeated; only long repetitions are worth it.
fn runs(source: &[u8]) -> Vec<(usize, &[u8])> {
    let mut runs = vec![];
    let (mut start, mut at) = (0, 0);
    while at < source.len() {
        match run_at(&source[at..]) {
            None => at += 1,
            Some((times, period)) => {
                runs.extend((start < at).then(|| (1, &source[start..at])));
                runs.push((times, &source[at..at + period]));
                at += times * period;
                start = at;
            }
        }
    }
    runs.extend((start < at).then(|| (1, &source[start..at])));
    runs
}

fn run_at(rest: &[u8]) -> Option<(usize, usize)> {
    (1..=LONGEST_PERIOD.min(rest.len())).find_map(|period| {
        let times = rest.chunks_exact(period).take_while(|piece| *piece == &rest[..period]).count();
        (times > 1 && times * period >= SHORTEST_RUN).then_some((times, period))
    })
}

/// All records of a file, behind its lines of text.
pub fn read(file: &[u8]) -> Result<Vec<(Case, Answer)>, String> {
    let header = file.windows(2).position(|bytes| bytes == b"\n\n").ok_or("The file has no empty line.")? + 2;
    let mut reader = Reader { rest: &file[header..] };
    let mut records = vec![];
    while !reader.rest.is_empty() {
        let record = reader.record().ok_or_else(|| format!("The file ends inside record {}.", records.len()))?;
        records.push(record);
    }
    Ok(records)
}

struct Reader<'a> {
    rest: &'a [u8],
}

impl<'a> Reader<'a> {
    fn take(&mut self, length: usize) -> Option<&'a [u8]> {
        let (part, rest) = self.rest.split_at_checked(length)?;
        self.rest = rest;
        Some(part)
    }

    fn number(&mut self) -> Option<usize> {
        Some(u32::from_le_bytes(self.take(4)?.try_into().ok()?) as usize)
    }

    fn bytes(&mut self) -> Option<&'a [u8]> {
        let length = self.number()?;
        self.take(length)
    }

    fn record(&mut self) -> Option<(Case, Answer)> {
        let mut source = vec![];
        for _ in 0..self.number()? {
            let times = self.number()?;
            source.extend(self.bytes()?.repeat(times));
        }
        let flags = u64::from_le_bytes(self.take(8)?.try_into().ok()?);
        let verdicts = self.bytes()?.to_vec();
        let mut capacities = [0; AREAS];
        for capacity in &mut capacities {
            *capacity = self.number()?;
        }
        let answer = self.answer(&capacities)?;
        Some((Case { source, flags, verdicts, capacities }, answer))
    }

    fn answer(&mut self, capacities: &[usize; AREAS]) -> Option<Answer> {
        let word = self.number()? as u64;
        let mut counts = [0; AREAS];
        for count in &mut counts {
            *count = u16::from_le_bytes(self.take(2)?.try_into().ok()?);
        }
        let mut areas = capacities.map(|length| vec![0; length]);
        for area in &mut areas {
            let used = self.bytes()?;
            area.get_mut(..used.len())?.copy_from_slice(used);
        }
        Some(Answer { word, counts, areas })
    }
}

#[cfg(test)]
mod tests {
    use super::*;

    #[test]
    fn a_long_source_takes_few_bytes_and_is_read_again() {
        let source = [b"%%\n".to_vec(), b"a ;\n".repeat(2_049), b"x".to_vec()].concat();
        let case = Case { source, flags: u64::MAX, verdicts: vec![0, 1], capacities: [6, 0, 0, 0, 0, 9] };
        let areas = case.capacities.map(|length| vec![length as u8; length]);
        let answer = Answer { word: 65_535 * 65_536 + 5, counts: [1, 2, 3, 4, 5, 65_535], areas };
        let record = write(&case, &answer);
        assert!(record.len() < 200);
        let file = [b"some words\n\n".to_vec(), record].concat();
        assert_eq!(read(&file), Ok(vec![(case, answer)]));
    }
}
