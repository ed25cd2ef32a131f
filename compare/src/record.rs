//! `compare record`: a sample of expected answers for the program `replay`; `compare check-record`: whether it still holds.

use crate::answers::{ACCEPTED, AREA_FULL, FAULTY_FILE};
use crate::case::{AREAS, Answer, Case, RECORD_SIZES};
use crate::files_to_try::{self, File};
use crate::generators::{self, Generator};
use crate::oracle;
use crate::recorded;
use crate::show;
use crate::side::Side;
use std::collections::{BTreeMap, BTreeSet, HashSet};
use std::path::Path;

/// Cases from all over the mix.
const FROM_MIX: u64 = 900;
const FROM_LIMITS: u64 = 60;
/// Each feature of an answer is to be there so many times, if that many candidates have it.
const WANTED_TIMES: usize = 50;
const CANDIDATES: u64 = 40_000;
/// A long file's answer is taken whatever its size until this many bytes are used up, afterwards only if it is small.
const BYTES_FOR_LONG_ANSWERS: usize = 250_000;
const SMALL_ANSWER: usize = 3_000;
/// So that a reader needs no larger areas.
const LONGEST_AREA: usize = 65_536;

pub fn record(output: &Path, seed: u64) -> Result<(), String> {
    let mut sample = Sample::default();
    for case in files_to_try::FILES.iter().map(File::case).chain(escapes()) {
        sample.add(case, |_, _, _| true)?;
    }
    for index in 0..FROM_LIMITS {
        sample.add(generators::case(Generator::Limits, seed, index), Sample::has_room_for_long)?;
    }
    for index in 0..FROM_MIX {
        // 613 is prime to the 1,000 cases of a round
        sample.add(generators::case(Generator::Mix, seed, index * 613), |_, _, length| length < SMALL_ANSWER)?;
    }
    for index in 0..CANDIDATES {
        let generator = [Generator::Grammar, Generator::Areas][(index % 2) as usize];
        sample.add(generators::case(generator, seed, index), Sample::has_little_of)?;
    }
    sample.check()?;
    let bytes = sample.bytes(seed);
    write(output, &bytes).map_err(|error| format!("{} cannot be written: {error}", output.display()))?;
    println!(
        "{} answers, {} bytes, written to {}.",
        show::number(sample.known.len() as u64),
        show::number(bytes.len() as u64),
        output.display()
    );
    Ok(())
}

/// The recorded answers are the expected ones, and our library's where it is linked.
pub fn check_record(input: &Path, side: Option<&dyn Side>) -> Result<(), String> {
    let file = std::fs::read(input).map_err(|error| format!("{} cannot be read: {error}", input.display()))?;
    let records = recorded::read(&file)?;
    for (number, (case, answer)) in records.iter().enumerate() {
        let told = |what: String| format!("Record {number} does not hold.\n{}\n{what}", show::case(case));
        let expected = oracle::expected(case).map_err(|finding| told(show::finding(&finding)))?;
        let ours = side.map(|side| (side.name(), side.parse(case)));
        for (name, got) in [Some(("expected".to_string(), expected)), ours].into_iter().flatten() {
            if got != *answer {
                return Err(told(show::side_by_side("recorded", answer, &name, &got)));
            }
        }
    }
    println!("{} recorded answers hold.", show::number(records.len() as u64));
    Ok(())
}

fn write(output: &Path, bytes: &[u8]) -> std::io::Result<()> {
    if let Some(directory) = output.parent() {
        std::fs::create_dir_all(directory)?;
    }
    std::fs::write(output, bytes)
}

/// Every ASCII character and some longer ones behind a backslash: alone, before a hex digit, before a lone last backslash
/// and after a state list.
fn escapes() -> impl Iterator<Item = Case> {
    let characters = ('\0'..='\u{7f}').chain(['\u{85}', '\u{a0}', 'é', '€', '\u{2028}', '😀']);
    characters.flat_map(|character| {
        let flags = if character == 'b' { 2 } else { 0 };
        [
            (format!("%%\n\\{character} ;"), flags),
            (format!("%%\n\\{character}F\\qa\\{character} 'N'"), 0),
            (format!("%%\n\\q\\{character}ab\\ ;"), flags),
            (format!("%%\n<INITIAL>\\{character} ;"), 3),
        ]
        .map(|(source, flags)| generators::roomy_case(source, flags))
    })
}

#[derive(Default)]
struct Sample {
    known: HashSet<Case>,
    /// How often each feature is there.
    features: BTreeMap<String, usize>,
    records: Vec<u8>,
    bytes_of_long_answers: usize,
    longest_source: usize,
    longest_verdicts: usize,
    longest_areas: [usize; AREAS],
}

impl Sample {
    /// Adds the case if it is new and the sample wants its answer, of which the record's length is told too.
    fn add(&mut self, case: Case, wants: impl Fn(&Sample, &Answer, usize) -> bool) -> Result<(), String> {
        let case = Case { capacities: case.capacities.map(|length| length.min(LONGEST_AREA)), ..case };
        if self.known.contains(&case) {
            return Ok(());
        }
        let answer =
            oracle::expected(&case).map_err(|finding| format!("{}\n{}", show::case(&case), show::finding(&finding)))?;
        let record = recorded::write(&case, &answer);
        if !wants(self, &answer, record.len()) {
            return Ok(());
        }
        for feature in features(&answer) {
            *self.features.entry(feature).or_default() += 1;
        }
        if record.len() > SMALL_ANSWER {
            self.bytes_of_long_answers += record.len();
        }
        self.records.extend(record);
        self.longest_source = self.longest_source.max(case.source.len());
        self.longest_verdicts = self.longest_verdicts.max(case.verdicts.len());
        for (longest, length) in self.longest_areas.iter_mut().zip(case.capacities) {
            *longest = length.max(*longest);
        }
        self.known.insert(case);
        Ok(())
    }

    fn has_room_for_long(&self, _: &Answer, length: usize) -> bool {
        length <= SMALL_ANSWER || self.bytes_of_long_answers + length <= BYTES_FOR_LONG_ANSWERS
    }

    fn has_little_of(&self, answer: &Answer, length: usize) -> bool {
        let is_rare = |feature: String| self.features.get(&feature).is_none_or(|times| *times < WANTED_TIMES);
        length <= SMALL_ANSWER && features(answer).into_iter().any(is_rare)
    }

    /// Every number, area, kind of fault, operation and place must be there.
    fn check(&self) -> Result<(), String> {
        let numbers = (0..=5).map(|number| format!("number {number}"));
        let areas = (1..=AREAS).map(|area| format!("number 4, area {area}"));
        let kinds = (0..=11).map(|kind| format!("kind {kind}"));
        let operations = (0..=3).map(|operation| format!("operation {operation}"));
        let places = (0..=1).map(|place| format!("place {place}"));
        let wanted = numbers.chain(areas).chain(kinds).chain(operations).chain(places);
        let missing: Vec<String> = wanted.filter(|feature| !self.features.contains_key(feature)).collect();
        if missing.is_empty() { Ok(()) } else { Err(format!("The sample lacks: {}.", missing.join("; "))) }
    }

    fn bytes(&self, seed: u64) -> Vec<u8> {
        let areas: Vec<String> = self.longest_areas.iter().map(usize::to_string).collect();
        let header = format!(
            "Expected answers of the parse call, for the program replay. The form is in compare/FORMAT.md.\n\
             made by: tools/compare record --seed {seed}\n\
             cases: {}\n\
             from: parser.rs of grmtools, with the stand-ins of 01 and Debian's {}; what it does not keep is derived by 01\n\
             longest source: {}\n\
             longest list of verdicts: {}\n\
             longest areas: {}\n\n",
            self.known.len(),
            original::ENGINE,
            self.longest_source,
            self.longest_verdicts,
            areas.join(" ")
        );
        [header.as_bytes(), &self.records].concat()
    }
}

/// What is said of the sample: no two features of an answer are the same.
fn features(answer: &Answer) -> BTreeSet<String> {
    let mut features = BTreeSet::from([format!("number {}", answer.number())]);
    match answer.number() {
        AREA_FULL => {
            features.insert(format!("number 4, area {}", answer.value()));
        }
        FAULTY_FILE => {
            let spans = answer.value() as usize;
            features.extend(fields(answer, 5, spans, 1).map(|kind| format!("kind {kind}")));
            features
                .extend(fields(answer, 5, spans, 0).filter(|fault| *fault > 0).map(|_| "several faults".to_string()));
        }
        ACCEPTED => {
            let rules = usize::from(answer.counts[1]);
            features.extend(fields(answer, 1, rules, 7).map(|place| format!("place {place}")));
            features.extend(fields(answer, 1, rules, 12).map(|operation| format!("operation {operation}")));
            features
                .extend((0..AREAS).map(|area| format!("area {}: {} records", area + 1, answer.counts[area].min(4))));
        }
        _ => {}
    }
    features
}

/// One field of each of an area's records.
fn fields(answer: &Answer, area: usize, records: usize, field: usize) -> impl Iterator<Item = u16> {
    let bytes = &answer.areas[area];
    (0..records).map(move |record| {
        let at = record * RECORD_SIZES[area] + 2 * field;
        u16::from_le_bytes([bytes[at], bytes[at + 1]])
    })
}
