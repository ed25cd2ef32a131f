//! 01's files to try, with what 01 says of them.

use crate::answers::{ACCEPTED, FAULTY_FILE};
use crate::case::{Answer, Case};
use crate::generators;
use crate::oracle;
use crate::show;

pub struct File {
    pub source: &'static str,
    pub flags: u64,
    says: Says,
}

enum Says {
    NoRules,
    /// All fault records.
    Faults(&'static [[u16; 4]]),
    /// Kind and place of the last fault.
    LastFault(u16, u16),
    /// Place and text of the only rule.
    Text(u16, &'static str),
    /// The list of the only rule, and its text.
    ListAndText(&'static [u16], &'static str),
    /// The fields of the only rule.
    Rule([u16; 14]),
}

const fn file(source: &'static str, flags: u64, says: Says) -> File {
    File { source, flags, says }
}

pub const FILES: &[File] = &[
    file("", 0, Says::Faults(&[[0, 0, 0, 0]])),
    file("%%", 0, Says::NoRules),
    file("%%%%", 0, Says::NoRules),
    file("%s A  B\n%%", 0, Says::Faults(&[[0, 8, 5, 5]])),
    file("%x INITIAL\n%%", 0, Says::Faults(&[[0, 6, 0, 0], [0, 6, 3, 10]])),
    file("%%\na 'N'\nb 'N'\nc 'N'", 0, Says::Faults(&[[0, 9, 6, 7], [0, 9, 12, 13], [0, 9, 18, 19]])),
    file("%%\n\\qab\\ ;", 0, Says::Text(1, "q")),
    file("%%\n\\qab\\  ;", 0, Says::Text(1, "qab ")),
    file("%%\n\\x{41} ;", 0, Says::Text(1, "x{41}")),
    file("%%\n\\x41 ;", 0, Says::Text(0, "\\x41")),
    file("%%\n\\b ;", 0, Says::Text(1, "\\b")),
    file("%%\n\\b ;", 2, Says::Text(1, "\\x08")),
    file("%x S\n%%\n<S>\\\" ;", 0, Says::ListAndText(&[1], "\\\"")),
    file("%%\n a ;", 0, Says::Faults(&[[0, 11, 3, 7]])),
    file("%%\na <S", 0, Says::Faults(&[[0, 7, 4, 4]])),
    file("%%\na", 0, Says::Faults(&[[0, 3, 3, 3]])),
    file("%%\na ;\n%%\nx", 0, Says::LastFault(1, 7)),
    file("%x S\n%%\nq <+S>'N'", 0, Says::Rule([1, 0, 1, 11, 12, 15, 1, 0, 8, 1, 0, 0, 2, 1])),
];

impl File {
    pub fn case(&self) -> Case {
        generators::roomy_case(self.source, self.flags)
    }

    fn is_as_stated(&self, answer: &Answer) -> bool {
        let faults = || records::<4>(&answer.areas[5], answer.value() as usize);
        let rule = || records::<14>(&answer.areas[1], usize::from(answer.counts[1]));
        let expected_number = match self.says {
            Says::Faults(_) | Says::LastFault(..) => FAULTY_FILE,
            _ => ACCEPTED,
        };
        answer.number() == expected_number
            && match self.says {
                Says::NoRules => answer.counts == [1, 0, 0, 0, 0, 0],
                Says::Faults(stated) => faults() == stated,
                Says::LastFault(kind, at) => faults().last().is_some_and(|fault| fault[1..] == [kind, at, at]),
                Says::Text(place, text) => matches!(rule()[..], [rule] if self.has_text(answer, &rule, place, text)),
                Says::ListAndText(list, text) => {
                    let entries = records::<1>(&answer.areas[2], usize::from(answer.counts[2])).concat();
                    entries == list && matches!(rule()[..], [rule] if self.has_text(answer, &rule, 0, text))
                }
                Says::Rule(fields) => rule() == [fields],
            }
    }

    fn has_text(&self, answer: &Answer, rule: &[u16; 14], place: u16, text: &str) -> bool {
        let (from, length) = (usize::from(rule[8]), usize::from(rule[9]));
        let bytes = if rule[7] == 1 { &answer.areas[3] } else { self.source.as_bytes() };
        rule[7] == place && &bytes[from..from + length] == text.as_bytes()
    }
}

fn records<const N: usize>(area: &[u8], count: usize) -> Vec<[u16; N]> {
    let field = |at: usize| u16::from_le_bytes([area[at], area[at + 1]]);
    (0..count).map(|record| std::array::from_fn(|position| field(2 * (record * N + position)))).collect()
}

/// The expected answers are those that 01 states.
pub fn check() -> Result<(), String> {
    for file in FILES {
        let case = file.case();
        let told = |what: &str| format!("{}\n{what}", show::case(&case));
        let answer = oracle::expected(&case).map_err(|finding| told(&show::finding(&finding)))?;
        if !file.is_as_stated(&answer) {
            return Err(told(&format!("The expected answer is not what 01 states: {answer:?}")));
        }
    }
    println!("The expected answers to 01's {} files to try are as 01 states them.", FILES.len());
    Ok(())
}
