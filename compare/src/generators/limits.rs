//! Long files at every limit of 01, and areas exactly full and one byte short.

use super::room::{exact, roomy, short};
use super::{Draft, grammar};
use crate::case::{Case, RECORD_SIZES, SOURCE_LIMIT};
use crate::one_mark::{Differing, of_eight_lengths, of_one_length};
use crate::random::Random;

/// How the areas of a draft are measured.
#[derive(Clone, Copy)]
enum Areas {
    Roomy,
    Exact,
    /// This area, counted from 1, is one byte shorter than the records need.
    OneByteShort(usize),
}

pub fn case(random: &mut Random, index: u64) -> Case {
    let fixed = fixed_cases();
    let index = index as usize;
    if index >= fixed.len() && random.percent(50) {
        return random_long_file(random);
    }
    let (draft, areas) = fixed[index % fixed.len()]();
    let capacities = match areas {
        Areas::Roomy => roomy(SOURCE_LIMIT),
        Areas::Exact => exact(&draft),
        Areas::OneByteShort(area) => {
            let mut capacities = exact(&draft);
            capacities[area - 1] -= 1;
            capacities
        }
    };
    draft.with_areas(capacities)
}

type Fixed = fn() -> (Draft, Areas);

fn fixed_cases() -> &'static [Fixed] {
    &[
        // the length of the file
        || (filled("%%\n//", "a", "", SOURCE_LIMIT, 1), Areas::Roomy),
        || (filled("%%\n//", "a", "", SOURCE_LIMIT + 1, 1), Areas::Roomy),
        || (filled("%%\n//", "a", "", SOURCE_LIMIT + 1, 4), Areas::Exact),
        || (filled("%%\n//", "\u{2028}", "", SOURCE_LIMIT, 1), Areas::Exact),
        || (filled("%%\n", "\n", "a", SOURCE_LIMIT, 0), Areas::Exact),
        || (filled("%%\n", "a", " 'N'", SOURCE_LIMIT, 0), Areas::Exact),
        || (filled("%%\na '", "N", "'", SOURCE_LIMIT, 0), Areas::Exact),
        || (filled("%%\na <+INITIAL>'", "é", "'", SOURCE_LIMIT, 0), Areas::Exact),
        || (filled("", " ", "", SOURCE_LIMIT, 0), Areas::Exact),
        || (filled("%s A", "b", "\n%%", SOURCE_LIMIT, 0), Areas::Exact),
        || (filled("%%\na", "a", " ;\n%%", SOURCE_LIMIT, 0), Areas::Exact),
        || (filled("%%\n", " ", "", SOURCE_LIMIT, 0), Areas::Exact),
        || (invalid_at_end(SOURCE_LIMIT, 0), Areas::Exact),
        || (invalid_at_end(SOURCE_LIMIT, 4), Areas::Exact),
        || (invalid_at_end(SOURCE_LIMIT + 1, 4), Areas::Exact),
        || (invalid_at_end(SOURCE_LIMIT + 1, 0), Areas::Roomy),
        // states
        || (states(63, "\n%%"), Areas::Exact),
        || (states(63, "\n%%"), Areas::OneByteShort(1)),
        || (states(63, "\n%%"), Areas::Roomy),
        || (states(62, "\n%%"), Areas::Roomy),
        || (states(64, "\n%%"), Areas::Roomy),
        || (states(64, "\n%%"), Areas::Exact),
        || (states(65, "\n%%"), Areas::Roomy),
        || (states(63, " s0\n%%"), Areas::Exact),
        || (states(64, " +\n%%"), Areas::Roomy),
        || (states(63, "\n%%\n<s62>a <s62>;"), Areas::Exact),
        // rules
        || (rules(2_047, ";", vec![]), Areas::Exact),
        || (rules(2_048, ";", vec![]), Areas::Exact),
        || (rules(2_048, ";", vec![]), Areas::OneByteShort(2)),
        || (rules(2_048, ";", vec![]), Areas::Roomy),
        || (rules(2_049, ";", vec![]), Areas::Roomy),
        || (rules(2_049, ";", vec![]), Areas::Exact),
        || (rules(2_049, ";", refused_at(2_048)), Areas::Roomy),
        || (rules(2_049, ";", refused_at(2_047)), Areas::Roomy),
        || (rules(2_048, "N", vec![]), Areas::Exact),
        || (rules(2_049, "N", vec![]), Areas::Roomy),
        || (rules(2_048, "N", vec![0; 2_048]), Areas::Exact),
        // rewritten text: `\b` is 2 bytes in the file and 4 in the area
        || (backspaces(16_383, 3), Areas::Exact),
        || (backspaces(16_383, 3), Areas::Roomy),
        || (backspaces(16_383, 3), Areas::OneByteShort(4)),
        || (backspaces(16_383, 2), Areas::Roomy),
        || (backspaces(16_383, 4), Areas::Roomy),
        || (backspaces(16_384, 0), Areas::Roomy),
        || (backspaces(20_000, 0), Areas::Roomy),
        || (backspaces(32_700, 5), Areas::Roomy),
        // lists, expected names, faults: as many as a file can hold
        || (Draft::new(["%s A\n%%\n<A", &",A".repeat(32_700), ">a ;"].concat(), 0), Areas::Exact),
        || (Draft::new(["%s A\n%%\n<A", &",A".repeat(32_700), ">a ;"].concat(), 0), Areas::OneByteShort(3)),
        || (Draft::new(["%s A\n%%\n<A", &",A".repeat(32_700), ",Q>a ;"].concat(), 0), Areas::Exact),
        || (Draft::new(["%expect-missing", &" \"\"".repeat(21_800), "\n%%"].concat(), 0), Areas::Exact),
        || (Draft::new(["%expect-missing", &" \"\"".repeat(21_800), "\n%%"].concat(), 0), Areas::OneByteShort(5)),
        || (Draft::new(["%expect-missing", &" \"\"".repeat(21_800), " x\n%%"].concat(), 0), Areas::Exact),
        || (Draft::new(["%%", &"\n v".repeat(21_800)].concat(), 0), Areas::Exact),
        || (Draft::new(["%%", &"\n v".repeat(21_800)].concat(), 0), Areas::OneByteShort(6)),
        // shorter, since the original reads on over all whitespace from each line
        || (Draft::new(["%%", &"\n ".repeat(1_000)].concat(), 0), Areas::Exact),
        || (Draft::new(["%s A", &" A".repeat(32_700), "\n%%"].concat(), 0), Areas::Exact),
        || (Draft::new(["%s A", &" A".repeat(32_700), "\n%%"].concat(), 0), Areas::OneByteShort(6)),
        || (Draft::new(["%s A B A", &" B A".repeat(2_000), "\n%%"].concat(), 0), Areas::Exact),
        || (Draft::new(["%%\na 'N'", &"\nb 'N'\n v".repeat(2_000)].concat(), 0), Areas::Exact),
        // names that repeat, which are looked for among many rules
        || (repeated_names(&of_eight_lengths(600)), Areas::Exact),
        || (repeated_names(&of_one_length(600, 20, Differing::Start)), Areas::Exact),
        || (repeated_names(&of_one_length(600, 20, Differing::Middle)), Areas::Exact),
        || (repeated_names(&of_one_length(600, 20, Differing::End)), Areas::Exact),
        || (repeated_names(&of_one_length(1_536, 4, Differing::End)), Areas::Exact),
    ]
}

/// Start, as many fillings as fit, end: that many bytes in all.
fn filled(start: &str, filling: &str, end: &str, length: usize, flags: u64) -> Draft {
    let room = length - start.len() - end.len();
    let rest = "a".repeat(room % filling.len());
    Draft::new([start, &filling.repeat(room / filling.len()), &rest, end].concat(), flags)
}

fn invalid_at_end(length: usize, flags: u64) -> Draft {
    let mut draft = filled("%%\n", "\n", "", length, flags);
    draft.source[length - 1] = 0xc2;
    draft
}

/// State 0 and that many more.
fn states(declared: usize, end: &str) -> Draft {
    let names: String = (0..declared).map(|number| format!(" s{number}")).collect();
    Draft::new(["%x", &names, end].concat(), 0)
}

/// Rules without a name, or with names that begin alike.
fn rules(count: usize, name: &str, verdicts: Vec<u8>) -> Draft {
    let lines: String = (0..count)
        .map(|number| match name {
            ";" => "a ;\n".to_string(),
            _ => format!("a '{name}alike{number}'\n"),
        })
        .collect();
    Draft::new(["%%\n", &lines].concat(), 0).with_verdicts(verdicts)
}

/// Rules of these names, with a rule without a name behind every third; then names again: the oldest and the newest twice, and
/// all of them, each seven names behind the one before.
fn repeated_names(names: &[String]) -> Draft {
    let rules = names.iter().enumerate().map(|(number, name)| match number % 3 {
        0 => format!("a '{name}'\nb ;\n"),
        _ => format!("a '{name}'\n"),
    });
    let ends = [0, names.len() - 1, 0, names.len() - 1].into_iter();
    let again = ends.chain((0..names.len()).map(|number| 7 * number % names.len()));
    let repeats = again.map(|number| format!("c \"{}\"\n", names[number]));
    Draft::new("%%\n".to_string() + &rules.chain(repeats).collect::<String>(), 0)
}

fn refused_at(index: usize) -> Vec<u8> {
    let mut verdicts = vec![0; index + 1];
    verdicts[index] = 9;
    verdicts
}

/// Two rules with 4 rewritten bytes for each `\b` and 1 for each `\q`.
fn backspaces(count: usize, single: usize) -> Draft {
    let first = ["\\b".repeat(count / 2), " ;\n".to_string()].concat();
    let second = ["\\b".repeat(count - count / 2), "\\q".repeat(single), " ;".to_string()].concat();
    Draft::new(["%%\n", &first, &second].concat(), 2)
}

/// Random pieces up to a length near a limit.
fn random_long_file(random: &mut Random) -> Case {
    let length = match random.below(4) {
        0 => SOURCE_LIMIT - 2 + random.below(5),
        1 => 1_000 + random.below(4_000),
        _ => 5_000 + random.below(30_000),
    };
    let mut draft = grammar::draft(random);
    let piece = if random.percent(50) { "x ;\n".to_string() } else { "\\q <+INITIAL>;\n<INITIAL>b\\  ;\n".to_string() };
    let start = draft.source.len();
    while draft.source.len() < length {
        draft.source.extend_from_slice(piece.as_bytes());
        if random.percent(5) && start > 0 {
            let number = draft.source.len();
            draft.source.extend_from_slice(format!("y 'N{}'\n", number % 977).as_bytes());
        }
    }
    if random.percent(50) {
        draft.source.truncate(length);
    }
    let capacities = match random.below(4) {
        0 => roomy(draft.source.len()).map(|bytes| bytes + random.below(RECORD_SIZES[1])),
        1 => short(random, &draft),
        _ => exact(&draft),
    };
    draft.with_areas(capacities)
}
