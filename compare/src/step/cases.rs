//! Files, maps, texts of entries and rows, each a function of seed and index alone.

use super::{KIOSK, Run, SELLER};
use crate::case::{self, AREAS, FLAG_COMMENTS};
use crate::generators::EDGE_BYTES;
use crate::model::{self, Reading, Records};
use crate::oracle;
use crate::place::DAMAGED;
use crate::random::Random;
use crate::sheet::Sheet;

/// An accepted file, a map, a kind of caller, the text of an entry and the lengths of all rules at each of its edges.
#[derive(Clone, Debug)]
pub struct Case {
    pub file: case::Case,
    pub map: Vec<(String, u16)>,
    pub kind: u64,
    pub text: String,
    /// By position. Where no edge is there is none.
    pub rows: Vec<Vec<usize>>,
    /// The run's numbers and the stack before the start call.
    pub before: Run,
}

/// How much of what a case has.
struct Shape {
    states: usize,
    rules: usize,
    kind: u64,
    n: usize,
    /// How many of 100 characters have more than one byte.
    others: usize,
    /// The greatest length, whatever is left, unless the next character is longer.
    longest: usize,
    /// What may stand before the state of a target.
    targets: &'static [&'static str],
}

const TARGETS: &[&str] = &["", "", "", "<", "<+", "<+", "<+", "<-", "<-"];

fn shape(random: &mut Random, index: u64) -> Shape {
    let others = random.pick(&[0, 30, 70, 100]);
    let kind = random.pick(&[SELLER, KIOSK]);
    let targets = TARGETS;
    let short_matches = 1 + random.below(2);
    let long = |kind, n| Shape { states: 3, rules: 12, kind, n, others, longest: short_matches, targets };
    let deep = |kind, n| Shape { states: 0, rules: 3, kind, n, others: 0, longest: 1, targets: &["<+"] };
    match index % 1_000 {
        3 => long(SELLER, 4_096 - random.below(2)),
        // as deep as a run can be
        4 => deep(SELLER, 4_096),
        103 => long(SELLER, 511 + random.below(4)),
        203 => long(KIOSK, 512 - random.below(2)),
        204 => deep(KIOSK, 512),
        251 => Shape { states: 63, rules: 150, kind, n: 60, others, longest: 4, targets },
        502 => Shape { states: 5, rules: 2_048 - random.below(2), kind, n: 5, others, longest: 5, targets },
        _ => Shape {
            states: random.below(5),
            rules: random.pick(&[0, 1, 3, 5, 8, 8, 10, 12, 12, 15]),
            kind,
            n: random.pick(&[0, 1, 3, 8, 12, 16, 24, 40]),
            others,
            longest: random.pick(&[1, 1, 2, 2, 3, 30]),
            targets,
        },
    }
}

impl Case {
    pub fn source(&self) -> &str {
        std::str::from_utf8(&self.file.source).expect("the file was made as text")
    }

    pub fn records(&self) -> Records {
        model::records(self.source(), &self.file, Reading::RIGHT)
    }
}

pub fn case(seed: u64, index: u64) -> Case {
    let mut random = Random::new(seed ^ 0x7374_6570, index);
    let shape = shape(&mut random, index);
    let flags = random.below(4) as u64;
    let (source, names) = file(&mut random, &shape, flags & FLAG_COMMENTS != 0);
    let verdicts = vec![0; random.below(4)];
    let file = case::Case { source: source.into_bytes(), flags, verdicts, capacities: [0; AREAS] };
    let capacities = oracle::needs(&file).map(|need| need + 3);
    let Shape { kind, n, rules, .. } = shape;
    let text = text(&mut random, n, shape.others);
    let zeros = random.pick(&[0, 5, 20, 60]);
    let spread = random.pick(&[shape.longest, shape.longest, shape.longest, n + 1]);
    let row_at = |position| match text.get(position..) {
        Some(rest) => row(&mut random, rules, zeros, spread, rest),
        None => vec![],
    };
    let rows = (0..n).map(row_at).collect();
    let stack = (0..2 * (n + 1) + random.below(4)).map(|_| random.below(256) as u8).collect();
    let numbers = [0; 5].map(|_: u8| random.below(65_536) as u16);
    let map = map(&mut random, &names);
    Case { file: case::Case { capacities, ..file }, map, kind, text, rows, before: Run { numbers, stack } }
}

/// The first and the last characters of 1 to 4 bytes, those around the surrogates, and usual ones.
const CHARACTERS: [&[&str]; 4] = [
    &["a", "a", "\0", "\n", "\r", "\u{7f}"],
    &["é", "\u{80}", "\u{301}", "\u{7ff}"],
    &["€", "\u{800}", "\u{2028}", "\u{d7ff}", "\u{e000}", "\u{feff}", "\u{ffff}"],
    &["😀", "\u{10000}", "\u{10ffff}"],
];

/// A text of n bytes. So many of 100 characters have 2, 3 or 4 bytes, if as many are left.
pub fn text(random: &mut Random, n: usize, others: usize) -> String {
    let mut text = String::new();
    while text.len() < n {
        let bytes = if random.percent(others) { 2 + random.below(3) } else { 1 };
        text.push_str(random.pick(CHARACTERS[bytes.min(n - text.len()) - 1]));
    }
    text
}

const STATES: [&str; 5] = ["INITIAL", "S", "T", "Su", "A_b.9"];

fn state(random: &mut Random, declared: usize) -> String {
    name_of_state(random.below(declared + 1))
}

fn name_of_state(id: usize) -> String {
    STATES.get(id).map_or_else(|| format!("Z{id}"), ToString::to_string)
}

/// The file, and the names of its rules.
fn file(random: &mut Random, shape: &Shape, comments: bool) -> (String, Vec<String>) {
    let mut text = String::new();
    let mut id = 1;
    while id <= shape.states {
        text.push_str(random.pick(&["%s", "%x", "%X", "%Sabc"]));
        for _ in 0..1 + random.below(3) {
            if id <= shape.states {
                text.push_str(&format!(" {}", name_of_state(id)));
                id += 1;
            }
        }
        text.push('\n');
        if comments && random.percent(20) {
            text.push_str("// a comment\n");
        }
    }
    text.push_str("%%\n");
    let mut names = vec![];
    // a rule of a file with 2,048 of them has few bytes
    let small = shape.rules > 1_000;
    for number in 0..shape.rules {
        if !small || random.percent(5) {
            text.push_str(&list(random, shape.states));
        }
        text.push_str(random.pick(&["a", "\\q", "b\\.", "[0-9]+"]));
        text.push(' ');
        if !small || random.percent(50) {
            text.push_str(&target(random, shape));
        }
        if random.percent(30) {
            text.push_str(random.pick(&[";", "''", "\"\""]));
        } else {
            let name = format!("{}{number}", random.pick(&["N", "n", "é", "'"]));
            text.push_str(&format!("'{name}'"));
            names.push(name);
        }
        text.push('\n');
    }
    (text, names)
}

fn list(random: &mut Random, states: usize) -> String {
    let names: Vec<String> = (0..random.pick(&[0, 0, 0, 1, 1, 1, 2, 2, 3])).map(|_| state(random, states)).collect();
    if names.is_empty() { String::new() } else { format!("<{}>", names.join(random.pick(&[",", ", "]))) }
}

fn target(random: &mut Random, shape: &Shape) -> String {
    match random.pick(shape.targets) {
        "" => String::new(),
        operation => format!("{operation}{}>", state(random, shape.states)),
    }
}

/// Most maps have every name of a rule; some lack a few. Names that no rule has are among them.
fn map(random: &mut Random, names: &[String]) -> Vec<(String, u16)> {
    let share = random.pick(&[100, 100, 100, 95, 70]);
    let mut entries: Vec<String> = names.iter().filter(|_| random.percent(share)).cloned().collect();
    entries.extend(["unknown", ""].iter().filter(|_| random.percent(30)).map(ToString::to_string));
    entries.truncate(2_048);
    random.shuffle(&mut entries);
    let mut id = || {
        let any = random.below(65_536) as u16;
        random.pick(&[any, any, 0, 65_535])
    };
    entries.into_iter().map(|name| (name, id())).collect()
}

/// One length for each rule, all of them on edges of the rest of a text; that share of them is 0, and none is above the
/// greatest, unless the next character is longer.
fn row(random: &mut Random, rules: usize, zeros: usize, greatest: usize, rest: &str) -> Vec<usize> {
    let first = rest.chars().next().map_or(0, char::len_utf8);
    let mut length = || {
        if random.percent(zeros) {
            return 0;
        }
        let length = 1 + random.below(greatest.clamp(1, rest.len()));
        rest.floor_char_boundary(length).max(first)
    };
    (0..rules).map(|_| length()).collect()
}

pub fn bytes(row: &[usize]) -> Vec<u8> {
    row.iter().flat_map(|length| (*length as u16).to_le_bytes()).collect()
}

/// Another row that fits.
pub fn other_row(random: &mut Random, rules: usize, rest: &str) -> Vec<u8> {
    match random.pick(&[1, 2, rest.len()]).min(rest.len()) {
        0 => vec![0; 2 * rules],
        greatest => bytes(&row(random, rules, 10, greatest, rest)),
    }
}

/// A rule, and the row with another length of it, which cuts a character of the rest of the text. None where nothing
/// can be cut.
pub fn cutting(random: &mut Random, row: &[usize], rest: &str) -> Option<(usize, Vec<usize>)> {
    let inside = inside(rest);
    if row.is_empty() || inside.is_empty() {
        return None;
    }
    let rule = random.below(row.len());
    let near = random.pick(&[3, inside.len()]).min(inside.len());
    let mut row = row.to_vec();
    row[rule] = inside[random.below(near)];
    Some((rule, row))
}

/// A row that does not fit where so many bytes are left.
pub fn ill_fitting(random: &mut Random, row: &[usize], left: usize) -> Vec<u8> {
    let mut row = row.to_vec();
    match random.below(5) {
        0 if !row.is_empty() => {
            let mut bytes = bytes(&row);
            bytes.truncate(random.below(bytes.len()));
            bytes
        }
        1 => {
            let mut bytes = bytes(&row);
            bytes.extend(&[0, 0, 0][..1 + random.below(3)]);
            bytes
        }
        _ if row.is_empty() => vec![0],
        _ => {
            let k = random.below(row.len());
            row[k] = random.pick(&[left + 1, left + 1, left + 256, 65_535]);
            bytes(&row)
        }
    }
}

/// A position off an edge in the rest of the text, and a row whose lengths end on edges from there, but for a 0 now and
/// then.
pub fn off_an_edge(random: &mut Random, rules: usize, rest: &str) -> Option<(usize, Vec<usize>)> {
    let inside = inside(rest);
    let at = *inside.get(random.below(inside.len().max(1)))?;
    let zeros = random.pick(&[0, 0, 10]);
    let mut length = || match random.percent(zeros) {
        true => 0,
        false => rest.ceil_char_boundary(at + 1 + random.below(rest.len() - at)) - at,
    };
    Some((at, (0..rules).map(|_| length()).collect()))
}

/// Where no edge is.
fn inside(text: &str) -> Vec<usize> {
    (0..text.len()).filter(|at| !text.is_char_boundary(*at)).collect()
}

/// Bytes that are not as many, or that are no UTF-8, or another text of as many bytes.
pub fn other_text(random: &mut Random, text: &[u8]) -> Vec<u8> {
    let mut bytes = text.to_vec();
    let n = bytes.len();
    match random.below(8) {
        0 => bytes.push(b'a'),
        1 => bytes.truncate(n.saturating_sub(1)),
        2 => bytes.clear(),
        3 => return self::text(random, n, 50).into_bytes(),
        4 if n > 0 => bytes[random.below(n)] = random.pick(EDGE_BYTES),
        _ => {
            let sequence = random.pick(DAMAGED);
            // what is cut off stands at the end too
            if let Some(last) = n.checked_sub(sequence.len()) {
                let any = random.below(last + 1);
                let at = random.pick(&[any, last]);
                bytes[at..at + sequence.len()].copy_from_slice(sequence);
            }
        }
    }
    bytes
}

/// Both kinds, some that are not known, and some that would be one of both in 8, 16 or 32 bits.
const KINDS: [u64; 12] = [0, 1, 0, 1, 2, 256, 65_535, 65_536, 65_537, 1 << 32, (1 << 32) + 1, u64::MAX];

/// Around the limits.
const LONG: [u16; 6] = [511, 512, 513, 4_095, 4_096, 4_097];

/// A start whose kind, n, text or stack is other than it was, or two of them.
pub fn damaged_start(random: &mut Random, case: &Case) -> (u64, u64, Vec<u8>, Run) {
    let (mut kind, mut n, mut run) = (case.kind, case.text.len() as u64, case.before.clone());
    let mut text = case.text.clone().into_bytes();
    for _ in 0..1 + random.below(2) {
        match random.below(8) {
            0 => n = random.pick(&[0, n + 1, n.saturating_sub(1), 512, 513, 4_096, 4_097, n + 65_536]),
            1 => run.stack.truncate(random.pick(&[0, 2 * text.len(), 2 * text.len() + 1])),
            2 | 3 => kind = random.pick(&KINDS),
            4 => {
                n = random.pick(&LONG).into();
                text = self::text(random, n as usize, 30).into_bytes();
                run.stack.resize(2 * (text.len() + 1), 7);
            }
            _ => text = other_text(random, &text),
        }
    }
    (kind, n, text, run)
}

/// What a step takes.
pub type Taken = (Sheet, Vec<u8>, Run, Vec<u8>);

/// One or two of the call's bytes, numbers or lengths are other than they were.
pub fn damaged(random: &mut Random, (mut sheet, mut text, mut run, mut row): Taken) -> Taken {
    for _ in 0..1 + random.below(2) {
        let [n, position, depth, moves, _] = run.numbers;
        match random.below(16) {
            0 => text = with_another_n(random, &mut run).into_bytes(),
            1 => run.numbers[1] = random.pick(&[0, n, n.wrapping_add(1), depth.wrapping_sub(1), 65_535]),
            2 | 3 => {
                run.numbers[2] = random.pick(&[
                    0,
                    1,
                    depth.wrapping_add(1),
                    position.wrapping_add(1),
                    position.wrapping_add(2),
                    65_535,
                ])
            }
            4 => run.numbers[3] = random.pick(&[0, position, position.wrapping_add(1), moves.wrapping_add(1), 65_535]),
            5 => run.stack.truncate(run.stack.len() - random.below(run.stack.len() + 1).min(4)),
            6 | 7 => overwrite(random, &mut run.stack, sheet.counts[0]),
            8 => row.truncate(row.len() - random.below(row.len() + 1).min(3)),
            9 => overwrite(random, &mut row, n - position.min(n)),
            10 => {
                let area = random.below(5);
                overwrite(random, &mut sheet.areas[area], 1);
            }
            11 => sheet.counts[random.below(6)] ^= random.pick(&[1, 2, 3]),
            12 | 13 => run.numbers[4] = random.pick(&KINDS) as u16,
            _ => text = other_text(random, &text),
        }
    }
    (sheet, text, run, row)
}

/// Gives the run another n, and a stack with room for it. The run is judged only beside a text of its n, which is made.
fn with_another_n(random: &mut Random, run: &mut Run) -> String {
    let ([n, position, ..], long) = (run.numbers, random.pick(&LONG));
    let n = random.pick(&[0, position, n.wrapping_add(1), long, long, 65_535]);
    run.numbers[0] = n;
    run.stack.resize(run.stack.len().max(2 * (usize::from(n) + 1)), 0);
    text(random, n.into(), 30)
}

fn overwrite(random: &mut Random, bytes: &mut [u8], near: u16) {
    if !bytes.is_empty() {
        let at = random.below(bytes.len());
        bytes[at] = random.pick(&[0, 1, 2, near as u8, (near as u8).wrapping_sub(1), 255, bytes[at] ^ 1]);
    }
}

#[cfg(test)]
mod tests {
    use super::*;
    use crate::step::model::limit;

    #[test]
    fn entries_of_both_kinds_reach_their_limits() {
        let shape = |index| shape(&mut Random::new(1, index), index);
        let entries: Vec<(u64, usize)> = (0..50_000).map(shape).map(|shape| (shape.kind, shape.n)).collect();
        assert!(entries.iter().all(|(kind, n)| limit(*kind).is_some_and(|limit| *n as u64 <= limit)));
        let long = [(SELLER, 511), (SELLER, 512), (SELLER, 513), (SELLER, 4_096), (KIOSK, 511), (KIOSK, 512)];
        assert!(long.iter().all(|entry| entries.contains(entry)));
    }
}
