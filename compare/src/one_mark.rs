//! Names that our marks cannot tell apart, so that each is looked for among all rules before it.

/// Where names of one length differ.
#[derive(Clone, Copy)]
pub enum Differing {
    Start,
    Middle,
    End,
}

/// How many marks there are.
const MARKS: usize = 4_096;

/// The mark of a name of that length that ends so: our marks go by the last four bytes and the length (crates/names/src/marks.rt).
fn mark(length: usize, ending: [u8; 4]) -> usize {
    let weighted = ending.iter().rev().zip([1, 10, 100, 1_000]).map(|(byte, weight)| *byte as usize * weight);
    (weighted.sum::<usize>() + length) % MARKS
}

/// The endings of four letters or digits that give names of that length the mark 0.
fn endings(length: usize) -> impl Iterator<Item = String> {
    let bytes = || (b'0'..=b'9').chain(b'A'..=b'Z').chain(b'a'..=b'z');
    let pairs = move || bytes().flat_map(move |first| bytes().map(move |second| [first, second]));
    let all = pairs().flat_map(move |[a, b]| pairs().map(move |[c, d]| [a, b, c, d]));
    all.filter(move |ending| mark(length, *ending) == 0).map(|ending| ending.map(char::from).iter().collect())
}

/// So many names of one length, the same but for four bytes.
pub fn of_one_length(count: usize, length: usize, differing: Differing) -> Vec<String> {
    let rest = length - 4;
    let filled = |before: usize, four: String| "X".repeat(before) + &four + &"X".repeat(rest - before);
    let numbers = (0..count).map(|number| format!("{number:04}"));
    match differing {
        Differing::Start => numbers.map(|four| filled(0, four)).collect(),
        Differing::Middle => numbers.map(|four| filled(rest / 2, four)).collect(),
        Differing::End => endings(length).take(count).map(|four| filled(rest, four)).collect(),
    }
}

/// So many names of 19 to 26 bytes in turn, which begin alike.
pub fn of_eight_lengths(count: usize) -> Vec<String> {
    let mut of_length: Vec<_> = (19..=26).map(|length| (length, endings(length))).collect();
    let name = |number: usize| {
        let (length, endings) = &mut of_length[number % 8];
        "X".repeat(*length - 4) + &endings.next().unwrap_or_default()
    };
    (0..count).map(name).collect()
}

#[cfg(test)]
mod tests {
    use super::*;
    use std::collections::HashSet;

    /// The mark, written out.
    fn mark_of(name: &str) -> usize {
        let [.., f, d, c, b] = name.as_bytes() else { panic!("{name} is too short") };
        let [f, d, c, b] = [f, d, c, b].map(|byte| *byte as usize);
        (b + 10 * c + 100 * d + 1_000 * f + name.len()) % 4_096
    }

    fn check(names: &[String]) {
        assert_eq!(names.iter().collect::<HashSet<_>>().len(), names.len());
        assert!(names.iter().all(|name| mark_of(name) == mark_of(&names[0])));
    }

    #[test]
    fn names_of_one_length_differ_where_they_should() {
        for (count, length) in [(400, 150), (2_048, 26)] {
            let middle = (length - 4) / 2;
            for (differing, start) in [(Differing::Start, 0), (Differing::Middle, middle), (Differing::End, length - 4)]
            {
                let names = of_one_length(count, length, differing);
                assert_eq!(names.len(), count);
                check(&names);
                let rest = |name: &String| [&name[..start], &name[start + 4..]].concat();
                assert!(names.iter().all(|name| rest(name) == "X".repeat(length - 4)));
            }
        }
    }

    #[test]
    fn names_of_eight_lengths_have_one_mark() {
        let names = of_eight_lengths(2_048);
        assert_eq!(names.len(), 2_048);
        check(&names);
        assert!(names.iter().zip((19..=26).cycle()).all(|(name, length)| name.len() == length));
    }
}
