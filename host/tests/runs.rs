//! What a host sees of sheets, maps and runs.
#![allow(clippy::unwrap_used, clippy::expect_used)]

use regex::{Regex, bytes};
use troymantle::{Caller, LexFile, Linked, Map, Operation, Parts, Refusal, Row, Run, Sheet, Step};

const FILE: &str = "%x S\n%s T\n%expect-missing \"C\" \"\"\n%%\na 'A'\n\\qb <+S>'B'\n<S, T>c <-S>'C'\nd <T>;\n";

fn sheet() -> Sheet {
    LexFile::new(FILE).parse().expect("the file is accepted")
}

fn row(lengths: &[usize]) -> Row {
    lengths.iter().copied().collect()
}

#[test]
fn a_sheet_tells_its_states() {
    let sheet = sheet();
    let states: Vec<_> = sheet.states().map(|state| (state.id, state.name.into_owned(), state.exclusive)).collect();
    let expected = [(0, "INITIAL", false), (1, "S", true), (2, "T", false)];
    assert_eq!(states, expected.map(|(id, name, exclusive)| (id, name.to_string(), exclusive)));
    assert_eq!((sheet.state(1).unwrap().span, sheet.state(3)), (3..4, None));
    assert_eq!(sheet.expected_names().collect::<Vec<_>>(), ["C", ""]);
    assert_eq!(sheet.source(), FILE.as_bytes());
}

#[test]
fn a_sheet_tells_its_rules() {
    let sheet = sheet();
    let rules: Vec<_> = sheet.rules().collect();
    let names: Vec<_> = rules.iter().map(|rule| rule.name.as_deref()).collect();
    assert_eq!(names, [Some("A"), Some("B"), Some("C"), None]);
    assert_eq!(rules.iter().map(|rule| rule.id).collect::<Vec<_>>(), [Some(0), Some(1), Some(2), Some(3)]);
    let operations = [Operation::None, Operation::Push(1), Operation::Pop(1), Operation::Replace(2)];
    assert_eq!(rules.iter().map(|rule| rule.operation).collect::<Vec<_>>(), operations);
    assert_eq!(rules.iter().map(|rule| rule.states.clone()).collect::<Vec<_>>(), [vec![], vec![], vec![1, 2], vec![]]);
    assert_eq!(&FILE[rules[2].name_range.clone()], "C");
    // behind a target grmtools' span stands before the name
    let spans = |k: usize| (rules[k].span.clone(), rules[k].name_range.clone());
    assert_eq!([spans(0), spans(2)], [(39..40, 39..40), (63..64, 67..68)]);
    assert_eq!(rules[3].name_range, 0..0);
    let patterns: Vec<_> = (0..4).map(|rule| sheet.pattern(rule).unwrap().into_owned()).collect();
    assert_eq!(patterns, ["a", "qb", "c", "d"]);
    assert_eq!(sheet.rule(4), None);
}

#[test]
fn a_link_gives_ids_and_tells_what_has_no_partner() {
    let mut sheet = sheet();
    let map = Map::of([("X", 1), ("B", 65_535), ("A", 0)]).unwrap();
    assert_eq!(sheet.link(&map), Ok(Linked { unmapped: vec![2], unused: vec![0] }));
    assert_eq!(sheet.rules().map(|rule| rule.id).collect::<Vec<_>>(), [Some(0), Some(65_535), None, Some(3)]);
    assert_eq!(sheet.rule_of_id(65_535).unwrap().position, 1);
    assert_eq!(sheet.rule_of_id(3), None);
    assert_eq!(map.entry(1).unwrap(), ("B".into(), 65_535));
    assert_eq!((map.len(), map.is_empty(), Map::new().is_empty()), (3, false, true));
}

#[test]
fn a_run_moves_by_every_operation() {
    let mut sheet = sheet();
    sheet.link(&Map::of([("A", 10), ("B", 11)]).unwrap()).unwrap();
    let entry = "qbcdef";
    let mut run = sheet.start(Caller::Seller, entry).unwrap();
    let mut steps = vec![];
    for lengths in [[1, 2, 9, 0], [1, 2, 1, 0], [1, 1, 1, 1], [1, 0, 0, 1], [0, 0, 0, 4]] {
        steps.push((run.step(&row(&lengths)), run.states()));
    }
    let mismatch = Err(Refusal::RowMismatch);
    let expected = [
        (mismatch, vec![0]),
        (Ok(Step::Token { id: 11, range: 0..2 }), vec![0, 1]),
        (Ok(Step::Unlinked), vec![0, 1]),
        (Ok(Step::Stopped), vec![0, 1]),
        (Ok(Step::Stopped), vec![0, 1]),
    ];
    assert_eq!(steps, expected);
    // linked to a map that has C too, the run goes on: pop, replace, done
    let (numbers, stack) = run.into_parts();
    sheet.link(&Map::of([("A", 10), ("B", 11), ("C", 12)]).unwrap()).unwrap();
    let mut run = Run::from_parts(&sheet, entry, numbers, stack);
    assert_eq!(run.step(&row(&[0, 0, 1, 0])), Ok(Step::Token { id: 12, range: 2..3 }));
    assert_eq!((run.state(), run.states()), (Some(0), vec![0]));
    assert_eq!(run.step(&row(&[2, 0, 0, 3])), Ok(Step::Skip { range: 3..6 }));
    assert_eq!((run.state(), run.position(), run.moves(), run.n()), (Some(2), 6, 3, 6));
    assert_eq!(run.step(&Row::new()), Ok(Step::Done));
    assert_eq!(run.sheet().rule_count(), 4);
}

/// Every move keeps the kind, and so do the answers that move nothing, refusals among them.
#[test]
fn a_run_keeps_the_kind_of_its_caller() {
    let mut sheet = sheet();
    sheet.link(&Map::of([("A", 10), ("B", 11)]).unwrap()).unwrap();
    for (caller, kind) in [(Caller::Seller, 0), (Caller::Kiosk, 1)] {
        let entry = "a".repeat(caller.most_bytes());
        let mut run = sheet.start(caller, &entry).unwrap();
        assert_eq!((run.caller(), run.clone().into_parts().0[4]), (Some(caller), kind));
        // an ill-fitting row, a token, a push, no partner in the map, no match; then the run as parts, and the rest
        for lengths in [&[9][..], &[1, 0, 0, 0], &[0, 1, 0, 0], &[0, 0, 1, 0], &[0, 0, 0, 0]] {
            let _ = run.step(&row(lengths));
            assert_eq!((run.caller(), run.n()), (Some(caller), entry.len()));
        }
        let (numbers, stack) = run.into_parts();
        assert_eq!(numbers, [entry.len() as u16, 2, 2, 2, kind]);
        sheet.link(&Map::of([("A", 10), ("B", 11), ("C", 12)]).unwrap()).unwrap();
        let mut run = Run::from_parts(&sheet, &entry, numbers, stack);
        assert_eq!(run.step(&row(&[0, 0, 1, 0])), Ok(Step::Token { id: 12, range: 2..3 }));
        assert_eq!(run.step(&row(&[0, 0, 0, entry.len() - 3])), Ok(Step::Skip { range: 3..entry.len() }));
        assert_eq!(run.step(&Row::new()), Ok(Step::Done));
        assert_eq!(
            (run.caller(), run.into_parts().0),
            (Some(caller), [entry.len() as u16, entry.len() as u16, 1, 4, kind])
        );
        sheet.link(&Map::of([("A", 10), ("B", 11)]).unwrap()).unwrap();
    }
}

#[test]
fn a_sheet_is_shared_between_threads() {
    let sheet = sheet();
    let step = |entry: &str| sheet.start(Caller::Seller, entry).map(|mut run| run.step(&row(&[1, 0, 0, 0])));
    let steps = std::thread::scope(|scope| {
        ["a", "aa"].map(|entry| scope.spawn(move || step(entry))).map(|thread| thread.join().unwrap())
    });
    assert_eq!(steps, [(); 2].map(|()| Ok(Ok(Step::Token { id: 0, range: 0..1 }))));
}

/// The tokens of an entry, by a matcher that tells how many bytes each pattern matches at the start of what is left; or by what
/// a row is refused, and where.
fn tokens(sheet: &Sheet, entry: &str, lengths: impl Fn(&[u8]) -> Row) -> Result<Vec<String>, (Refusal, usize)> {
    let mut run = sheet.start(Caller::Seller, entry).map_err(|refusal| (refusal, 0))?;
    let mut tokens = vec![];
    loop {
        let row = lengths(run.rest());
        match run.step(&row).map_err(|refusal| (refusal, run.position()))? {
            Step::Token { range, .. } => tokens.push(entry[range].to_string()),
            _ => return Ok(tokens),
        }
    }
}

/// The entries of characters of one to four bytes, with some that are joined from several.
const ENTRIES: [&str; 6] = ["", "R5 é3 5,50 €", "😀é€😀", "日本語 12", "e\u{301}\u{85}\u{2028}x", "ÄÖÜßäöü€€"];

#[test]
fn what_an_engine_matches_in_a_str_always_fits() {
    let texts = ["[a-z]+", "(?i)É", ".", r"\w+", r"\W", r"[^a]{2}", "é*|€", r"\PL+", r"\b", r"[\u0080-\U0010ffff]"];
    let file = "%%\n".to_string() + &texts.map(|text| format!("{text} '{text}'\n")).concat();
    let mut patterns = vec![];
    let parsed = LexFile::new(&file).parse_judged(|_, text| {
        patterns.push(Regex::new(&format!(r"\A(?s:{text})")).unwrap());
        true
    });
    let sheet = parsed.unwrap();
    for entry in ENTRIES {
        let tokens = tokens(&sheet, entry, |rest| {
            let rest = std::str::from_utf8(rest).expect("a run stands at the edge of a character");
            patterns.iter().map(|pattern| pattern.find(rest).map_or(0, |found| found.end())).collect()
        });
        assert_eq!(tokens.unwrap().concat(), entry);
    }
}

/// An engine for bytes may end inside a character: the step refuses that where it stands, whatever would follow.
#[test]
fn what_an_engine_for_bytes_matches_may_not_fit() {
    let pieces = |text: &str, entry: &str| {
        let sheet = LexFile::new(&format!("%%\n{text} 'PIECE'\n")).parse().unwrap();
        let pattern = bytes::Regex::new(&format!(r"\A(?s:{text})")).unwrap();
        tokens(&sheet, entry, |rest| [pattern.find(rest).map_or(0, |found| found.end())].into_iter().collect())
    };
    let all = |texts: &[&str]| Ok(texts.iter().map(|text| text.to_string()).collect());
    assert_eq!(pieces("(?-u:.)", "ab"), all(&["a", "b"]));
    assert_eq!(pieces("(?-u:.)", "aé"), Err((Refusal::RowMismatch, 1)));
    assert_eq!(pieces(r"(?-u:\xC3)", "é"), Err((Refusal::RowMismatch, 0)));
    assert_eq!(pieces(r"(?-u:\xC3\xA9)", "éé"), all(&["é", "é"]));
    // in text mode the same engine goes by characters
    assert_eq!(pieces(".", "aé€😀"), all(&["a", "é", "€", "😀"]));
}

#[test]
fn a_row_is_used_again() {
    let sheet = sheet();
    let mut run = sheet.start(Caller::Seller, "aa").unwrap();
    let mut row = Row::new();
    for _ in 0..2 {
        row.clear();
        (0..4).for_each(|rule| row.push(usize::from(rule == 0)));
        assert!(matches!(run.step(&row), Ok(Step::Token { id: 0, .. })));
    }
    assert_eq!(run.step(&row), Ok(Step::Done));
}

#[test]
fn a_sheet_made_by_hand_may_hold_texts_that_are_no_utf8() {
    let mut parts = LexFile::new("%%\na 'A'\n").parse().unwrap().into_parts();
    parts.source[6] = 0xff;
    let sheet = Sheet::from_parts(parts).unwrap();
    assert_eq!(sheet.rule(0).unwrap().name.unwrap(), "\u{fffd}");
}

const TEXTS: [&[u8]; 7] = [b"", b"a", b"ab", "é".as_bytes(), "€".as_bytes(), b"\xc3", b"a\xe2\x82"];

/// Broken sheets, runs, texts and rows of all kinds: a call may refuse, and nothing panics.
#[test]
fn nothing_panics() {
    let mut state = 1_u64;
    let mut below = |most: usize| {
        state = state.wrapping_mul(6_364_136_223_846_793_005).wrapping_add(1);
        (state >> 33) as usize % most
    };
    let parts = sheet().into_parts();
    let mut sound = 0;
    for _ in 0..20_000 {
        let mut parts: Parts = parts.clone();
        for _ in 0..below(3) {
            match below(7) {
                0 => parts.counts[below(5)] = below(70) as u16,
                1 => parts.areas[below(5)].truncate(below(60)),
                _ => {
                    let area = &mut parts.areas[below(5)];
                    if !area.is_empty() {
                        let at = below(area.len());
                        area[at] = below(256) as u8;
                    }
                }
            }
        }
        let Ok(mut sheet) = Sheet::from_parts(parts) else { continue };
        sound += 1;
        let _ = (format!("{sheet:?}"), sheet.expected_names().count(), sheet.pattern(below(5)), sheet.rule_of_id(1));
        let entries = (0..below(20)).map(|_| below(5) as u8).collect();
        let _ = sheet.link(&Map::from_parts(b"ABC".to_vec(), entries));
        let numbers = [0; 5].map(|_: u16| below(4) as u16);
        let text = TEXTS[below(TEXTS.len())];
        let mut run = Run::from_parts(&sheet, text, numbers, (0..below(12)).map(|_| below(3) as u8).collect());
        let _ = (run.states(), run.rest(), run.caller(), run.step(&(0..below(6)).map(|_| below(3)).collect()));
    }
    assert!(sound > 4_000, "only {sound} sheets were sound");
}
