//! Each refusal number, provoked, and what the host sees of it (13, by which no `Caller` is refused, in host/src/caller.rs).
#![allow(clippy::unwrap_used, clippy::expect_used)]
// a fault's spans are ranges
#![allow(clippy::single_range_in_vec_init)]

use troymantle::{Caller, Fault, FaultKind, Flags, LexFile, Map, Parts, Place, Refusal, Row, Run, Sheet, Step};

const FILE: &str = "%x S\n%%\na 'A'\nb <+S>'B'\n<S>c ;\n";
/// No text has it.
const NOWHERE: Place = Place { line: 0, column: 0 };

fn sheet() -> Sheet {
    LexFile::new(FILE).parse().expect("the file is accepted")
}

fn linked() -> Sheet {
    let mut sheet = sheet();
    sheet.link(&Map::of([("A", 7), ("B", 8)]).unwrap()).expect("the map is accepted");
    sheet
}

fn refused<T>(answer: Result<T, Refusal>) -> Refusal {
    answer.err().expect("the call is refused")
}

#[test]
fn number_1_for_a_file_above_65_535_bytes() {
    let longest = "%%".to_string() + &"\n".repeat(65_533);
    assert!(LexFile::new(&longest).parse().is_ok());
    let refusal = refused(LexFile::new(&(longest + "\n")).parse());
    assert_eq!((refusal.number(), refusal.words()), (1, "long file"));
    assert_eq!(refusal.to_string(), "long file (1): it has more than 65,535 bytes");
    // also by the calls for line and column, before 3 and 11
    let longest = b"\xff".repeat(65_535);
    assert_eq!(Place::of(&longest, 70_000), Err(Refusal::InvalidUtf8));
    let long = b"\xff".repeat(65_536);
    assert_eq!((Place::of(&long, 70_000), NOWHERE.offset(&long)), (Err(Refusal::LongFile), Err(Refusal::LongFile)));
}

#[test]
fn number_2_for_flags_above_3() {
    assert!(LexFile::new(FILE).with_flags(Flags::COMMENTS | Flags::POSIX_ESCAPES).parse().is_ok());
    let parse = |number| LexFile::new(FILE).with_flags(Flags::from_number(number)).parse();
    assert!(parse(3).is_ok());
    assert_eq!([4, u64::MAX].map(|number| refused(parse(number))), [Refusal::UnknownFlag, Refusal::UnknownFlag]);
    assert_eq!((Refusal::UnknownFlag.number(), Refusal::UnknownFlag.words()), (2, "stray flag"));
}

#[test]
fn number_3_for_bytes_that_are_not_utf8() {
    let refusal = refused(LexFile::new(b"%%\na\xff 'A'\n").parse());
    assert_eq!((refusal.number(), refusal.words()), (3, "not text"));
    // also by the calls for line and column, before 11 and wherever the bytes stand
    for offset in [0, 1, 2, 3, 4, usize::MAX] {
        assert_eq!(Place::of(b"a\nb\xff", offset), Err(Refusal::InvalidUtf8));
    }
    for place in [Place { line: 1, column: 1 }, NOWHERE] {
        assert_eq!(place.offset(b"a\nb\xff"), Err(Refusal::InvalidUtf8));
    }
}

#[test]
fn number_4_only_where_a_limit_is_passed() {
    let states = |count: usize| format!("%s {}\n%%\n", numbered("S", count).join(" "));
    let sheet = LexFile::new(&states(63)).parse().expect("64 states are accepted");
    assert_eq!(sheet.state_count(), 64);
    let refusal = refused(LexFile::new(&states(64)).parse());
    assert_eq!((refusal.number(), refusal.words()), (4, "area full"));
    assert_eq!(refusal.to_string(), "area full (4): there are more states (64) than the limit");
    let rules = |count: usize| "%%\n".to_string() + &"a ;\n".repeat(count);
    assert_eq!(LexFile::new(&rules(2_048)).parse().expect("2,048 rules are accepted").rule_count(), 2_048);
    assert_eq!(refused(LexFile::new(&rules(2_049)).parse()), Refusal::AreaFull(2));
}

#[test]
fn areas_grow_up_to_what_a_file_needs() {
    // 8,001 states in one list, 32,001 rewritten bytes, 10,000 expected names, 2,048 spans of one fault
    let list = format!("%%\n<{}INITIAL>a ;\n", "INITIAL,".repeat(8_000));
    assert_eq!(LexFile::new(&list).parse().unwrap().rule(0).unwrap().states, [0; 8_001]);
    let rewritten = format!("%%\n{}x ;\n", "\\q".repeat(32_000));
    assert_eq!(LexFile::new(&rewritten).parse().unwrap().pattern(0).unwrap(), "q".repeat(32_000) + "x");
    let expected = format!("%expect-missing{}\n%%\n", " \"a\"".repeat(10_000));
    assert_eq!(LexFile::new(&expected).parse().unwrap().expected_names().count(), 10_000);
    let repeats = format!("%%\n{}", "a 'N'\n".repeat(2_048));
    let Refusal::FaultyFile(faults) = refused(LexFile::new(&repeats).parse()) else { panic!("the file has faults") };
    assert_eq!(
        faults.iter().map(|fault| (fault.kind, fault.spans.len())).collect::<Vec<_>>(),
        [(FaultKind::DuplicateName, 2_048)]
    );
}

#[test]
fn number_5_with_every_fault() {
    let refusal = refused(LexFile::new("%s A A\n%x INITIAL\n%%\na 'N'\nb \"N\"\n x ;\nc 'N'\nd\n").parse());
    assert_eq!((refusal.number(), refusal.words()), (5, "faulty file"));
    let Refusal::FaultyFile(faults) = &refusal else { panic!("faults come along") };
    let expected = [
        (FaultKind::DuplicateStartState, vec![3..4, 5..6], (1, 6)),
        (FaultKind::DuplicateStartState, vec![0..0, 10..17], (2, 4)),
        (FaultKind::DuplicateName, vec![24..25, 30..31, 41..42], (5, 4)),
        (FaultKind::VerbatimNotSupported, vec![33..37], (6, 1)),
        (FaultKind::MissingSpace, vec![44..44], (8, 1)),
    ];
    let expected = expected.map(|(kind, spans, (line, column))| Fault { kind, spans, place: Place { line, column } });
    assert_eq!(faults[..], expected);
    assert_eq!(faults[2].offset(), 30);
    assert_eq!(
        refusal.to_string(),
        "faulty file (5): 1:6: this state is declared already (DuplicateStartState), and 4 more"
    );
}

#[test]
fn a_pattern_that_the_engine_refuses_is_a_fault() {
    let mut asked = vec![];
    let answer = LexFile::new("%%\n\\qa 'A'\n(b 'B'\nc 'C'\n").parse_judged(|rule, pattern| {
        asked.push((rule, pattern.to_string()));
        !pattern.starts_with('(')
    });
    let fault = Fault { kind: FaultKind::RegexError, spans: vec![11..11], place: Place { line: 3, column: 1 } };
    assert_eq!(refused(answer), Refusal::FaultyFile(vec![fault]));
    assert_eq!(asked, [(0, "qa".to_string()), (1, "(b".to_string()), (2, "c".to_string())]);
}

#[test]
fn every_kind_of_fault_has_a_number_a_name_and_words() {
    // in the order of their numbers
    let files = [
        ("", "PrematureEnd", "the file ends before its `%%`"),
        ("%%\na ;\n%%\nx", "RoutinesNotSupported", "nothing may follow a second `%%`"),
        ("%q\n%%", "UnknownDeclaration", "unknown declaration"),
        ("%%\na", "MissingSpace", "no blank between pattern and name"),
        ("%%\na N", "InvalidName", "a name needs equal quotes around it"),
        ("%%\na <S>'N'", "UnknownStartState", "this state is not declared"),
        ("%s A A\n%%", "DuplicateStartState", "this state is declared already"),
        ("%%\na <S", "InvalidStartState", "`<` without its `>`"),
        ("%s +\n%%", "InvalidStartStateName", "a state's name is a letter, then letters, digits, `_` and `.`"),
        ("%%\na 'N'\nb 'N'", "DuplicateName", "another rule has this name already"),
        ("%%\n( ;", "RegexError", "the regex engine refuses this pattern"),
        ("%%\n a ;", "VerbatimNotSupported", "a line among the rules must not start with whitespace"),
    ];
    assert_eq!(files.len(), FaultKind::ALL.len());
    for ((number, (file, name, words)), known) in (0..).zip(files).zip(FaultKind::ALL) {
        let Refusal::FaultyFile(faults) = refused(LexFile::new(file).with_verdicts([file.contains('(')]).parse())
        else {
            panic!("{file:?} has a fault")
        };
        let [fault @ Fault { kind, spans, place }] = &faults[..] else { panic!("{file:?} has one fault") };
        assert_eq!((kind, kind.number(), kind.name(), kind.words()), (known, number, name, words));
        assert_eq!(fault.offset(), spans[spans.len() - 1].start);
        assert_eq!(Place::of(file, fault.offset()), Ok(*place));
        assert_eq!(fault.to_string(), format!("{}:{}: {words} ({name})", place.line, place.column));
    }
}

#[test]
fn each_flag_does_what_it_says() {
    let file = "// bets\n%%\n\\b 'A'\n";
    assert_eq!(refused(LexFile::new(file).parse()).number(), 5);
    let pattern =
        |flags| LexFile::new(file).with_flags(flags).parse().map(|sheet| sheet.pattern(0).unwrap().into_owned());
    assert_eq!(refused(pattern(Flags::POSIX_ESCAPES)).number(), 5);
    assert_eq!(pattern(Flags::COMMENTS), Ok("\\b".to_string()));
    assert_eq!(pattern(Flags::COMMENTS | Flags::POSIX_ESCAPES), Ok("\\x08".to_string()));
}

#[test]
fn every_refusal_tells_its_words_its_number_and_why() {
    let told = [
        (Refusal::LongFile, "long file (1): it has more than 65,535 bytes"),
        (Refusal::UnknownFlag, "stray flag (2): the flags are above 3"),
        (Refusal::InvalidUtf8, "not text (3): it is not UTF-8"),
        (Refusal::AreaFull(2), "area full (4): there are more rules (2,048) than the limit"),
        (Refusal::FaultyFile(vec![]), "faulty file (5): it has faults"),
        (Refusal::BrokenSheet, "broken sheet (6): it fails its check, or has no such rule"),
        (
            Refusal::BrokenMap,
            "broken map (7): it has equal names, more than 2,048 entries, or bytes that are no entries",
        ),
        (Refusal::StartRefused, "poor start (8): the entry has more than 4,096 bytes, or at a kiosk more than 512"),
        (
            Refusal::BrokenRun,
            "broken run (9): its kind of caller is unknown, or its numbers, its stack and the sheet do not fit each other",
        ),
        (
            Refusal::RowMismatch,
            "ill-fitting row (10): not one length for each rule, or one that is above the bytes left or ends inside a character",
        ),
        (
            Refusal::NoSuchPlace,
            "no such place (11): the offset is past the end or inside a character, or no offset has the line and column",
        ),
        (Refusal::TextMismatch, "ill-fitting text (12): the entry is not UTF-8, or not n bytes long"),
        (Refusal::UnknownCaller, "unknown caller (13): neither a seller nor a kiosk"),
        (Refusal::Other(99), "refused (99): by the number 99, which this program does not know"),
    ];
    told.iter().for_each(|(refusal, words)| assert_eq!(refusal.to_string(), *words));
}

#[test]
fn number_6_for_a_sheet_that_fails_its_check_and_for_a_rule_that_is_not_there() {
    let parts = sheet().into_parts();
    assert!(Sheet::from_parts(parts.clone()).is_ok());
    let mut counts = parts.counts;
    counts[0] = 1; // the list names state 1
    let refusal = refused(Sheet::from_parts(Parts { counts, ..parts }));
    assert_eq!((refusal.number(), refusal.words()), (6, "broken sheet"));
    let sheet = sheet();
    assert_eq!(sheet.pattern(2).unwrap(), "c");
    assert_eq!([3, usize::MAX].map(|rule| refused(sheet.pattern(rule))), [Refusal::BrokenSheet, Refusal::BrokenSheet]);
    assert_eq!([2, 3].map(|rule| sheet.has_pattern(rule)), [true, false]);
}

#[test]
fn number_7_for_equal_names_too_many_entries_and_bytes_that_are_no_map() {
    let mut sheet = sheet();
    let before = sheet.rules().map(|rule| rule.id).collect::<Vec<_>>();
    let equal = Map::of([("A", 1), ("B", 2), ("A", 1)]).unwrap();
    let many = Map::of(numbered("N", 2_049).iter().zip(0..)).unwrap();
    let odd = Map::from_parts(b"A".to_vec(), vec![0; 7]);
    let past = Map::from_parts(b"A".to_vec(), vec![0, 0, 2, 0, 9, 0]);
    for map in [equal, many, odd, past] {
        let refusal = refused(sheet.link(&map));
        assert_eq!((refusal.number(), refusal.words()), (7, "broken map"));
    }
    assert_eq!(sheet.rules().map(|rule| rule.id).collect::<Vec<_>>(), before);
    assert!(sheet.link(&Map::of(numbered("N", 2_048).iter().zip(0..)).unwrap()).is_ok());
}

#[test]
fn a_name_that_a_map_cannot_hold_is_refused_before_the_link() {
    let mut map = Map::new();
    assert!(map.add("x".repeat(65_536), 1).is_err());
    map.add("x".repeat(65_535), 1).unwrap();
    map.add("y".repeat(65_535), 2).unwrap();
    let told = map.add("z", 3).unwrap_err().to_string();
    assert!(told.contains("65,535"), "{told}");
    assert_eq!((map.len(), map.entry(1).unwrap().1, map.entry(2)), (2, 2, None));
    assert!(sheet().link(&map).is_ok());
}

#[test]
fn number_8_for_an_entry_above_the_limit_of_its_caller() {
    let sheet = linked();
    let text = "a".repeat(65_540);
    for (caller, most) in [(Caller::Seller, 4_096), (Caller::Kiosk, 512)] {
        assert_eq!(caller.most_bytes(), most);
        assert_eq!(sheet.start(caller, &text[..most]).map(|run| (run.n(), run.caller())), Ok((most, Some(caller))));
        for n in [most + 1, 65_535, 65_536, 65_540] {
            let refusal = refused(sheet.start(caller, &text[..n]));
            assert_eq!((refusal.number(), refusal.words()), (8, "poor start"));
        }
        // before 12
        assert_eq!(refused(sheet.start(caller, &vec![0xff; most + 1])), Refusal::StartRefused);
    }
    // an entry of a seller may be longer than one of a kiosk
    assert_eq!(sheet.start(Caller::Seller, &text[..513]).map(|run| run.n()), Ok(513));
}

#[test]
fn number_9_for_a_run_that_no_start_and_steps_leave() {
    let sheet = linked();
    let (numbers, stack) = sheet.start(Caller::Seller, "ab").unwrap().into_parts();
    let row: Row = [1, 0, 0].into_iter().collect();
    assert!(Run::from_parts(&sheet, "ab", numbers, stack.clone()).step(&row).is_ok());
    let broken = [
        ([2, 3, 1, 0, 0], stack.clone()),
        ([2, 0, 0, 0, 0], stack.clone()),
        ([2, 0, 1, 1, 0], stack.clone()),
        ([2, 0, 1, 0, 2], stack.clone()),
        ([2, 0, 1, 0, 65_535], stack.clone()),
        ([4_097, 0, 1, 0, 0], vec![0; 9_000]),
        ([513, 0, 1, 0, 1], vec![0; 9_000]),
        (numbers, vec![0; 5]),
        (numbers, vec![2, 0, 0, 0, 0, 0]),
    ];
    for (numbers, stack) in broken {
        let text = "a".repeat(numbers[0].into());
        let mut run = Run::from_parts(&sheet, &text, numbers, stack.clone());
        let refusal = refused(run.step(&row));
        assert_eq!((refusal.number(), refusal.words()), (9, "broken run"));
        assert_eq!(run.into_parts(), (numbers, stack));
    }
}

/// A run is judged by its own limit: that of the caller whose kind it has.
#[test]
fn number_9_for_n_above_the_limit_of_the_runs_own_caller_and_for_an_unknown_kind() {
    let sheet = linked();
    let text = "a".repeat(4_097);
    let step = |n: u16, kind: u16| {
        let mut run = Run::from_parts(&sheet, &text[..n.into()], [n, 0, 1, 0, kind], vec![0; 9_000]);
        let stepped = run.step(&[1, 0, 0].into_iter().collect());
        if stepped.is_err() {
            assert_eq!(run.clone().into_parts(), ([n, 0, 1, 0, kind], vec![0; 9_000]));
        }
        (run.caller(), stepped)
    };
    let moved = Ok(Step::Token { id: 7, range: 0..1 });
    let broken = Err(Refusal::BrokenRun);
    for (n, seller, kiosk) in
        [(512, &moved, &moved), (513, &moved, &broken), (4_096, &moved, &broken), (4_097, &broken, &broken)]
    {
        assert_eq!(step(n, 0), (Some(Caller::Seller), seller.clone()));
        assert_eq!(step(n, 1), (Some(Caller::Kiosk), kiosk.clone()));
    }
    for kind in [2, 3, 255, 256, 257, 65_535] {
        // also where a run of a known kind would be done
        assert_eq!([0, 1, 512, 4_097].map(|n| step(n, kind)), [(); 4].map(|()| (None, broken.clone())));
    }
}

/// 12 is tested before 9, also before its condition of 3/13.
#[test]
fn number_12_comes_before_an_unknown_kind_and_the_limit_of_a_kiosk() {
    let sheet = linked();
    let text = [0xff; 513];
    for (n, kind) in [(2, 2), (513, 1), (513, 2)] {
        let step = |text: &[u8]| Run::from_parts(&sheet, text, [n, 0, 1, 0, kind], vec![0; 9_000]).step(&Row::new());
        assert_eq!(step(&text[..n.into()]), Err(Refusal::TextMismatch));
        assert_eq!(step(b"a"), Err(Refusal::TextMismatch));
        assert_eq!(step(&vec![b'a'; n.into()]), Err(Refusal::BrokenRun));
    }
}

#[test]
fn number_10_for_a_row_that_does_not_fit() {
    let sheet = linked();
    let mut run = sheet.start(Caller::Seller, "aa").unwrap();
    let rows: [&[usize]; 5] = [&[], &[1, 0], &[1, 0, 0, 0], &[1, 0, 3], &[1, 0, 70_000]];
    for row in rows {
        let refusal = refused(run.step(&row.iter().copied().collect()));
        assert_eq!((refusal.number(), refusal.words()), (10, "ill-fitting row"));
    }
    assert!(matches!(run.step(&Row::from_bytes(vec![1; 5])), Err(Refusal::RowMismatch)));
    assert_eq!((run.position(), run.moves(), run.states()), (0, 0, vec![0]));
    assert_eq!(run.step(&[2, 0, 0].into_iter().collect()), Ok(Step::Token { id: 7, range: 0..2 }));
}

#[test]
fn number_10_for_a_length_of_any_rule_that_ends_inside_a_character() {
    let sheet = linked();
    let text = "aé€😀";
    let mut run = sheet.start(Caller::Seller, text).unwrap();
    // of the winner; of a live rule that does not win; of a rule that is not live, beside a winner and without one
    let cuts = [[2, 0, 0], [3, 2, 0], [0, 5, 0], [1, 3, 2], [10, 6, 4], [0, 0, 7], [6, 3, 9]];
    for cut in cuts {
        let refusal = refused(run.step(&cut.into_iter().collect()));
        assert_eq!((refusal.number(), refusal.words()), (10, "ill-fitting row"), "{cut:?}");
        assert_eq!((run.position(), run.moves(), run.states()), (0, 0, vec![0]));
    }
    // the run goes on by rows that fit, from the edge that it stands at
    assert_eq!(run.step(&[1, 0, 0].into_iter().collect()), Ok(Step::Token { id: 7, range: 0..1 }));
    assert_eq!(refused(run.step(&[0, 0, 1].into_iter().collect())), Refusal::RowMismatch);
    assert_eq!(run.step(&[2, 5, 9].into_iter().collect()), Ok(Step::Token { id: 8, range: 1..6 }));
    assert_eq!((run.rest(), &text[run.position()..], run.states()), ("😀".as_bytes(), "😀", vec![0, 1]));
    assert_eq!(refused(run.step(&[1, 2, 4].into_iter().collect())), Refusal::RowMismatch);
    assert_eq!(run.step(&[0, 4, 4].into_iter().collect()), Ok(Step::Skip { range: 6..10 }));
    // at the end every row is done
    assert_eq!(run.step(&[1, 2, 3].into_iter().collect()), Ok(Step::Done));
}

/// Only a run that was made by hand can stand inside a character: there a length of 0 does not fit either.
#[test]
fn number_10_for_every_length_that_is_0_inside_a_character() {
    let sheet = linked();
    let (_, stack) = sheet.start(Caller::Seller, "aé").unwrap().into_parts();
    let at = |position| Run::from_parts(&sheet, "aé", [3, position, 1, 0, 0], stack.clone());
    for row in [[0, 0, 0], [1, 1, 0], [0, 0, 1]] {
        assert_eq!(refused(at(2).step(&row.into_iter().collect())), Refusal::RowMismatch);
    }
    assert_eq!(at(2).step(&[1, 1, 1].into_iter().collect()), Ok(Step::Token { id: 7, range: 2..3 }));
    assert_eq!(at(1).step(&[0, 0, 0].into_iter().collect()), Ok(Step::Stopped));
    // without rules there is no length that could not fit
    let empty = LexFile::new("%%").parse().unwrap();
    assert_eq!(Run::from_parts(&empty, "aé", [3, 2, 1, 0, 0], stack.clone()).step(&Row::new()), Ok(Step::Stopped));
}

/// Texts that are no UTF-8: bytes that begin no character, cut characters, characters written too long, and none at all.
const NO_TEXTS: [&[u8]; 8] =
    [b"\xff", b"\x80", b"a\xc3", b"\xe2\x82", b"\xf0\x9f\x98a", b"\xc0\x80", b"\xed\xa0\x80", b"\xf4\x90\x80\x80"];

#[test]
fn number_12_for_an_entry_that_is_not_utf8() {
    let sheet = linked();
    for text in NO_TEXTS {
        let refusal = refused(sheet.start(Caller::Seller, text));
        assert_eq!((refusal.number(), refusal.words()), (12, "ill-fitting text"), "{text:?}");
    }
    for text in ["", "a", "é€😀", "\0"] {
        assert_eq!(sheet.start(Caller::Seller, text).map(|run| run.text()), Ok(text.as_bytes()));
    }
    assert_eq!(sheet.start(Caller::Seller, b"\xc3\xa9").map(|run| (run.n(), run.rest())), Ok((2, "é".as_bytes())));
}

#[test]
fn number_12_for_a_step_with_a_text_that_is_not_utf8_or_not_n_bytes_long() {
    let sheet = linked();
    let mut run = sheet.start(Caller::Seller, "é€").unwrap();
    let row = |lengths: [usize; 3]| lengths.into_iter().collect::<Row>();
    assert!(run.step(&row([2, 0, 0])).is_ok());
    let (numbers, stack) = run.into_parts();
    // shorter, longer, of the same length and cut or damaged
    let texts: [&[u8]; 6] =
        [b"", "é".as_bytes(), "é€a".as_bytes(), b"\xc3\xa9\xe2\x82", b"\xc3\xa9\xe2\x82\xff", b"\xff\xffabc"];
    for text in texts {
        let mut run = Run::from_parts(&sheet, text, numbers, stack.clone());
        let refusal = refused(run.step(&row([3, 0, 0])));
        assert_eq!((refusal.number(), refusal.words()), (12, "ill-fitting text"), "{text:?}");
        assert_eq!(run.into_parts(), (numbers, stack.clone()));
    }
    // nothing was lost: with the entry of the start it goes on
    let mut run = Run::from_parts(&sheet, "é€", numbers, stack);
    assert_eq!(run.step(&row([3, 0, 0])), Ok(Step::Token { id: 7, range: 2..5 }));
}

/// 12 is tested before 9 and 'done', and 10 behind both.
#[test]
fn number_12_comes_before_9_and_done() {
    let sheet = linked();
    let (numbers, stack) = sheet.start(Caller::Seller, "aé").unwrap().into_parts();
    let step = |text: &[u8], numbers, row: [usize; 3]| {
        Run::from_parts(&sheet, text, numbers, stack.clone()).step(&row.into_iter().collect())
    };
    let [good, bad, short]: [&[u8]; 3] = ["aé".as_bytes(), b"a\xc3\xc3", b"aa"];
    let (broken, ended) = ([3, 0, 0, 0, 0], [3, 3, 1, 0, 0]);
    assert_eq!(
        [bad, good].map(|text| step(text, broken, [2, 0, 0])),
        [Err(Refusal::TextMismatch), Err(Refusal::BrokenRun)]
    );
    assert_eq!(step(short, broken, [0, 0, 0]), Err(Refusal::TextMismatch));
    assert_eq!([bad, good].map(|text| step(text, ended, [2, 0, 0])), [Err(Refusal::TextMismatch), Ok(Step::Done)]);
    assert_eq!(
        [bad, good].map(|text| step(text, numbers, [2, 0, 0])),
        [Err(Refusal::TextMismatch), Err(Refusal::RowMismatch)]
    );
    // that the text is the one of the start is nobody's test
    assert_eq!(step(b"abc", numbers, [2, 0, 0]), Ok(Step::Token { id: 7, range: 0..2 }));
}

#[test]
fn number_11_for_an_offset_that_is_not_there() {
    let text = "aé\n€😀";
    for offset in [2, 5, 6, 8, 9, 10, 12, 13, 65_536, usize::MAX] {
        let refusal = refused(Place::of(text, offset));
        assert_eq!((refusal.number(), refusal.words()), (11, "no such place"));
    }
    assert!([0, 1, 3, 4, 7, 11].iter().all(|offset| Place::of(text, *offset).is_ok()));
    assert_eq!(refused(Place::of("", 1)), Refusal::NoSuchPlace);
}

#[test]
fn number_11_for_a_line_and_column_that_no_offset_has() {
    let text = "aé\n€😀";
    // the line feed is column 3 of line 1, the end column 3 of line 2
    let columns = [1, 2, 3];
    assert_eq!(columns.map(|column| Place { line: 1, column }.offset(text)), [Ok(0), Ok(1), Ok(3)]);
    assert_eq!(columns.map(|column| Place { line: 2, column }.offset(text)), [Ok(4), Ok(7), Ok(11)]);
    for (line, column) in [(0, 0), (0, 1), (1, 0), (2, 0), (1, 4), (2, 4), (3, 1), (1, u32::MAX), (u32::MAX, 1)] {
        let place = Place { line, column };
        assert_eq!(refused(place.offset(text)), Refusal::NoSuchPlace, "{place}");
    }
    assert_eq!(Place { line: 1, column: 2 }.offset(""), Err(Refusal::NoSuchPlace));
}

/// `S0`, `S1` and so on.
fn numbered(letter: &str, count: usize) -> Vec<String> {
    (0..count).map(|number| format!("{letter}{number}")).collect()
}
