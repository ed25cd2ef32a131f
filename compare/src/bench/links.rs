//! Sheets and maps to link.

use super::MOST_RULES;
use super::files::alike_names;
use super::hostile::{self, Hostile};
use super::shape::{Around, Shape, Work, timed, timed_by};
use crate::answers::{ACCEPTED, word};
use crate::library::Library;
use crate::link::{self, Call};
use crate::sheet;
use original::Definition;
use std::collections::HashMap;
use std::time::Duration;

const FUNCTION: &str = "troymantle_link";
const SMALL: &str = "%%\na 'x'\n";

pub fn shapes() -> Vec<Shape> {
    vec![
        Shape::new("link: 2,048 rules, 2,048 entries", FUNCTION, 1, || all_linked(false)),
        Shape::new("link: 2,048 rules, 2,048 entries, map's making", FUNCTION, 1, || all_linked(true)),
        Shape::new("link: hostile zeros, small sheet", FUNCTION, 1, || small(hostile::zeros())),
        Shape::new("link: hostile middle, small sheet", FUNCTION, 1, || small(hostile::middle())),
        Shape::new("link: hostile zeros, 2,048 rules, a HashMap", FUNCTION, 1, || large(hostile::zeros())),
        Shape::new("link: hostile middle, 2,048 rules, a HashMap", FUNCTION, 1, || large(hostile::middle())),
        Shape::new("link: hostile one home, 2,048 rules, a HashMap", FUNCTION, 1, || large(hostile::one_home())).slow(),
    ]
}

type Entries<'a> = [(&'a str, u16)];

/// Every rule has an entry, and every entry a rule. The original's map is there already, or its making is in the time.
fn all_linked(with_making: bool) -> Work {
    let source = alike_names(MOST_RULES);
    let names: Vec<String> = (0..MOST_RULES).map(|j| format!("BEGINS_ALIKE_{j:04}")).collect();
    let call = link::call(sheet::parsed(&source, 0), &names.iter().cloned().zip(0..).collect::<Vec<_>>());
    // never given back, so that the map of them can be kept too
    let names: &'static [String] = names.leak();
    let entries: Vec<(&str, u16)> = names.iter().map(String::as_str).zip(0..).collect();
    let map: HashMap<&str, u16> = entries.iter().copied().collect();
    Work {
        bytes: source.len(),
        original: Box::new(move |around| match with_making {
            true => time_with_making(around, &source, &entries),
            false => time_original(around, &source, &map),
        }),
        ours: Box::new(move |library| time_ours(library, &call, ACCEPTED)),
        note: None,
    }
}

/// No rule has an entry. Zeros are text, so the original can take the map.
fn small(hostile: Hostile) -> Work {
    let call = hostile.call(sheet::parsed(SMALL, 0));
    let expected = word(ACCEPTED, &[1, hostile::NAMES]);
    Work {
        bytes: hostile.bytes.len(),
        original: Box::new(move |around| {
            let names = hostile.names().map(|name| std::str::from_utf8(name).expect("the names are text"));
            let entries: Vec<(&str, u16)> = names.zip(0..).collect();
            time_with_making(around, SMALL, &entries)
        }),
        ours: Box::new(move |library| time_ours(library, &call, expected)),
        note: None,
    }
}

/// No file has this sheet, so a map stands for the original: it is made of the entries and asked for each rule's name.
fn large(hostile: Hostile) -> Work {
    let call = hostile.call(hostile.sheet());
    Work {
        bytes: hostile.bytes.len(),
        original: Box::new(move |around| time_map(around, &hostile)),
        ours: Box::new(move |library| time_ours(library, &call, ACCEPTED)),
        note: None,
    }
}

fn time_ours(library: &Library, call: &Call, expected: u64) -> Duration {
    timed(
        || (call.sheet.areas[1].clone(), call.area_7.clone(), call.area_8.clone()),
        |(area_2, area_7, area_8)| {
            let word = library.link(call, area_2, area_7, area_8);
            assert_eq!(word, expected, "our library links otherwise");
        },
    )
}

fn definition(source: &str) -> Definition {
    Definition::new(source, false, false, &[]).expect("the file has no faults")
}

/// The map is there already.
fn time_original(around: Around, source: &str, map: &HashMap<&str, u16>) -> Duration {
    timed_by(around, || definition(source), |definition| definition.link_only(map))
}

fn time_with_making(around: Around, source: &str, entries: &Entries) -> Duration {
    timed_by(
        around,
        || definition(source),
        |definition| definition.link_only(&entries.iter().copied().collect::<HashMap<&str, u16>>()),
    )
}

fn time_map(around: Around, hostile: &Hostile) -> Duration {
    let rules = hostile.bytes.clone();
    let names: Vec<&[u8]> = hostile.names().collect();
    let names_of_rules: Vec<&[u8]> = hostile.names_in(&rules).collect();
    timed_by(
        around,
        || (),
        |()| {
            let map: HashMap<&[u8], u16> = names.iter().copied().zip(0..).collect();
            let ids: Vec<u16> = names_of_rules.iter().filter_map(|name| map.get(name).copied()).collect();
            assert_eq!(ids.len(), hostile::NAMES, "a name is not in the map");
            ids
        },
    )
}
