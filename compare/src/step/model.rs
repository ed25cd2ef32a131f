//! The start call and the step call by 01's and 02's words, on the bytes that they take.

use super::misreadings::calls::Misreading as M;
use super::{KIOSK, Run, SELLER, token};
use crate::answers::{
    ACCEPTED, BROKEN_RUN, BROKEN_SHEET, DONE, ROW_MISMATCH, SKIP, START_REFUSED, STOPPED, TEXT_MISMATCH,
    UNKNOWN_CALLER, UNLINKED,
};
use crate::sheet::{Rule, Sheet, field, fields};

/// How many bytes the entry of a caller of this kind may have. Other kinds are not known and have no limit.
pub fn limit(kind: u64) -> Option<u64> {
    match kind {
        SELLER => Some(4_096),
        KIOSK => Some(512),
        _ => None,
    }
}

/// The misreadings of a call's limit.
struct OfLimit {
    sellers_for_both: M,
    kiosks_for_both: M,
    one_more: M,
    one_less: M,
}

fn misread_limit(kind: u64, wrong: Option<M>, of_limit: OfLimit) -> Option<u64> {
    let is = |misreading| wrong == Some(misreading);
    match kind {
        SELLER if is(of_limit.kiosks_for_both) || is(M::KindsAreSwapped) => limit(KIOSK),
        KIOSK if is(of_limit.sellers_for_both) || is(M::KindsAreSwapped) => limit(SELLER),
        KIOSK if is(of_limit.one_more) => Some(513),
        KIOSK if is(of_limit.one_less) => Some(511),
        _ => limit(kind),
    }
}

/// The misreadings of a call's text.
struct OfText {
    any: M,
    shorter: M,
    longer: M,
}

fn is_text_of(n: u64, text: &[u8], wrong: Option<M>, of_text: OfText) -> bool {
    let length = text.len() as u64;
    let is = |misreading| wrong == Some(misreading);
    let has_length = length == n
        || is(of_text.shorter) && length < n
        || is(of_text.longer) && length > n
        || is(M::LengthOfSixteenBits) && length % 65_536 == n;
    has_length && (is(of_text.any) || std::str::from_utf8(text).is_ok())
}

/// A number, and whether its condition holds.
type Test<Call> = (u64, fn(&Call, Option<M>) -> bool);

/// That of the first test whose condition holds.
fn first_number<Call>(tests: &[Test<Call>], call: &Call, wrong: Option<M>) -> Option<u64> {
    tests.iter().find(|(_, holds)| holds(call, wrong)).map(|(number, _)| *number)
}

/// What the start call takes.
#[derive(Clone, Copy)]
pub struct Start<'a> {
    pub kind: u64,
    pub n: u64,
    pub text: &'a [u8],
    pub run: &'a Run,
}

pub fn start(call: Start, wrong: Option<M>) -> (u64, Run) {
    let mut tests = Start::TESTS;
    match wrong {
        Some(M::CallerBehindStart) => tests.swap(0, 1),
        Some(M::CallerBehindText) => tests.rotate_left(1),
        Some(M::TextBeforeStart) => tests.swap(1, 2),
        _ => {}
    }
    match first_number(&tests, &call, wrong) {
        Some(TEXT_MISMATCH) if wrong == Some(M::StartWritesAtTwelve) => (TEXT_MISMATCH, call.begun(wrong)),
        Some(UNKNOWN_CALLER) if wrong == Some(M::StartWritesAtThirteen) => (UNKNOWN_CALLER, call.begun(wrong)),
        Some(number) => (number, call.run.clone()),
        None => (ACCEPTED, call.begun(wrong)),
    }
}

impl Start<'_> {
    /// In their order.
    const TESTS: [Test<Self>; 3] = [
        (UNKNOWN_CALLER, |call, wrong| call.limit(wrong).is_none()),
        (START_REFUSED, |call, wrong| call.is_refused(wrong)),
        (TEXT_MISMATCH, |call, wrong| !call.has_its_text(wrong)),
    ];

    fn limit(&self, wrong: Option<M>) -> Option<u64> {
        const OF_START: OfLimit = OfLimit {
            sellers_for_both: M::StartHasTheSellersLimit,
            kiosks_for_both: M::StartHasTheKiosksLimit,
            one_more: M::StartTakesAKioskOf513,
            one_less: M::StartRefusesAKioskOf512,
        };
        let kind = match wrong {
            Some(M::KindOfSixteenBits) => self.kind % 65_536,
            Some(M::KindOfThirtyTwoBits) => self.kind % (1 << 32),
            _ => self.kind,
        };
        misread_limit(kind, wrong, OF_START)
    }

    /// By the stack alone where the kind is not known, which a misreading asks for.
    fn is_refused(&self, wrong: Option<M>) -> bool {
        let n = u128::from(self.n);
        self.limit(wrong).is_some_and(|limit| n > limit.into()) || (self.run.stack.len() as u128) < 2 * (n + 1)
    }

    fn has_its_text(&self, wrong: Option<M>) -> bool {
        const OF_START: OfText =
            OfText { any: M::StartTakesAnyBytes, shorter: M::StartTakesAShorterText, longer: M::StartTakesALongerText };
        is_text_of(self.n, self.text, wrong, OF_START)
    }

    fn begun(&self, wrong: Option<M>) -> Run {
        let kind = if wrong == Some(M::StartKeepsTheKind) { self.run.numbers[4] } else { self.kind as u16 };
        let mut begun = Run { numbers: [self.n as u16, 0, 1, 0, kind], ..self.run.clone() };
        if let Some(bytes) = begun.stack.get_mut(..2) {
            bytes.fill(0);
        }
        begun
    }
}

/// What the step call takes.
#[derive(Clone, Copy, Debug)]
pub struct Step<'a> {
    pub sheet: &'a Sheet,
    pub text: &'a [u8],
    pub run: &'a Run,
    pub row: &'a [u8],
}

pub fn step(call: Step, wrong: Option<M>) -> (u64, Run) {
    let Step { sheet, run, .. } = call;
    let unchanged = |number| (number, run.clone());
    let mut tests = Step::TESTS;
    match wrong {
        Some(M::TextBeforeSheet) => tests.swap(0, 1),
        Some(M::TextBehindRun) => tests[1..4].rotate_left(1),
        Some(M::TextBehindDone) => tests[1..5].rotate_left(1),
        Some(M::TextBehindRow) => tests[1..].rotate_left(1),
        Some(M::KindBeforeText) => tests.swap(1, 2),
        Some(M::KindBehindDone) => tests[2..5].rotate_left(1),
        _ => {}
    }
    if let Some(number) = first_number(&tests, &call, wrong) {
        return unchanged(number);
    }
    let Some((winner, length)) = call.winner() else { return unchanged(STOPPED) };
    let rule = &sheet.rules()[winner];
    if rule.is_named() && rule.has_id() == 0 {
        return unchanged(UNLINKED);
    }
    let word = if rule.is_named() { token(rule.id(), run.numbers[1], length) } else { SKIP };
    let mut moved = moved(run, rule, length);
    if wrong == Some(M::MoveLosesTheKind) {
        moved.numbers[4] = 0;
    }
    (word, moved)
}

impl Step<'_> {
    /// In their order. That of 10 is asked where the run is not broken.
    const TESTS: [Test<Self>; 6] = [
        (BROKEN_SHEET, |call, _| !call.sheet.passes()),
        (TEXT_MISMATCH, |call, wrong| !call.has_its_text(wrong)),
        (BROKEN_RUN, |call, wrong| call.is_broken_by_kind(wrong)),
        (BROKEN_RUN, |call, wrong| call.is_broken_otherwise(wrong)),
        (DONE, |call, _| call.run.numbers[1] == call.run.numbers[0]),
        (ROW_MISMATCH, |call, wrong| !call.has_fitting_row(wrong)),
    ];

    fn has_its_text(&self, wrong: Option<M>) -> bool {
        const OF_STEP: OfText =
            OfText { any: M::StepTakesAnyBytes, shorter: M::StepTakesAShorterText, longer: M::StepTakesALongerText };
        let [n, position, ..] = self.run.numbers.map(usize::from);
        let rest = self.text.get(position..).unwrap_or(self.text);
        is_text_of(n as u64, self.text, wrong, OF_STEP)
            || wrong == Some(M::TextIsJudgedFromThePosition)
                && self.text.len() == n
                && std::str::from_utf8(rest).is_ok()
    }

    /// The kind is not known, or n is above its limit.
    fn is_broken_by_kind(&self, wrong: Option<M>) -> bool {
        const OF_RUN: OfLimit = OfLimit {
            sellers_for_both: M::RunHasTheSellersLimit,
            kiosks_for_both: M::RunHasTheKiosksLimit,
            one_more: M::RunTakesAKioskOf513,
            one_less: M::RunRefusesAKioskOf512,
        };
        let [n, .., kind] = self.run.numbers.map(u64::from);
        let kind = if wrong == Some(M::KindOfEightBits) { kind % 256 } else { kind };
        match misread_limit(kind, wrong, OF_RUN) {
            Some(limit) => n > limit,
            None if wrong == Some(M::UnknownKindHasLimitZero) => n > 0,
            None => wrong != Some(M::UnknownKindHasNoLimit),
        }
    }

    pub fn is_broken_otherwise(&self, wrong: Option<M>) -> bool {
        let Step { sheet, run, .. } = self;
        let [n, position, depth, moves, _] = run.numbers.map(usize::from);
        let fits =
            position <= n && depth > 0 && depth <= position + 1 && moves <= position && run.stack.len() >= 2 * (n + 1);
        !fits
            || (0..depth).any(|k| field(&run.stack, 2 * k) >= sheet.counts[0])
            || wrong == Some(M::RunOffAnEdgeIsBroken) && !self.edges()(position)
    }

    /// The winner's position and length.
    pub fn winner(&self) -> Option<(usize, u16)> {
        let mut winner: Option<(usize, u16)> = None;
        for (k, (rule, length)) in self.sheet.rules().iter().zip(self.lengths()).enumerate() {
            if self.is_live(rule) && length > winner.map_or(0, |(_, longest)| longest) {
                winner = Some((k, length));
            }
        }
        winner
    }

    pub fn is_live(&self, rule: &Rule) -> bool {
        let state = self.run.current();
        let [_, _, exclusive] = fields(&self.sheet.areas[0], state as usize);
        match rule.list() {
            list if list.is_empty() => exclusive == 0,
            mut list => list.any(|k| field(&self.sheet.areas[2], 2 * k) == state),
        }
    }

    fn lengths(&self) -> impl Iterator<Item = u16> {
        self.row.chunks_exact(2).map(|bytes| field(bytes, 0))
    }

    fn has_fitting_row(&self, wrong: Option<M>) -> bool {
        let [n, position, ..] = self.run.numbers.map(usize::from);
        let is_edge = self.edges();
        let off_an_edge = !is_edge(position);
        if off_an_edge && self.row.is_empty() && wrong == Some(M::NoRulesStillAskForAnEdge) {
            return false;
        }
        let fits = |length: usize| match wrong {
            Some(M::ZeroFitsAnywhere) if length == 0 => true,
            Some(M::NothingFitsOffAnEdge) if off_an_edge => false,
            _ => length <= n - position && is_edge(position + length),
        };
        self.row.len() == 2 * self.sheet.rules().len() && self.lengths().map(usize::from).all(fits)
    }

    /// Of the text, which is UTF-8 but where a misreading comes so far without.
    fn edges(&self) -> impl Fn(usize) -> bool {
        let text = std::str::from_utf8(self.text).ok();
        move |at| text.is_some_and(|text| text.is_char_boundary(at))
    }
}

fn moved(run: &Run, rule: &Rule, length: u16) -> Run {
    let [n, position, depth, moves, kind] = run.numbers;
    let mut stack = run.stack.clone();
    let mut put = |k: u16, id: u16| stack[2 * k as usize..2 * k as usize + 2].copy_from_slice(&id.to_le_bytes());
    let depth = match rule.operation() {
        1 => {
            put(0, rule.target());
            1
        }
        2 => {
            put(depth, rule.target());
            depth + 1
        }
        3 if depth == 1 => {
            put(0, 0);
            1
        }
        3 => depth - 1,
        _ => depth,
    };
    Run { numbers: [n, position + length, depth, moves + 1, kind], stack }
}
