//! Who starts a run.

use crate::numbers::{KIOSK, MOST_ENTRY, MOST_KIOSK_ENTRY, SELLER};

/// The kind of caller that starts a run. It says how long an entry may be, and the run keeps it.
#[derive(Clone, Copy, Debug, PartialEq, Eq, Hash)]
pub enum Caller {
    /// A seller, whose entries have at most 4,096 bytes.
    Seller,
    /// A self-service kiosk, whose entries end at 512 bytes.
    Kiosk,
}

impl Caller {
    /// The most bytes of an entry.
    pub fn most_bytes(self) -> usize {
        match self {
            Caller::Seller => MOST_ENTRY,
            Caller::Kiosk => MOST_KIOSK_ENTRY,
        }
    }

    /// The number by which the library knows the kind.
    pub(crate) fn kind(self) -> u16 {
        match self {
            Caller::Seller => SELLER,
            Caller::Kiosk => KIOSK,
        }
    }

    /// The caller of that kind, if there is one.
    pub(crate) fn of_kind(kind: u16) -> Option<Caller> {
        match kind {
            SELLER => Some(Caller::Seller),
            KIOSK => Some(Caller::Kiosk),
            _ => None,
        }
    }
}

#[cfg(test)]
mod tests {
    use super::*;
    use crate::{Refusal, calls};

    /// What a start answers that is given a number for the kind, and what it leaves of a run and a stack of old numbers.
    fn start(kind: u64, n: u64, text: &[u8], stack_bytes: usize) -> (Option<Refusal>, [u16; 5], Vec<u8>) {
        let (mut run, mut stack) = ([7; 5], vec![7; stack_bytes]);
        let number = calls::start(kind, n, text, &mut run, &mut stack).number();
        (Some(Refusal::of(number)).filter(|_| number != 0), run, stack)
    }

    /// No [`Caller`] is refused by 13: only the C call takes a number.
    #[test]
    fn number_13_for_a_kind_that_is_neither() {
        let refusal = Refusal::UnknownCaller;
        assert_eq!((refusal.number(), refusal.words()), (13, "unknown caller"));
        for (caller, kind) in [(Caller::Seller, 0), (Caller::Kiosk, 1)] {
            assert_eq!((caller.kind(), Caller::of_kind(kind)), (kind, Some(caller)));
            assert_eq!(start(kind.into(), 2, b"ab", 6), (None, [2, 0, 1, 0, kind], vec![0, 0, 7, 7, 7, 7]));
        }
        for kind in [2, 3, 65_535, 65_536, 65_537, 1 << 32, 1 << 63, u64::MAX] {
            assert_eq!(start(kind, 2, b"ab", 6), (Some(refusal.clone()), [7; 5], vec![7; 6]), "{kind}");
        }
        assert_eq!(Caller::of_kind(2), None);
    }

    /// 13 is tested before 8, by either of its conditions, and before 12.
    #[test]
    fn number_13_comes_before_8_and_12() {
        let answers = |n: u64, text: &[u8], bytes| [0, 1, 2].map(|kind| start(kind, n, text, bytes).0);
        let [poor, unknown, text] = [Refusal::StartRefused, Refusal::UnknownCaller, Refusal::TextMismatch].map(Some);
        let long = vec![b'a'; 4_097];
        assert_eq!(answers(4_097, &long, 9_000), [poor.clone(), poor.clone(), unknown.clone()]);
        assert_eq!(answers(513, &long[..513], 9_000), [None, poor.clone(), unknown.clone()]);
        assert_eq!(answers(2, b"ab", 5), [poor.clone(), poor.clone(), unknown.clone()]);
        assert_eq!(answers(2, b"abc", 6), [text.clone(), text.clone(), unknown.clone()]);
        assert_eq!(answers(2, b"\xff\xff", 6), [text.clone(), text, unknown.clone()]);
        assert_eq!(answers(u64::MAX, b"\xff", 0), [poor.clone(), poor, unknown]);
    }
}
