//! The run machine of 01, with 02's limit of an entry and test of a row: it is given the limit, the file, the map, the
//! text of the start and the rows, and reads neither sheet nor run.

use super::misreadings::Misreading as M;
use super::token;
use crate::answers::{DONE, ROW_MISMATCH, SKIP, STOPPED, UNLINKED};
use crate::model::Records;

#[derive(Clone)]
struct Rule {
    named: bool,
    /// That of the map entry with the same name.
    id: Option<u16>,
    list: Vec<usize>,
    operation: usize,
    target: usize,
}

#[derive(Clone)]
pub struct Machine {
    n: usize,
    /// Of every offset up to n, whether it is an edge of the text.
    edges: Vec<bool>,
    /// Of every state, whether it is exclusive.
    states: Vec<bool>,
    rules: Vec<Rule>,
    position: usize,
    moves: usize,
    stack: Vec<usize>,
    /// The last id that the machine held at each place of its stack.
    held: Vec<usize>,
    wrong: Option<M>,
}

impl Machine {
    /// None where the entry has more bytes than the limit.
    pub fn new(
        limit: u64,
        source: &str,
        records: &Records,
        map: &[(String, u16)],
        text: &str,
        wrong: Option<M>,
    ) -> Option<Machine> {
        let bytes = text.len() as u64;
        let fits =
            bytes < limit || bytes == limit && wrong != Some(M::LimitIsExcluded) || wrong == Some(M::LimitIsNotAsked);
        if !fits {
            return None;
        }
        let rules = records.rules.iter().enumerate().map(|(k, rule)| {
            let name = rule.named.then(|| &source[rule.name_from..rule.name_from + rule.name_length]);
            let entry = map.iter().find(|(entry, _)| Some(entry.as_str()) == name);
            let id = if wrong == Some(M::IdIsPosition) { Some(k as u16) } else { entry.map(|(_, id)| *id) };
            let list = records.lists[rule.list_from..rule.list_from + rule.list_count].to_vec();
            Rule { named: rule.named, id, list, operation: rule.operation, target: rule.target }
        });
        let states = records.states.iter().map(|state| state.exclusive).collect();
        let first = if wrong == Some(M::StartsInTheLastState) { records.states.len() - 1 } else { 0 };
        let stack = vec![first];
        Some(Machine {
            n: text.len(),
            edges: edges(text, wrong),
            states,
            rules: rules.collect(),
            position: 0,
            moves: 0,
            held: stack.clone(),
            stack,
            wrong,
        })
    }

    pub fn take(&mut self, row: &[u8]) -> u64 {
        let lengths: Vec<usize> =
            row.chunks_exact(2).map(|bytes| u16::from_le_bytes([bytes[0], bytes[1]]) as usize).collect();
        if self.position == self.n {
            let fits = match self.wrong {
                Some(M::RowIsTestedAtTheEnd) => self.fits(row.len(), &lengths),
                Some(M::EdgesAreTestedAtTheEnd) => lengths.iter().all(|length| self.ends_on_an_edge(*length)),
                _ => true,
            };
            return if fits { DONE } else { ROW_MISMATCH };
        }
        if !self.fits(row.len(), &lengths) {
            return ROW_MISMATCH;
        }
        let Some((winner, length)) = self.winner(&lengths) else { return STOPPED };
        let rule = self.rules[winner].clone();
        let word = match rule.id {
            Some(id) if rule.named => {
                let start = if self.has(M::TokenStartsAtItsEnd) { self.position + length } else { self.position };
                token(id, start as u16, length as u16)
            }
            None if rule.named && self.has(M::UnlinkedSkips) => SKIP,
            None if rule.named => return UNLINKED,
            _ => SKIP,
        };
        self.position += if self.has(M::MovesByOne) { 1 } else { length };
        self.moves += 1;
        if word != SKIP || !self.has(M::SkipKeepsTheStack) {
            self.operate(&rule);
        }
        word
    }

    fn has(&self, misreading: M) -> bool {
        self.wrong == Some(misreading)
    }

    fn current(&self) -> usize {
        self.stack[self.stack.len() - 1]
    }

    fn fits(&self, bytes: usize, lengths: &[usize]) -> bool {
        let left = self.n - self.position;
        let right_length =
            bytes == 2 * self.rules.len() || self.has(M::OddByteFits) && bytes == 2 * self.rules.len() + 1;
        if !right_length {
            return false;
        }
        let winner = self.winner(lengths).map(|(winner, _)| winner);
        (0..self.rules.len()).all(|k| {
            let is_live = || self.is_live(&self.rules[k]);
            let edge_counts = match self.wrong {
                Some(M::EdgesAreTestedForTheWinner) => winner == Some(k),
                Some(M::EdgesAreTestedForLiveRules) => is_live(),
                _ => true,
            };
            let fits = lengths[k] <= left && (!edge_counts || self.ends_on_an_edge(lengths[k]));
            fits || self.has(M::RowIsTestedForLiveRules) && !is_live()
        })
    }

    fn ends_on_an_edge(&self, length: usize) -> bool {
        let end = if self.has(M::EdgeOfTheLengthAlone) { length } else { self.position + length };
        self.edges.get(end).is_some_and(|edge| *edge)
    }

    fn is_live(&self, rule: &Rule) -> bool {
        let state = self.current();
        if rule.list.is_empty() {
            return !self.has(M::EmptyListIsNeverLive) && (!self.states[state] || self.has(M::ExclusiveIsInclusive));
        }
        rule.list.contains(&state) || self.has(M::ListedRulesAreLiveInInitial) && state == 0
    }

    /// The live rule with the greatest length above 0, the earlier one at a tie.
    fn winner(&self, lengths: &[usize]) -> Option<(usize, usize)> {
        let mut best: Option<(usize, usize)> = None;
        for (k, rule) in self.rules.iter().enumerate() {
            let length = lengths[k];
            let beats = match best {
                None => length > 0,
                Some(_) if self.has(M::EarlierRuleWins) => false,
                Some((_, longest)) if self.has(M::LaterRuleWinsATie) => length >= longest,
                Some((_, longest)) => length > longest,
            };
            if beats && self.is_live(rule) {
                best = Some((k, length));
            }
        }
        best
    }

    fn operate(&mut self, rule: &Rule) {
        match rule.operation {
            1 if self.has(M::ReplaceKeepsTheRest) => {
                self.stack.pop();
                self.stack.push(rule.target);
            }
            2 if self.has(M::SameStateIsPushedOnce) && self.current() == rule.target => {}
            3 if self.has(M::PopNeedsItsTarget) && self.current() != rule.target => {}
            1 => self.stack = vec![rule.target],
            2 => self.stack.push(rule.target),
            3 => {
                self.stack.pop();
            }
            _ => {}
        }
        if self.stack.is_empty() {
            self.stack.push(if self.has(M::EmptiedStackGetsTheTarget) { rule.target } else { 0 });
        }
        for (k, id) in self.stack.iter().enumerate() {
            match self.held.get_mut(k) {
                Some(held) => *held = *id,
                None => self.held.push(*id),
            }
        }
    }

    /// n, position, depth and moves.
    pub fn numbers(&self) -> [u16; 4] {
        [self.n, self.position, self.stack.len(), self.moves].map(|number| number as u16)
    }

    /// What a stack with these bytes before the start call has now.
    pub fn stack(&self, before: &[u8]) -> Vec<u8> {
        let mut stack = before.to_vec();
        for (k, id) in self.held.iter().enumerate() {
            if let Some(entry) = stack.get_mut(2 * k..2 * k + 2) {
                entry.copy_from_slice(&(*id as u16).to_le_bytes());
            }
        }
        stack
    }
}

/// An edge is where some first characters end; the code point tells how many bytes a character has.
fn edges(text: &str, wrong: Option<M>) -> Vec<bool> {
    let mut edges = vec![false; text.len() + 1];
    edges[0] = wrong != Some(M::StartIsNoEdge);
    let mut end = 0;
    for character in text.chars() {
        let bytes = match u32::from(character) {
            ..0x80 => 1,
            0x80..0x800 => 2,
            0x800..0x1_0000 => 3,
            _ => 4,
        };
        if bytes > 2 && wrong == Some(M::OnlyTwoBytesAreCut) {
            edges[end..end + bytes].fill(true);
        }
        end += bytes;
        edges[end] = end < text.len() || wrong != Some(M::EndIsNoEdge);
    }
    edges
}

#[cfg(test)]
mod tests {
    use super::*;
    use crate::generators::roomy_case;
    use crate::model::{self, Reading};

    const SOURCE: &str = "%x S\n%%\na <+S>'A'\n<S>b <-S>;\nc 'C'";

    fn limited(limit: u64, text: &str) -> Option<Machine> {
        let records = model::records(SOURCE, &roomy_case(SOURCE, 0), Reading::RIGHT);
        Machine::new(limit, SOURCE, &records, &[("A".to_string(), 9)], text, None)
    }

    fn machine(text: &str) -> Machine {
        limited(512, text).expect("the text has few bytes")
    }

    #[test]
    fn it_runs_over_an_entry_within_its_limit() {
        let runs = |limit, bytes| limited(limit, &"a".repeat(bytes)).is_some();
        assert_eq!([511, 512, 513, 4_096].map(|bytes| runs(512, bytes)), [true, true, false, false]);
        assert_eq!([513, 4_096, 4_097].map(|bytes| runs(4_096, bytes)), [true, true, false]);
    }

    #[test]
    fn it_pushes_pops_and_holds_what_it_held() {
        let mut machine = machine("aaaa");
        let rows = [[1, 0, 0, 0, 1, 0], [3, 0, 2, 0, 0, 0], [0, 0, 0, 0, 1, 0], [2, 0, 0, 0, 0, 0]];
        let answers = rows.map(|row| machine.take(&row));
        assert_eq!(answers, [token(9, 0, 1), SKIP, UNLINKED, ROW_MISMATCH]);
        assert_eq!(machine.numbers(), [4, 3, 1, 2]);
        assert_eq!(machine.stack(&[7; 10]), [0, 0, 1, 0, 7, 7, 7, 7, 7, 7]);
    }

    #[test]
    fn it_stops_where_no_live_rule_has_a_length() {
        let mut machine = machine("a");
        assert_eq!(machine.take(&[0, 0, 1, 0, 0, 0]), STOPPED);
        assert_eq!(machine.take(&[1, 0, 0, 0, 0]), ROW_MISMATCH);
        machine.take(&[1, 0, 0, 0, 0, 0]);
        assert_eq!(machine.take(&[]), DONE);
    }

    #[test]
    fn it_takes_lengths_that_end_on_an_edge() {
        let mut machine = machine("é€");
        assert_eq!(machine.take(&[2, 0, 1, 0, 0, 0]), ROW_MISMATCH);
        assert_eq!(machine.take(&[2, 0, 0, 0, 5, 0]), UNLINKED);
        assert_eq!(machine.take(&[2, 0, 5, 0, 0, 0]), token(9, 0, 2));
        let answers = [[0, 0, 2, 0, 0, 0], [2, 0, 3, 0, 0, 0], [0, 0, 3, 0, 0, 0]].map(|row| machine.take(&row));
        assert_eq!(answers, [ROW_MISMATCH, ROW_MISMATCH, SKIP]);
    }

    #[test]
    fn edges_are_those_of_characters_of_one_to_four_bytes() {
        let at = |text| edges(text, None).into_iter().enumerate().filter_map(|(at, edge)| edge.then_some(at));
        assert_eq!(at("").collect::<Vec<_>>(), [0]);
        assert_eq!(at("aé€😀").collect::<Vec<_>>(), [0, 1, 3, 6, 10]);
        let limits = "\u{7f}\u{80}\u{7ff}\u{800}\u{ffff}\u{10000}\u{10ffff}";
        assert_eq!(at(limits).collect::<Vec<_>>(), [0, 1, 3, 5, 8, 11, 15, 19]);
    }
}
