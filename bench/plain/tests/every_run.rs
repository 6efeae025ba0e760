//! Verdicts on tiny boards, against all states that any run reaches.

use plain::board::{open, Board, Regime};
use plain::decide::decide;
use plain::set::{Comparison, Condition, Set};
use plain::text::{question, Kind};
use std::fmt::Write;

const USERS: u16 = 6;
const ROLES: u8 = 3;

/// Numbers that look random, the same in every test.
struct Numbers(u64);

impl Numbers {
    fn below(&mut self, end: u64) -> u64 {
        self.0 ^= self.0 << 13;
        self.0 ^= self.0 >> 7;
        self.0 ^= self.0 << 17;
        (self.0 >> 11) % end
    }

    fn once_in(&mut self, many: u64) -> bool {
        self.below(many) == 0
    }

    fn set(&mut self, still: bool, levels: u64) -> String {
        match self.below(if levels == 0 { 4 } else { 7 }) {
            0 if still => format!("{{u{},u{}}}", self.below(4), self.below(5)),
            0 => format!("r{}", self.below(3)),
            1 if still => "{}".into(),
            1 => format!("p{}", self.below(2)),
            2 | 3 if still => format!("{{u{}}}", self.below(5)),
            2 | 3 => format!("r{}", self.below(3)),
            4 => format!("({}|{})", self.set(still, levels - 1), self.set(still || self.0.is_multiple_of(3), levels - 1)),
            5 => format!("({}&{})", self.set(still, levels - 1), self.set(still || self.0.is_multiple_of(3), levels - 1)),
            _ => format!("({})", self.set(still, levels - 1)),
        }
    }

    fn condition(&mut self, levels: u64) -> String {
        match self.below(if levels == 0 { 2 } else { 5 }) {
            0..=2 => format!("r{}", self.below(3)),
            3 => format!("({}|{})", self.condition(levels - 1), self.condition(levels - 1)),
            _ => format!("({}&{})", self.condition(levels - 1), self.condition(levels - 1)),
        }
    }

    fn board(&mut self) -> String {
        let aar = self.once_in(2);
        let mut text = format!("RBD 1\nregime {}\n", if aar { "aar" } else { "aatu" });
        let targets = if aar { 1 } else { 0 };
        for user in 0..4 {
            for role in 0..3 {
                if self.once_in(4) || (aar && role == 0 && user == 3) {
                    writeln!(text, "ua u{user} r{role}").unwrap();
                }
            }
            if !aar && self.once_in(4) {
                writeln!(text, "trust u{user}").unwrap();
            }
        }
        for senior in 0..3 {
            for junior in 0..3 {
                if (senior + 1) % 3 == junior && self.once_in(4) {
                    writeln!(text, "rh r{senior} r{junior}").unwrap();
                }
            }
        }
        for permission in 0..2 {
            writeln!(text, "pa p{permission} r{}", self.below(3)).unwrap();
        }
        for _ in 0..self.below(4) {
            let admin = if aar { 0 } else { self.below(3) };
            let condition = if self.once_in(4) { "true".into() } else { self.condition(2) };
            writeln!(text, "assign r{admin} : {condition} : r{}", targets + self.below(3 - targets)).unwrap();
        }
        if aar {
            for role in 1..3 {
                writeln!(text, "revoke r0 : r{role}").unwrap();
            }
        }
        text
    }

    fn question(&mut self) -> String {
        let kind = if self.once_in(2) { "possible" } else { "necessary" };
        let still = self.once_in(2);
        format!("{kind} {} >= {}", self.set(still, 2), self.set(!still, 2))
    }
}

/// A state: bit 3u + r says that role r is assigned to user u.
type State = u32;

struct World<'a> {
    board: &'a Board,
}

impl World<'_> {
    fn present(&self) -> State {
        let assigned = |user: u16, role: u8| self.board.rows.get(&user).is_some_and(|row| row >> role & 1 == 1);
        pairs().filter(|(user, role)| assigned(*user, *role)).map(|(user, role)| bit(user, role)).sum()
    }

    fn senior(&self, high: u8, low: u8) -> bool {
        high == low || (0..ROLES).any(|between| self.board.juniors[usize::from(high)] >> between & 1 == 1 && self.senior(between, low))
    }

    fn member(&self, state: State, user: u16, role: u8) -> bool {
        (0..ROLES).any(|assigned| state & bit(user, assigned) != 0 && self.senior(assigned, role))
    }

    fn has(&self, state: State, set: &Set, user: u16) -> bool {
        match set {
            Set::Role(role) => self.member(state, user, *role),
            Set::Permission(permission) => (0..ROLES).any(|role| self.board.given[usize::from(*permission)] >> role & 1 == 1 && self.member(state, user, role)),
            Set::User(other) => user == *other,
            Set::Nobody => false,
            Set::Either(left, right) => self.has(state, left, user) || self.has(state, right, user),
            Set::Both(left, right) => self.has(state, left, user) && self.has(state, right, user),
        }
    }

    fn holds(&self, state: State, comparison: &Comparison) -> bool {
        (0..USERS).all(|user| !self.has(state, &comparison.smaller, user) || self.has(state, &comparison.larger, user))
    }

    fn permits(&self, state: State, user: u16, role: u8) -> bool {
        if state & bit(user, role) != 0 {
            return self.board.revoke.iter().any(|rule| rule.targets >> role & 1 == 1 && (0..USERS).any(|actor| self.member(state, actor, rule.admin)));
        }
        self.board.assign.iter().any(|rule| {
            let met = match &rule.condition {
                Condition::True => true,
                Condition::In(set) => self.has(state, set, user),
            };
            let acts = |actor| !self.board.trusted.contains(&actor) && self.member(state, actor, rule.admin);
            rule.targets >> role & 1 == 1 && met && (0..USERS).any(acts)
        })
    }

    fn reached(&self) -> Vec<State> {
        let mut seen = vec![false; 1 << (USERS * u16::from(ROLES))];
        let mut states = vec![self.present()];
        seen[states[0] as usize] = true;
        let mut next = 0;
        while let Some(state) = states.get(next).copied() {
            next += 1;
            for (user, role) in pairs() {
                let after = state ^ bit(user, role);
                if !seen[after as usize] && self.permits(state, user, role) {
                    seen[after as usize] = true;
                    states.push(after);
                }
            }
        }
        states
    }
}

fn pairs() -> impl Iterator<Item = (u16, u8)> {
    (0..USERS).flat_map(|user| (0..ROLES).map(move |role| (user, role)))
}

fn bit(user: u16, role: u8) -> State {
    1 << (3 * user + u16::from(role))
}

#[test]
fn verdicts_are_exact() {
    let mut numbers = Numbers(0x9e37_79b9_7f4a_7c15);
    let mut counts = [[[0; 2]; 2]; 2];
    let mut opened = 0;
    while opened < 300 {
        let text = numbers.board();
        let Ok(board) = open(text.as_bytes()) else {
            continue;
        };
        opened += 1;
        let world = World { board: &board };
        let states = world.reached();
        for _ in 0..12 {
            let words = numbers.question();
            let asked = question(words.as_bytes()).unwrap_or_else(|number| panic!("{words} is refused {number}"));
            let mut truths = states.iter().map(|state| world.holds(*state, &asked.comparison));
            let yes = match asked.kind {
                Kind::Possible => truths.any(|truth| truth),
                Kind::Necessary => truths.all(|truth| truth),
            };
            let verdict = decide(&board, asked.kind, &asked.comparison);
            assert_eq!(verdict.yes, yes, "{words}\n{text}");
            let input = format!("{words}\n{text}");
            let report = plain::report::report(input.as_bytes());
            assert_eq!(plain::check::check(input.as_bytes(), report.as_bytes()), Ok(()), "{report}\n{input}");
            counts[usize::from(board.regime == Regime::Aar)][usize::from(asked.kind == Kind::Possible)][usize::from(yes)] += 1;
        }
    }
    println!("{counts:?}");
    assert!(counts.as_flattened().as_flattened().iter().all(|count| *count >= 50), "{counts:?}");
}
