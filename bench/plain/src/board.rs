//! A board, opened from its text.

use crate::decide::decide;
use crate::set::{each, only, Comparison, Condition, Given, Roles, PERMISSIONS, ROLES};
use crate::text::{self, Kind, Line, Question};
use std::collections::{BTreeMap, BTreeSet, HashSet};
use std::hash::Hash;

const LONGEST: usize = 65_536;
const LONGEST_QUESTION: usize = 1_024;
const ROWS: usize = 100;
const ASSIGN_RULES: usize = 32;
const REVOKE_RULES: usize = 16;
const TRUSTED_USERS: usize = 32;
const REQUIREMENTS: usize = 16;

#[derive(Debug, Clone, Copy, PartialEq, Eq)]
pub struct Refused {
    pub number: u8,
    pub line: usize,
}

#[derive(Debug, Clone, Copy, PartialEq, Eq)]
pub enum Regime {
    Aatu,
    Aar,
}

#[derive(Debug, Clone, PartialEq, Eq)]
pub struct AssignRule {
    pub admin: u8,
    pub condition: Condition,
    pub targets: Roles,
}

#[derive(Debug, Clone, PartialEq, Eq)]
pub struct RevokeRule {
    pub admin: u8,
    pub targets: Roles,
}

#[derive(Debug, Clone, PartialEq, Eq)]
pub enum Requirement {
    Always(Comparison),
    Never(Comparison),
}

#[derive(Debug, Clone)]
pub struct Board {
    pub regime: Regime,
    /// The assigned roles of each user who has any.
    pub rows: BTreeMap<u16, Roles>,
    pub given: Given,
    /// The roles to which each role is directly senior.
    pub juniors: [Roles; ROLES],
    /// Each role and all that a chain of edges leads down to from it.
    pub below: [Roles; ROLES],
    pub trusted: BTreeSet<u16>,
    pub assign: Vec<AssignRule>,
    pub revoke: Vec<RevokeRule>,
    pub requirements: Vec<Requirement>,
}

/// Opens a board text.
pub fn open(text: &[u8]) -> Result<Board, Refused> {
    if text.len() > LONGEST {
        return Err(Refused { number: 1, line: 0 });
    }
    let rest = text.strip_prefix(b"RBD 1\n").ok_or(Refused { number: 2, line: 1 })?;
    let mut lines = rest.split_inclusive(|byte| *byte == b'\n');
    let regime = match lines.next() {
        Some(b"regime aatu\n") => Regime::Aatu,
        Some(b"regime aar\n") => Regime::Aar,
        _ => return Err(Refused { number: text::SYNTAX, line: 2 }),
    };
    let mut board = Board::new(regime);
    for (line, bytes) in (3..).zip(lines) {
        let refused = |number| Refused { number, line };
        let bytes = bytes.strip_suffix(b"\n").ok_or(refused(text::SYNTAX))?;
        board.enter(text::line(bytes).map_err(refused)?).map_err(refused)?;
    }
    match board.fault() {
        Some(number) => Err(Refused { number, line: 0 }),
        None => Ok(board),
    }
}

/// Reads a question that stands alone.
pub fn read_question(text: &[u8]) -> Result<Question, Refused> {
    if text.len() > LONGEST_QUESTION {
        return Err(Refused { number: 1, line: 0 });
    }
    text::question(text).map_err(|number| Refused { number, line: 1 })
}

impl Board {
    pub fn new(regime: Regime) -> Self {
        Board {
            regime,
            rows: BTreeMap::new(),
            given: [0; PERMISSIONS],
            juniors: [0; ROLES],
            below: std::array::from_fn(|role| 1 << role),
            trusted: BTreeSet::new(),
            assign: Vec::new(),
            revoke: Vec::new(),
            requirements: Vec::new(),
        }
    }

    /// Puts in what a line names, or says the smallest number that is against it.
    fn enter(&mut self, line: Line) -> Result<(), u8> {
        match line {
            Line::Assigned { user, roles } => {
                let row = self.rows.get(&user).copied().unwrap_or(0);
                let roles = new_roles(row, &roles)?;
                room(row != 0 || self.rows.len() < ROWS)?;
                self.rows.insert(user, row | roles);
            }
            Line::Given { permission, roles } => {
                let given = &mut self.given[usize::from(permission)];
                *given |= new_roles(*given, &roles)?;
            }
            Line::Seniors { senior, juniors } => {
                let juniors = new_roles(self.juniors[usize::from(senior)], &juniors)?;
                let more = each(juniors).fold(0, |roles, junior| roles | self.below[usize::from(junior)]);
                if more & only(senior) != 0 {
                    return Err(14);
                }
                self.juniors[usize::from(senior)] |= juniors;
                for below in self.below.iter_mut().filter(|below| **below & only(senior) != 0) {
                    *below |= more;
                }
            }
            Line::Trust { users } => {
                allowed(self.regime == Regime::Aatu)?;
                fresh(!twice(&users) && !users.iter().any(|user| self.trusted.contains(user)))?;
                room(self.trusted.len() + users.len() <= TRUSTED_USERS)?;
                self.trusted.extend(users);
            }
            Line::Assign { admin, condition, targets } => {
                let targets = new_roles(0, &targets)?;
                put(&mut self.assign, AssignRule { admin, condition, targets }, ASSIGN_RULES)?;
            }
            Line::Revoke { admin, targets } => {
                allowed(self.regime == Regime::Aar)?;
                let targets = new_roles(0, &targets)?;
                put(&mut self.revoke, RevokeRule { admin, targets }, REVOKE_RULES)?;
            }
            Line::Always(comparison) => put(&mut self.requirements, Requirement::Always(comparison), REQUIREMENTS)?,
            Line::Never(comparison) => put(&mut self.requirements, Requirement::Never(comparison), REQUIREMENTS)?,
        }
        Ok(())
    }

    pub fn revocable(&self) -> Roles {
        self.revoke.iter().fold(0, |roles, rule| roles | rule.targets)
    }

    /// The smallest number that is against the board as a whole.
    fn fault(&self) -> Option<u8> {
        if self.regime == Regime::Aar {
            let assignable = self.assign.iter().fold(0, |roles, rule| roles | rule.targets);
            let admins = self.assign.iter().map(|rule| rule.admin).chain(self.revoke.iter().map(|rule| rule.admin));
            let admins = admins.fold(0, |roles, admin| roles | only(admin));
            let assigned = self.rows.values().fold(0, |roles, row| roles | row);
            if admins & (assignable | self.revocable()) != 0 {
                return Some(15);
            }
            if admins & !assigned != 0 {
                return Some(16);
            }
            if assignable & !self.revocable() != 0 {
                return Some(17);
            }
        }
        self.requirements.iter().any(|requirement| !self.stands(requirement)).then_some(18)
    }

    fn stands(&self, requirement: &Requirement) -> bool {
        match requirement {
            Requirement::Always(comparison) => decide(self, Kind::Necessary, comparison).yes,
            Requirement::Never(comparison) => !decide(self, Kind::Possible, comparison).yes,
        }
    }
}

/// The roles of a list, where it names none twice and none that is there already.
fn new_roles(there: Roles, list: &[u8]) -> Result<Roles, u8> {
    list.iter().try_fold(0, |roles, role| {
        fresh((there | roles) & only(*role) == 0)?;
        Ok(roles | only(*role))
    })
}

fn twice<T: Eq + Hash>(list: &[T]) -> bool {
    let mut seen = HashSet::new();
    !list.iter().all(|entry| seen.insert(entry))
}

fn put<T: PartialEq>(list: &mut Vec<T>, entry: T, most: usize) -> Result<(), u8> {
    fresh(!list.contains(&entry))?;
    room(list.len() < most)?;
    list.push(entry);
    Ok(())
}

fn allowed(test: bool) -> Result<(), u8> {
    test.then_some(()).ok_or(8)
}

fn fresh(test: bool) -> Result<(), u8> {
    test.then_some(()).ok_or(10)
}

fn room(test: bool) -> Result<(), u8> {
    test.then_some(()).ok_or(13)
}
