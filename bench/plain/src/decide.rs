//! Verdicts about questions, each exact over all runs and all users.
//!
//! A question with a static smaller side only becomes true as roles are added, one with a static larger side only becomes false. So it is enough to add as long as anything can be added, or to remove all that can be removed, and to stop where the question first has the truth that shows the verdict. Users without a row whom the question does not name are alike, and one of them who is not trusted stands for all.

use crate::board::{Board, Regime};
use crate::set::{each, only, Comparison, Roles, ROLES};
use crate::text::Kind;
use std::collections::BTreeSet;

#[derive(Debug, Clone, Copy, PartialEq, Eq)]
pub enum Way {
    Adds,
    Removes,
}

#[derive(Debug, Clone, Copy, PartialEq, Eq)]
pub struct Step {
    pub actor: u16,
    pub way: Way,
    pub user: u16,
    pub role: u8,
    /// Counted from 1 among the rules of its kind.
    pub rule: usize,
}

#[derive(Debug, Clone, PartialEq, Eq)]
pub struct Verdict {
    pub yes: bool,
    /// Shows 'possible yes' or 'necessary no'.
    pub run: Option<Vec<Step>>,
}

pub fn decide(board: &Board, kind: Kind, comparison: &Comparison) -> Verdict {
    let sought = kind == Kind::Possible;
    let run = Search::new(board, comparison, sought).run();
    Verdict { yes: run.is_some() == sought, run }
}

struct Player {
    user: u16,
    assigned: Roles,
    member: Roles,
    acts: bool,
    /// Whether the user is in the static side.
    still: bool,
    /// Whether the question is false because of this user.
    breaks: bool,
}

struct Search<'a> {
    board: &'a Board,
    comparison: &'a Comparison,
    /// Whether the smaller side is the static one, so that adding makes the question true.
    grows: bool,
    /// The truth of the question that shows the verdict.
    sought: bool,
    players: Vec<Player>,
    /// For each role a member of it who may act.
    actors: [Option<u16>; ROLES],
    breaking: usize,
    steps: Vec<Step>,
}

impl<'a> Search<'a> {
    fn new(board: &'a Board, comparison: &'a Comparison, sought: bool) -> Self {
        let mut users: BTreeSet<u16> = board.rows.keys().copied().collect();
        users.extend(comparison.named());
        users.extend((0..=u16::MAX).find(|user| !users.contains(user) && !board.trusted.contains(user)));
        let grows = comparison.smaller.is_static();
        let fixed = if grows { &comparison.smaller } else { &comparison.larger };
        let mut search =
            Search { board, comparison, grows, sought, players: Vec::with_capacity(users.len()), actors: [None; ROLES], breaking: 0, steps: Vec::new() };
        for user in users {
            let assigned = board.rows.get(&user).copied().unwrap_or(0);
            let acts = !board.trusted.contains(&user);
            let still = fixed.has(user, 0, &board.given);
            search.players.push(Player { user, assigned: 0, member: 0, acts, still, breaks: false });
            search.set_row(search.players.len() - 1, assigned, search.member(assigned));
        }
        search
    }

    fn run(mut self) -> Option<Vec<Step>> {
        let shown = self.shown() || if self.grows == self.sought { self.add_all() } else { self.remove_all() };
        shown.then_some(self.steps)
    }

    fn shown(&self) -> bool {
        (self.breaking == 0) == self.sought
    }

    /// Adds until the verdict is shown, or nothing more can be added.
    fn add_all(&mut self) -> bool {
        loop {
            let before = self.steps.len();
            for rule in 0..self.board.assign.len() {
                if self.add_by(rule) {
                    return true;
                }
            }
            if self.steps.len() == before {
                return false;
            }
        }
    }

    /// Adds what one rule now permits.
    fn add_by(&mut self, number: usize) -> bool {
        let rule = &self.board.assign[number];
        let Some(actor) = self.actors[usize::from(rule.admin)] else {
            return false;
        };
        for at in 0..self.players.len() {
            let player = &self.players[at];
            let missing = rule.targets & !player.assigned;
            if missing == 0 || !rule.condition.met(player.member) {
                continue;
            }
            for role in each(missing) {
                let Player { user, assigned, member, .. } = self.players[at];
                self.steps.push(Step { actor, way: Way::Adds, user, role, rule: number + 1 });
                self.set_row(at, assigned | only(role), member | self.board.below[usize::from(role)]);
                if self.shown() {
                    return true;
                }
            }
        }
        false
    }

    /// Removes until the verdict is shown, or nothing more can be removed. Under this regime an administering role is no target, so whoever it is assigned to keeps it.
    fn remove_all(&mut self) -> bool {
        if self.board.regime == Regime::Aatu {
            return false;
        }
        for (number, rule) in (1..).zip(&self.board.revoke) {
            let Some(actor) = self.players.iter().find(|player| player.assigned & only(rule.admin) != 0).map(|player| player.user) else {
                continue;
            };
            for at in 0..self.players.len() {
                for role in each(self.players[at].assigned & rule.targets) {
                    let Player { user, assigned, .. } = self.players[at];
                    self.steps.push(Step { actor, way: Way::Removes, user, role, rule: number });
                    let assigned = assigned & !only(role);
                    self.set_row(at, assigned, self.member(assigned));
                    if self.shown() {
                        return true;
                    }
                }
            }
        }
        false
    }

    /// The roles of which a user with these assigned roles is a member.
    fn member(&self, assigned: Roles) -> Roles {
        each(assigned).fold(0, |member, role| member | self.board.below[usize::from(role)])
    }

    fn set_row(&mut self, at: usize, assigned: Roles, member: Roles) {
        let player = &mut self.players[at];
        let breaks = if self.grows {
            player.still && !self.comparison.larger.has(player.user, member, &self.board.given)
        } else {
            !player.still && self.comparison.smaller.has(player.user, member, &self.board.given)
        };
        self.breaking = self.breaking + usize::from(breaks) - usize::from(player.breaks);
        if player.acts {
            for role in each(member & !player.member) {
                self.actors[usize::from(role)].get_or_insert(player.user);
            }
        }
        player.assigned = assigned;
        player.member = member;
        player.breaks = breaks;
    }
}
