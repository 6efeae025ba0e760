//! Whether a printed report may stand: it is played by the definitions, step after step.
//!
//! Nothing here knows how a verdict is found. Only the verdict itself, or the refusal, is compared with this program's own.

use crate::board::{open, read_question, Board};
use crate::decide::{Step, Way};
use crate::report::{answer, parts, refusal_line, verdict_words};
use crate::set::{Comparison, Set};
use crate::text::{number, Kind};
use std::collections::{BTreeMap, BTreeSet};

const LONGEST_RUN: usize = 8_512;

/// Says what is wrong with a report.
pub fn check(input: &[u8], report: &[u8]) -> Result<(), String> {
    let mut lines = lines(report)?;
    let first = lines.remove(0);
    let (kind, verdict) = match answer(input) {
        Err(refused) => {
            let own = refusal_line(refused);
            let same = lines.is_empty() && own.trim_end() == first;
            return same.then_some(()).ok_or(format!("the report says '{first}', and this program '{}'", own.trim_end()));
        }
        Ok(answer) => answer,
    };
    let own = verdict_words(kind, verdict.yes);
    let Some(rest) = first.strip_prefix(own) else {
        return Err(format!("the report says '{first}', and this program '{own}'"));
    };
    if verdict.yes != (kind == Kind::Possible) {
        let silent = rest.is_empty() && lines.is_empty();
        return silent.then_some(()).ok_or(format!("more than '{own}' is said where no run is due"));
    }
    let length = rest.strip_prefix(' ').and_then(|count| number(count.as_bytes()));
    if length != Some(lines.len() as u32) {
        return Err(format!("'{first}' is followed by {} steps", lines.len()));
    }
    let steps = lines.iter().map(|line| step(line).ok_or(format!("'{line}' is no step"))).collect::<Result<Vec<_>, _>>()?;
    let (question, text) = parts(input);
    let board = open(text).map_err(refusal_line)?;
    let comparison = read_question(question).map_err(refusal_line)?.comparison;
    named_users(&board, &comparison, &steps)?;
    Play::new(&board).shows(&comparison, kind == Kind::Possible, &steps)
}

fn lines(report: &[u8]) -> Result<Vec<&str>, String> {
    let text = std::str::from_utf8(report).map_err(|_| "the report is no text")?;
    let text = text.strip_suffix('\n').ok_or("the report does not end with byte 10")?;
    Ok(text.split('\n').collect())
}

fn step(line: &str) -> Option<Step> {
    let fields: Vec<&str> = line.split(' ').collect();
    let [actor, way, user, role, "rule", rule] = fields[..] else {
        return None;
    };
    let numbered = |word: &str, letter| number(word.strip_prefix(letter)?.as_bytes());
    Some(Step {
        actor: u16::try_from(numbered(actor, 'u')?).ok()?,
        way: match way {
            "adds" => Way::Adds,
            "removes" => Way::Removes,
            _ => return None,
        },
        user: u16::try_from(numbered(user, 'u')?).ok()?,
        role: u8::try_from(numbered(role, 'r')?).ok().filter(|role| *role < 64)?,
        rule: number(rule.as_bytes())? as usize,
    })
}

/// A run names users with a row, users in the question and one other; it is not too long, and all its steps are of one kind.
fn named_users(board: &Board, comparison: &Comparison, steps: &[Step]) -> Result<(), String> {
    if steps.len() > LONGEST_RUN {
        return Err(format!("{} steps are too many", steps.len()));
    }
    if steps.iter().any(|step| step.way != steps[0].way) {
        return Err("some steps add and some remove".into());
    }
    let known = comparison.named();
    let mut others: BTreeSet<u16> = steps.iter().flat_map(|step| [step.actor, step.user]).collect();
    others.retain(|user| !board.rows.contains_key(user) && !known.contains(user));
    if others.len() > 1 {
        return Err(format!("the run names {} users without a row who are not in the question", others.len()));
    }
    Ok(())
}

/// A state of the board: the assigned roles of each user, one by one.
struct Play<'a> {
    board: &'a Board,
    state: BTreeMap<u16, BTreeSet<u8>>,
    seniors: Vec<BTreeSet<u8>>,
}

impl<'a> Play<'a> {
    fn new(board: &'a Board) -> Self {
        let roles = |mask: u64| (0..64).filter(|role| mask >> role & 1 == 1).collect::<BTreeSet<u8>>();
        let juniors: Vec<_> = board.juniors.iter().map(|mask| roles(*mask)).collect();
        Play {
            board,
            state: board.rows.iter().map(|(user, mask)| (*user, roles(*mask))).collect(),
            seniors: (0..64).map(|role| seniors(role, &juniors)).collect(),
        }
    }

    /// Plays the run, and looks where the question first has the truth that is sought. A step can only change what its user is in.
    fn shows(mut self, comparison: &Comparison, sought: bool, steps: &[Step]) -> Result<(), String> {
        let mut breaking: BTreeSet<u16> = (0..=u16::MAX).filter(|user| !self.kept_by(comparison, *user)).collect();
        for (count, step) in steps.iter().enumerate() {
            if breaking.is_empty() == sought {
                return Err(format!("the verdict is shown after {count} of {} steps already", steps.len()));
            }
            self.permits(step).map_err(|why| format!("step {} is not permitted: {why}", count + 1))?;
            let roles = self.state.entry(step.user).or_default();
            match step.way {
                Way::Adds => roles.insert(step.role),
                Way::Removes => roles.remove(&step.role),
            };
            if self.kept_by(comparison, step.user) {
                breaking.remove(&step.user);
            } else {
                breaking.insert(step.user);
            }
        }
        let shown = (0..=u16::MAX).all(|user| self.kept_by(comparison, user)) == sought;
        shown.then_some(()).ok_or("the end of the run does not show the verdict".into())
    }

    fn permits(&self, step: &Step) -> Result<(), &'static str> {
        let has = self.state.get(&step.user).is_some_and(|roles| roles.contains(&step.role));
        let number = step.rule.checked_sub(1).ok_or("rules are numbered from 1")?;
        let (admin, targets) = match step.way {
            Way::Adds if has => return Err("the role is assigned already"),
            Way::Removes if !has => return Err("the role is not assigned"),
            Way::Adds => {
                let rule = self.board.assign.get(number).ok_or("there is no such assign rule")?;
                let met = match &rule.condition {
                    crate::set::Condition::True => true,
                    crate::set::Condition::In(set) => self.is_in(set, step.user),
                };
                if self.board.trusted.contains(&step.actor) {
                    return Err("the actor is trusted");
                }
                if !met {
                    return Err("the user does not meet the condition");
                }
                (rule.admin, rule.targets)
            }
            Way::Removes => {
                let rule = self.board.revoke.get(number).ok_or("there is no such revoke rule")?;
                (rule.admin, rule.targets)
            }
        };
        if targets >> step.role & 1 == 0 {
            return Err("the role is no target of the rule");
        }
        if !self.is_member(step.actor, admin) {
            return Err("the actor is no member of the administering role");
        }
        Ok(())
    }

    fn is_member(&self, user: u16, role: u8) -> bool {
        self.state.get(&user).is_some_and(|roles| !roles.is_disjoint(&self.seniors[usize::from(role)]))
    }

    fn is_in(&self, set: &Set, user: u16) -> bool {
        match set {
            Set::Role(role) => self.is_member(user, *role),
            Set::Permission(permission) => (0..64).any(|role| self.board.given[usize::from(*permission)] >> role & 1 == 1 && self.is_member(user, role)),
            Set::User(other) => *other == user,
            Set::Nobody => false,
            Set::Either(left, right) => self.is_in(left, user) || self.is_in(right, user),
            Set::Both(left, right) => self.is_in(left, user) && self.is_in(right, user),
        }
    }

    fn kept_by(&self, comparison: &Comparison, user: u16) -> bool {
        !self.is_in(&comparison.smaller, user) || self.is_in(&comparison.larger, user)
    }
}

/// A role and all roles from which a chain of edges leads down to it.
fn seniors(role: u8, juniors: &[BTreeSet<u8>]) -> BTreeSet<u8> {
    let mut found = BTreeSet::from([role]);
    loop {
        let more: BTreeSet<u8> = (0..64).filter(|senior| !juniors[usize::from(*senior)].is_disjoint(&found)).collect();
        let before = found.len();
        found.extend(more);
        if found.len() == before {
            return found;
        }
    }
}
