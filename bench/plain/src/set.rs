//! Sets of users and conditions: trees, and who is in them.

use std::collections::BTreeSet;

/// A set of roles; bit r stands for role r.
pub type Roles = u64;

pub const ROLES: usize = 64;
pub const PERMISSIONS: usize = 32;

/// The roles to which each permission is given.
pub type Given = [Roles; PERMISSIONS];

/// The set with one role in it.
pub fn only(role: u8) -> Roles {
    1 << role
}

/// The roles of a set, from the lowest up.
pub fn each(mut roles: Roles) -> impl Iterator<Item = u8> {
    std::iter::from_fn(move || {
        let lowest = (roles != 0).then(|| roles.trailing_zeros() as u8)?;
        roles &= roles - 1;
        Some(lowest)
    })
}

/// A set of users.
#[derive(Debug, Clone, PartialEq, Eq)]
pub enum Set {
    Role(u8),
    Permission(u8),
    User(u16),
    Nobody,
    Either(Box<Set>, Box<Set>),
    Both(Box<Set>, Box<Set>),
}

impl Set {
    /// Whether the set is the same in every state.
    pub fn is_static(&self) -> bool {
        match self {
            Set::Role(_) | Set::Permission(_) => false,
            Set::User(_) | Set::Nobody => true,
            Set::Either(left, right) | Set::Both(left, right) => left.is_static() && right.is_static(),
        }
    }

    /// Puts the users that the set names with the others.
    pub fn named(&self, users: &mut BTreeSet<u16>) {
        match self {
            Set::User(user) => {
                users.insert(*user);
            }
            Set::Either(left, right) | Set::Both(left, right) => {
                left.named(users);
                right.named(users);
            }
            Set::Role(_) | Set::Permission(_) | Set::Nobody => {}
        }
    }

    /// Whether a user who is a member of these roles is in the set.
    pub fn has(&self, user: u16, member: Roles, given: &Given) -> bool {
        match self {
            Set::Role(role) => member & only(*role) != 0,
            Set::Permission(permission) => member & given[usize::from(*permission)] != 0,
            Set::User(other) => user == *other,
            Set::Nobody => false,
            Set::Either(left, right) => left.has(user, member, given) || right.has(user, member, given),
            Set::Both(left, right) => left.has(user, member, given) && right.has(user, member, given),
        }
    }
}

/// What a user has to meet to be given a role.
#[derive(Debug, Clone, PartialEq, Eq)]
pub enum Condition {
    True,
    /// A set of roles alone.
    In(Set),
}

impl Condition {
    /// Whether a member of these roles meets it.
    pub fn met(&self, member: Roles) -> bool {
        match self {
            Condition::True => true,
            Condition::In(set) => meets(set, member),
        }
    }
}

fn meets(set: &Set, member: Roles) -> bool {
    match set {
        Set::Role(role) => member & only(*role) != 0,
        Set::Either(left, right) => meets(left, member) || meets(right, member),
        Set::Both(left, right) => meets(left, member) && meets(right, member),
        Set::Permission(_) | Set::User(_) | Set::Nobody => false,
    }
}

/// `larger >= smaller`.
#[derive(Debug, Clone, PartialEq, Eq)]
pub struct Comparison {
    pub larger: Set,
    pub smaller: Set,
}

impl Comparison {
    /// The users that either side names.
    pub fn named(&self) -> BTreeSet<u16> {
        let mut users = BTreeSet::new();
        self.larger.named(&mut users);
        self.smaller.named(&mut users);
        users
    }
}
