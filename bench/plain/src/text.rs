//! Lines of a board and questions, read from bytes.
//!
//! A fault of syntax comes before a number out of range, that before too many operands or levels, and that before a question with no static side, wherever in the line they stand. So a reader gives `None` for a fault of syntax, and notes the others while it reads on.

use crate::set::{Comparison, Condition, Set};

pub const SYNTAX: u8 = 3;
pub const RANGE: u8 = 4;
pub const MEASURE: u8 = 5;
pub const NOT_STATIC: u8 = 6;

const CONDITION_OPERANDS: usize = 16;
const QUESTION_OPERANDS: usize = 32;
const LEVELS: usize = 8;
const DIGITS: usize = 5;

#[derive(Debug, Clone, PartialEq, Eq)]
pub enum Line {
    Assigned { user: u16, roles: Vec<u8> },
    Given { permission: u8, roles: Vec<u8> },
    Seniors { senior: u8, juniors: Vec<u8> },
    Trust { users: Vec<u16> },
    Assign { admin: u8, condition: Condition, targets: Vec<u8> },
    Revoke { admin: u8, targets: Vec<u8> },
    Always(Comparison),
    Never(Comparison),
}

#[derive(Debug, Clone, Copy, PartialEq, Eq)]
pub enum Kind {
    Possible,
    Necessary,
}

#[derive(Debug, Clone, PartialEq, Eq)]
pub struct Question {
    pub kind: Kind,
    pub comparison: Comparison,
}

/// Reads a line of a board, without its byte 10.
pub fn line(bytes: &[u8]) -> Result<Line, u8> {
    Reading::of(bytes).answer(Reading::board_line)
}

/// Reads a question.
pub fn question(bytes: &[u8]) -> Result<Question, u8> {
    Reading::of(bytes).answer(Reading::question)
}

/// A line that is being read: the fields that are left, and the worst fault noted so far.
struct Reading<'a> {
    fields: std::slice::Split<'a, u8, fn(&u8) -> bool>,
    fault: Option<u8>,
}

impl<'a> Reading<'a> {
    fn of(bytes: &'a [u8]) -> Self {
        let blank: fn(&u8) -> bool = |byte| *byte == b' ';
        Reading { fields: bytes.split(blank), fault: None }
    }

    fn answer<T>(mut self, read: impl FnOnce(&mut Self) -> Option<T>) -> Result<T, u8> {
        match read(&mut self) {
            Some(value) if self.fields.next().is_none() => self.fault.map_or(Ok(value), Err),
            _ => Err(SYNTAX),
        }
    }

    fn note(&mut self, number: u8) {
        self.fault = Some(self.fault.map_or(number, |other| other.min(number)));
    }

    fn board_line(&mut self) -> Option<Line> {
        Some(match self.fields.next()? {
            b"ua" => Line::Assigned { user: self.user_field()?, roles: self.roles()? },
            b"pa" => Line::Given { permission: self.permission_field()?, roles: self.roles()? },
            b"rh" => Line::Seniors { senior: self.role_field()?, juniors: self.roles()? },
            b"trust" => Line::Trust { users: self.users()? },
            b"assign" => {
                let admin = self.role_field()?;
                self.sign(b":")?;
                let condition = self.condition()?;
                self.sign(b":")?;
                Line::Assign { admin, condition, targets: self.roles()? }
            }
            b"revoke" => {
                let admin = self.role_field()?;
                self.sign(b":")?;
                Line::Revoke { admin, targets: self.roles()? }
            }
            b"always" => Line::Always(self.comparison()?),
            b"never" => Line::Never(self.comparison()?),
            _ => return None,
        })
    }

    fn question(&mut self) -> Option<Question> {
        let kind = match self.fields.next()? {
            b"possible" => Kind::Possible,
            b"necessary" => Kind::Necessary,
            _ => return None,
        };
        Some(Question { kind, comparison: self.comparison()? })
    }

    fn sign(&mut self, sign: &[u8]) -> Option<()> {
        (self.fields.next()? == sign).then_some(())
    }

    fn user_field(&mut self) -> Option<u16> {
        let field = self.fields.next()?;
        self.user(field)
    }

    fn role_field(&mut self) -> Option<u8> {
        let field = self.fields.next()?;
        self.role(field)
    }

    fn permission_field(&mut self) -> Option<u8> {
        let field = self.fields.next()?;
        self.permission(field)
    }

    /// The list that ends a line.
    fn roles(&mut self) -> Option<Vec<u8>> {
        let mut roles = vec![self.role_field()?];
        while let Some(field) = self.fields.next() {
            roles.push(self.role(field)?);
        }
        Some(roles)
    }

    fn users(&mut self) -> Option<Vec<u16>> {
        let mut users = vec![self.user_field()?];
        while let Some(field) = self.fields.next() {
            users.push(self.user(field)?);
        }
        Some(users)
    }

    fn user(&mut self, bytes: &[u8]) -> Option<u16> {
        Some(self.numbered(bytes, b'u', 65_536)? as u16)
    }

    fn role(&mut self, bytes: &[u8]) -> Option<u8> {
        Some(self.numbered(bytes, b'r', 64)? as u8)
    }

    fn permission(&mut self, bytes: &[u8]) -> Option<u8> {
        Some(self.numbered(bytes, b'p', 32)? as u8)
    }

    /// A letter and a number below the end; 0 stands for one that is out of range.
    fn numbered(&mut self, bytes: &[u8], letter: u8, end: u32) -> Option<u32> {
        let (first, digits) = bytes.split_first()?;
        let number = number(digits).filter(|_| *first == letter)?;
        if number >= end {
            self.note(RANGE);
            return Some(0);
        }
        Some(number)
    }

    fn condition(&mut self) -> Option<Condition> {
        let field = self.fields.next()?;
        if field == b"true" {
            return Some(Condition::True);
        }
        let tokens = self.tokens(field)?;
        if tokens.iter().any(|token| matches!(token, Token::Permission(_) | Token::Users(_))) {
            return None;
        }
        let size = size(&tokens)?;
        Some(Condition::In(self.within(size, CONDITION_OPERANDS, &tokens)))
    }

    /// `A >= B`, one side of which is to be static.
    fn comparison(&mut self) -> Option<Comparison> {
        let field = self.fields.next()?;
        let larger = self.tokens(field)?;
        let larger_size = size(&larger)?;
        self.sign(b">=")?;
        let field = self.fields.next()?;
        let smaller = self.tokens(field)?;
        let smaller_size = size(&smaller)?;
        if larger_size.operands + smaller_size.operands > QUESTION_OPERANDS {
            self.note(MEASURE);
        }
        let comparison =
            Comparison { larger: self.within(larger_size, QUESTION_OPERANDS, &larger), smaller: self.within(smaller_size, QUESTION_OPERANDS, &smaller) };
        if !comparison.larger.is_static() && !comparison.smaller.is_static() {
            self.note(NOT_STATIC);
        }
        Some(comparison)
    }

    /// The tree of a well-formed set; nobody, where it has too many operands or levels.
    fn within(&mut self, size: Size, operands: usize, tokens: &[Token]) -> Set {
        if size.operands > operands || size.levels > LEVELS {
            self.note(MEASURE);
            return Set::Nobody;
        }
        let mut tokens = tokens.iter();
        set(&mut tokens)
    }

    fn tokens(&mut self, field: &[u8]) -> Option<Vec<Token>> {
        let mut tokens = Vec::new();
        let mut rest = field;
        while let Some(first) = rest.first() {
            let long = match first {
                b'r' | b'p' => 1 + rest[1..].iter().take_while(|byte| byte.is_ascii_digit()).count(),
                b'{' => 1 + rest.iter().position(|byte| *byte == b'}')?,
                _ => 1,
            };
            let (word, after) = rest.split_at(long);
            tokens.push(match first {
                b'r' => Token::Role(self.role(word)?),
                b'p' => Token::Permission(self.permission(word)?),
                b'{' if long == 2 => Token::Users(Vec::new()),
                b'{' => Token::Users(word[1..long - 1].split(|byte| *byte == b',').map(|user| self.user(user)).collect::<Option<_>>()?),
                b'(' => Token::Open,
                b')' => Token::Close,
                b'|' => Token::Either,
                b'&' => Token::Both,
                _ => return None,
            });
            rest = after;
        }
        Some(tokens)
    }
}

/// A number of one to five digits, without a leading zero but 0 itself.
pub fn number(digits: &[u8]) -> Option<u32> {
    let leading_zero = digits.len() > 1 && digits[0] == b'0';
    let fits = (1..=DIGITS).contains(&digits.len()) && digits.iter().all(u8::is_ascii_digit);
    (fits && !leading_zero).then(|| digits.iter().fold(0, |number, digit| number * 10 + u32::from(digit - b'0')))
}

enum Token {
    Role(u8),
    Permission(u8),
    Users(Vec<u16>),
    Open,
    Close,
    Either,
    Both,
}

#[derive(Clone, Copy)]
struct Size {
    operands: usize,
    levels: usize,
}

/// How many operands and levels a set has; none, where these words are no set. No depth is too much for it.
fn size(tokens: &[Token]) -> Option<Size> {
    let mut size = Size { operands: 0, levels: 0 };
    let mut depth = 0;
    let mut operand_due = true;
    for token in tokens {
        match token {
            Token::Role(_) | Token::Permission(_) | Token::Users(_) if !operand_due => return None,
            Token::Open if !operand_due => return None,
            Token::Close | Token::Either | Token::Both if operand_due => return None,
            Token::Role(_) | Token::Permission(_) => {
                size.operands += 1;
                operand_due = false;
            }
            Token::Users(users) => {
                size.operands += users.len().max(1);
                size.levels = size.levels.max(depth + usize::from(users.len() > 1));
                operand_due = false;
            }
            Token::Open => {
                depth += 1;
                size.levels = size.levels.max(depth);
            }
            Token::Close if depth == 0 => return None,
            Token::Close => depth -= 1,
            Token::Either | Token::Both => operand_due = true,
        }
    }
    (!operand_due && depth == 0).then_some(size)
}

type Tokens<'a> = std::slice::Iter<'a, Token>;

// The three readers of a set see well-formed ones alone, of few levels.

fn set(tokens: &mut Tokens) -> Set {
    let mut left = term(tokens);
    while let Some(Token::Either) = tokens.as_slice().first() {
        tokens.next();
        left = Set::Either(Box::new(left), Box::new(term(tokens)));
    }
    left
}

fn term(tokens: &mut Tokens) -> Set {
    let mut left = factor(tokens);
    while let Some(Token::Both) = tokens.as_slice().first() {
        tokens.next();
        left = Set::Both(Box::new(left), Box::new(factor(tokens)));
    }
    left
}

fn factor(tokens: &mut Tokens) -> Set {
    match tokens.next() {
        Some(Token::Role(role)) => Set::Role(*role),
        Some(Token::Permission(permission)) => Set::Permission(*permission),
        Some(Token::Users(users)) => {
            users.iter().map(|user| Set::User(*user)).reduce(|left, right| Set::Either(Box::new(left), Box::new(right))).unwrap_or(Set::Nobody)
        }
        Some(Token::Open) => {
            let inner = set(tokens);
            tokens.next();
            inner
        }
        _ => unreachable!("a set of this form was found well formed"),
    }
}
