//! Expressions: syntax, the reader with faults 3, 18 and 19, writing and evaluation.

use crate::refusal::{self, require, Refusal};

/// The operator bytes.
pub mod operator {
    pub const LITERAL: u8 = 0;
    pub const OWN: u8 = 1;
    pub const FAR: u8 = 2;
    pub const SUM: u8 = 3;
    pub const DIFFERENCE: u8 = 4;
    pub const PRODUCT: u8 = 5;
    pub const NEGATION: u8 = 6;
    pub const FALSE: u8 = 16;
    pub const TRUE: u8 = 17;
    pub const NOT: u8 = 18;
    pub const AND: u8 = 19;
    pub const OR: u8 = 20;
    pub const LESS: u8 = 21;
    pub const EQUAL: u8 = 22;
}
use operator::*;

/// An expression that gives a number.
#[derive(Clone, Debug, PartialEq, Eq)]
pub enum Number {
    Literal(i32),
    Own(u8),
    Far(u8),
    Sum(Box<Number>, Box<Number>),
    Difference(Box<Number>, Box<Number>),
    Product(Box<Number>, Box<Number>),
    Negation(Box<Number>),
}

/// An expression that gives a truth.
#[derive(Clone, Debug, PartialEq, Eq)]
pub enum Truth {
    False,
    True,
    Not(Box<Truth>),
    And(Box<Truth>, Box<Truth>),
    Or(Box<Truth>, Box<Truth>),
    Less(Box<Number>, Box<Number>),
    Equal(Box<Number>, Box<Number>),
}

/// Which channels an expression may name where it stands.
#[derive(Clone, Copy, Debug)]
pub struct Scope {
    /// Known channels are those below this.
    pub channels: usize,
    /// Whether far channels may stand here.
    pub far: bool,
}

/// What both kinds of expression have in common.
pub trait Expression: Sized {
    fn read(reader: &mut Reader) -> Result<Self, Refusal>;
    fn write(&self, bytes: &mut Vec<u8>);

    /// The expression that the bytes from `start` on are, all of them, or the first fault. Its
    /// place is the offset among all bytes.
    fn read_whole(bytes: &[u8], start: usize, scope: Scope) -> Result<Self, Refusal> {
        let mut reader = Reader { bytes, at: start, scope };
        let expression = Self::read(&mut reader)?;
        require(reader.at == bytes.len(), Refusal::at(refusal::WRONG_END, reader.at))?;
        Ok(expression)
    }

    fn encode(&self) -> Vec<u8> {
        let mut bytes = Vec::new();
        self.write(&mut bytes);
        bytes
    }
}

/// Bytes up to the end of an expression, and the offset of the next unread one.
pub struct Reader<'a> {
    bytes: &'a [u8],
    at: usize,
    scope: Scope,
}

impl Reader<'_> {
    fn byte(&mut self) -> Result<u8, Refusal> {
        let missing = Refusal::at(refusal::WRONG_END, self.at);
        let byte = *self.bytes.get(self.at).ok_or(missing)?;
        self.at += 1;
        Ok(byte)
    }

    /// A byte that must be a known one.
    fn known_byte(&mut self, known: impl Fn(u8) -> bool) -> Result<u8, Refusal> {
        let unknown = Refusal::at(refusal::UNKNOWN_BYTE, self.at);
        let byte = self.byte()?;
        require(known(byte), unknown)?;
        Ok(byte)
    }

    fn operator(&mut self) -> Result<u8, Refusal> {
        self.known_byte(|byte| matches!(byte, LITERAL..=NEGATION | FALSE..=EQUAL))
    }

    fn channel(&mut self) -> Result<u8, Refusal> {
        let channels = self.scope.channels;
        self.known_byte(|byte| usize::from(byte) < channels)
    }

    fn literal(&mut self) -> Result<i32, Refusal> {
        Ok(i32::from_le_bytes([self.byte()?, self.byte()?, self.byte()?, self.byte()?]))
    }

    fn operand<E: Expression>(&mut self) -> Result<E, Refusal> {
        E::read(self)
    }

    /// The operator that was just read may not stand there.
    fn wrong_type(&self) -> Refusal {
        Refusal::at(refusal::WRONG_TYPE, self.at - 1)
    }
}

/// Operands stand behind a box.
impl<E: Expression> Expression for Box<E> {
    fn read(reader: &mut Reader) -> Result<Box<E>, Refusal> {
        E::read(reader).map(Box::new)
    }

    fn write(&self, bytes: &mut Vec<u8>) {
        E::write(self, bytes);
    }
}

impl Expression for Number {
    fn read(reader: &mut Reader) -> Result<Number, Refusal> {
        Ok(match reader.operator()? {
            LITERAL => Number::Literal(reader.literal()?),
            OWN => Number::Own(reader.channel()?),
            FAR if reader.scope.far => Number::Far(reader.channel()?),
            SUM => Number::Sum(reader.operand()?, reader.operand()?),
            DIFFERENCE => Number::Difference(reader.operand()?, reader.operand()?),
            PRODUCT => Number::Product(reader.operand()?, reader.operand()?),
            NEGATION => Number::Negation(reader.operand()?),
            _ => return Err(reader.wrong_type()),
        })
    }

    fn write(&self, bytes: &mut Vec<u8>) {
        match self {
            Number::Literal(value) => {
                bytes.push(LITERAL);
                bytes.extend(value.to_le_bytes());
            }
            Number::Own(channel) => bytes.extend([OWN, *channel]),
            Number::Far(channel) => bytes.extend([FAR, *channel]),
            Number::Sum(a, b) => write_operation(bytes, SUM, &[a, b]),
            Number::Difference(a, b) => write_operation(bytes, DIFFERENCE, &[a, b]),
            Number::Product(a, b) => write_operation(bytes, PRODUCT, &[a, b]),
            Number::Negation(a) => write_operation(bytes, NEGATION, &[a]),
        }
    }
}

impl Expression for Truth {
    fn read(reader: &mut Reader) -> Result<Truth, Refusal> {
        Ok(match reader.operator()? {
            FALSE => Truth::False,
            TRUE => Truth::True,
            NOT => Truth::Not(reader.operand()?),
            AND => Truth::And(reader.operand()?, reader.operand()?),
            OR => Truth::Or(reader.operand()?, reader.operand()?),
            LESS => Truth::Less(reader.operand()?, reader.operand()?),
            EQUAL => Truth::Equal(reader.operand()?, reader.operand()?),
            _ => return Err(reader.wrong_type()),
        })
    }

    fn write(&self, bytes: &mut Vec<u8>) {
        match self {
            Truth::False => bytes.push(FALSE),
            Truth::True => bytes.push(TRUE),
            Truth::Not(a) => write_operation(bytes, NOT, &[a]),
            Truth::And(a, b) => write_operation(bytes, AND, &[a, b]),
            Truth::Or(a, b) => write_operation(bytes, OR, &[a, b]),
            Truth::Less(a, b) => write_operation(bytes, LESS, &[a, b]),
            Truth::Equal(a, b) => write_operation(bytes, EQUAL, &[a, b]),
        }
    }
}

/// Operator first, operands after it.
fn write_operation<E: Expression>(bytes: &mut Vec<u8>, operator: u8, operands: &[&E]) {
    bytes.push(operator);
    for operand in operands {
        operand.write(bytes);
    }
}

/// The nearest 32-bit number. No operation on 32-bit numbers leaves 64 bits.
fn clamp(whole: i64) -> i32 {
    whole.clamp(i32::MIN.into(), i32::MAX.into()) as i32
}

impl Number {
    /// The value where own and far channels have these values.
    pub fn evaluate(&self, own: &[i32], far: &[i32]) -> i32 {
        let whole = |operand: &Number| i64::from(operand.evaluate(own, far));
        match self {
            Number::Literal(value) => *value,
            Number::Own(channel) => own[usize::from(*channel)],
            Number::Far(channel) => far[usize::from(*channel)],
            Number::Sum(a, b) => clamp(whole(a) + whole(b)),
            Number::Difference(a, b) => clamp(whole(a) - whole(b)),
            Number::Product(a, b) => clamp(whole(a) * whole(b)),
            Number::Negation(a) => clamp(-whole(a)),
        }
    }
}

impl Truth {
    /// Whether it is true where own and far channels have these values.
    pub fn holds(&self, own: &[i32], far: &[i32]) -> bool {
        match self {
            Truth::False => false,
            Truth::True => true,
            Truth::Not(a) => !a.holds(own, far),
            Truth::And(a, b) => a.holds(own, far) && b.holds(own, far),
            Truth::Or(a, b) => a.holds(own, far) || b.holds(own, far),
            Truth::Less(a, b) => a.evaluate(own, far) < b.evaluate(own, far),
            Truth::Equal(a, b) => a.evaluate(own, far) == b.evaluate(own, far),
        }
    }
}
