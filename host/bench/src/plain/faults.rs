//! The first fault in an expression: refusals 3, 18 and 19.

use super::expression::{
    Scope, AND, DIFFERENCE, EQUAL, FALSE, FAR, LESS, LITERAL, NEGATION, NOT, OR, OWN, PRODUCT, SUM, TRUE,
};
use std::iter::repeat_n;

/// The refusals of faults in an expression.
const UNKNOWN_BYTE: u32 = 3;
const WRONG_TYPE: u32 = 18;
const WRONG_END: u32 = 19;

/// A fault in an expression: the refusal's number, and the offset from the expression's first byte.
pub struct Fault {
    pub number: u32,
    pub offset: usize,
}

/// What an expression gives.
#[derive(Clone, Copy, PartialEq, Eq)]
pub enum Type {
    Number,
    Truth,
}

/// What an operator gives, and how many operands of which type it takes.
struct Form {
    value: Type,
    operands: usize,
    operand: Type,
}

/// The form of a known operator.
fn form(operator: u8) -> Option<Form> {
    let (value, operands, operand) = match operator {
        LITERAL | OWN | FAR => (Type::Number, 0, Type::Number),
        NEGATION => (Type::Number, 1, Type::Number),
        SUM | DIFFERENCE | PRODUCT => (Type::Number, 2, Type::Number),
        FALSE | TRUE => (Type::Truth, 0, Type::Truth),
        NOT => (Type::Truth, 1, Type::Truth),
        AND | OR => (Type::Truth, 2, Type::Truth),
        LESS | EQUAL => (Type::Truth, 2, Type::Number),
        _ => return None,
    };
    Some(Form { value, operands, operand })
}

/// The first fault of bytes that are no expression of this type. It is searched only where the quick test has said
/// no, and is compiled by itself, so that decks that pass do not pay for it.
#[cold]
#[inline(never)]
pub fn first_fault(bytes: &[u8], wanted: Type, scope: Scope) -> Fault {
    let ends = Fault { number: WRONG_END, offset: bytes.len() };
    let mut open = vec![wanted];
    let mut at = 0;
    while let Some(wanted) = open.pop() {
        let Some(&operator) = bytes.get(at) else { return ends };
        let Some(form) = form(operator) else { return Fault { number: UNKNOWN_BYTE, offset: at } };
        if form.value != wanted || operator == FAR && scope.far == 0 {
            return Fault { number: WRONG_TYPE, offset: at };
        }
        at += 1;
        let field = match operator {
            LITERAL => 4,
            OWN | FAR => 1,
            _ => 0,
        };
        if bytes.len() - at < field {
            return ends;
        }
        if field == 1 && u16::from(bytes[at]) >= scope.own {
            return Fault { number: UNKNOWN_BYTE, offset: at };
        }
        at += field;
        open.extend(repeat_n(form.operand, form.operands));
    }
    // Nothing is missing or wrong, so there are bytes left over.
    Fault { number: WRONG_END, offset: at }
}
