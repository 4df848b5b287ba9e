//! Expressions: the test of their rules and their values, both on the deck's own bytes.

/// The values of a part.
pub type Values = [i32; 32];

pub const LITERAL: u8 = 0;
pub const OWN: u8 = 1;
pub const FAR: u8 = 2;
pub const SUM: u8 = 3;
pub const DIFFERENCE: u8 = 4;
pub const PRODUCT: u8 = 5;
pub const NEGATION: u8 = 6;
pub const FALSE: u8 = 16;
pub const TRUE: u8 = 17;
pub const NOT: u8 = 18;
pub const AND: u8 = 19;
pub const OR: u8 = 20;
pub const LESS: u8 = 21;
pub const EQUAL: u8 = 22;

/// Which channels an expression may name: own and far ones below these.
#[derive(Clone, Copy)]
pub struct Scope {
    pub own: u16,
    pub far: u16,
}

/// For each byte that starts a number: its bytes, and 16 times its operands. 0 for all others.
static NUMBERS: [u8; 256] = {
    let mut forms = [0; 256];
    forms[LITERAL as usize] = 5;
    forms[OWN as usize] = 2;
    forms[FAR as usize] = 2;
    forms[SUM as usize] = 1 + 16 * 2;
    forms[DIFFERENCE as usize] = 1 + 16 * 2;
    forms[PRODUCT as usize] = 1 + 16 * 2;
    forms[NEGATION as usize] = 1 + 16;
    forms
};

/// The offset after so many numbers that stand one after the other.
///
/// Operands of numbers are numbers, so it is enough to count those that are still to come. The table
/// instead of a match saves a branch for each operator that is hard to predict.
#[inline(always)]
fn after_numbers(bytes: &[u8], mut at: usize, mut open: usize, scope: Scope) -> Option<usize> {
    let limits = [256, scope.own, scope.far, 256];
    while open > 0 {
        let operator = *bytes.get(at)?;
        let form = usize::from(NUMBERS[usize::from(operator)]);
        let next = bytes.get(at + 1).copied().unwrap_or(u8::MAX);
        if form == 0 || u16::from(next) >= limits[usize::from(operator.min(SUM))] {
            return None;
        }
        at += form & 15;
        open = open + (form >> 4) - 1;
    }
    Some(at)
}

/// Whether these bytes, all of them, are a number.
pub fn is_number(bytes: &[u8], scope: Scope) -> bool {
    after_numbers(bytes, 0, 1, scope) == Some(bytes.len())
}

/// Whether these bytes, all of them, are a truth.
pub fn is_truth(bytes: &[u8], scope: Scope) -> bool {
    let mut at = 0;
    let mut open = 1;
    while open > 0 {
        let Some(&operator) = bytes.get(at) else { return false };
        at += 1;
        match operator {
            LESS | EQUAL => {
                let Some(after) = after_numbers(bytes, at, 2, scope) else { return false };
                at = after;
                open -= 1;
            }
            FALSE | TRUE => open -= 1,
            NOT => {}
            AND | OR => open += 1,
            _ => return false,
        }
    }
    at == bytes.len()
}

/// The value of the number at an offset of a deck that was read, and the offset after it.
pub fn number(deck: &[u8], at: usize, own: &Values, far: &Values) -> (i32, usize) {
    match deck[at] {
        LITERAL => {
            let bytes = deck[at + 1..].first_chunk().copied().unwrap_or_default();
            (i32::from_le_bytes(bytes), at + 5)
        }
        OWN => (own[usize::from(deck[at + 1] & 31)], at + 2),
        FAR => (far[usize::from(deck[at + 1] & 31)], at + 2),
        NEGATION => {
            let (value, after) = number(deck, at + 1, own, far);
            (0_i32.saturating_sub(value), after)
        }
        operator => {
            let (first, middle) = number(deck, at + 1, own, far);
            let (second, after) = number(deck, middle, own, far);
            let value = match operator {
                SUM => first.saturating_add(second),
                DIFFERENCE => first.saturating_sub(second),
                _ => first.saturating_mul(second),
            };
            (value, after)
        }
    }
}

/// The value of the truth at an offset of a deck that was read, and the offset after it.
pub fn truth(deck: &[u8], at: usize, own: &Values, far: &Values) -> (bool, usize) {
    match deck[at] {
        FALSE => (false, at + 1),
        TRUE => (true, at + 1),
        NOT => {
            let (value, after) = truth(deck, at + 1, own, far);
            (!value, after)
        }
        operator @ (AND | OR) => {
            let (first, middle) = truth(deck, at + 1, own, far);
            let (second, after) = truth(deck, middle, own, far);
            (if operator == AND { first & second } else { first | second }, after)
        }
        operator => {
            let (first, middle) = number(deck, at + 1, own, far);
            let (second, after) = number(deck, middle, own, far);
            (if operator == LESS { first < second } else { first == second }, after)
        }
    }
}
