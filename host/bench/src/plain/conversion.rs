//! An old deck as a new one: each rule with a default action becomes two.

use super::deck::{bits, Tables};
use super::expression::TRUE;

/// An old deck that passed.
pub struct Conversion<'a> {
    deck: &'a [u8],
    tables: &'a Tables,
    /// The rules that become two.
    with_default: u64,
}

impl<'a> Conversion<'a> {
    pub fn new(deck: &'a [u8], tables: &'a Tables) -> Conversion<'a> {
        Conversion { deck, tables, with_default: tables.with_default() }
    }

    /// The number of rules that result.
    pub fn rules(&self) -> usize {
        self.tables.rules + self.with_default.count_ones() as usize
    }

    /// Writes the new deck, which has at most 64 rules.
    pub fn write(&self, new: &mut Vec<u8>) {
        let Tables { rules_at, rules, parts_at, parts, .. } = *self.tables;
        new.extend(&self.deck[..rules_at]);
        new.push(self.rules() as u8);
        for rule in 0..rules {
            self.write_rule(new, rule);
        }
        new.push(self.deck[parts_at]);
        for part in 0..parts {
            self.write_part(new, part);
        }
    }

    fn write_rule(&self, new: &mut Vec<u8>, number: usize) {
        let rule = &self.tables.rule[number];
        let events = &self.deck[self.tables.rule_at(number)..rule.default_at];
        // The kind stands before the condition's length.
        let kind_at = rule.condition_at - 2;
        let default_action = &self.deck[rule.default_at..kind_at];
        let task = &self.deck[kind_at..self.tables.rule_at(number + 1)];
        if rule.default_targets != 0 {
            new.extend(events);
            // No default action, kind "here", a condition of one byte.
            new.extend([0, 0, 1, TRUE]);
            new.extend(default_action);
        }
        new.extend(events);
        new.push(0);
        new.extend(task);
    }

    fn write_part(&self, new: &mut Vec<u8>, number: usize) {
        let part = &self.tables.part[number];
        let carried_at = part.opening_at + 4 * self.tables.channels;
        // The limit with its length.
        let limit_at = part.limit_at - 1;
        let end = limit_at + 1 + usize::from(self.deck[limit_at]);
        let twice = part.carried & self.with_default;
        new.extend(&self.deck[part.opening_at..carried_at]);
        new.push((part.carried.count_ones() + twice.count_ones()) as u8);
        for rule in bits(part.carried) {
            let first = self.new_number(rule);
            new.push(first);
            if twice >> rule & 1 == 1 {
                new.push(first + 1);
            }
        }
        new.extend(&self.deck[limit_at..end]);
    }

    /// The number of the first rule that a rule becomes.
    fn new_number(&self, rule: usize) -> u8 {
        let before = self.with_default & ((1 << rule) - 1);
        rule as u8 + before.count_ones() as u8
    }
}
