//! "States and runs": values, their words and their order.

use crate::tree::Identifier;
use crate::types::Type;
use std::cmp::Ordering;

/// The most words of a value (55).
pub const MOST_WORDS: usize = 64;

#[derive(Clone, PartialEq, Eq, Debug)]
pub enum Value {
    Integer(i32),
    /// Element k of given g.
    Element(Identifier, i32),
    /// Members ascending by word sequence, distinct.
    Set(Vec<Value>),
    Tuple(Vec<Value>),
}

impl Value {
    /// 1 n; 2 g k; 3 n members; 4 n parts.
    pub fn words(&self) -> Vec<i32> {
        let mut words = Vec::new();
        self.write(&mut words);
        words
    }

    fn write(&self, words: &mut Vec<i32>) {
        words.push(self.tag());
        match self {
            Value::Integer(n) => words.push(*n),
            Value::Element(g, k) => words.extend([*g as i32, *k]),
            Value::Set(parts) | Value::Tuple(parts) => {
                words.push(parts.len() as i32);
                parts.iter().for_each(|part| part.write(words));
            }
        }
    }

    fn tag(&self) -> i32 {
        match self {
            Value::Integer(_) => 1,
            Value::Element(..) => 2,
            Value::Set(_) => 3,
            Value::Tuple(_) => 4,
        }
    }

    /// The number of words.
    pub fn length(&self) -> usize {
        match self {
            Value::Integer(_) => 2,
            Value::Element(..) => 3,
            Value::Set(parts) | Value::Tuple(parts) => {
                2 + parts.iter().map(Value::length).sum::<usize>()
            }
        }
    }
}

/// The order of the word sequences, words read signed. No value's words begin
/// another's, so that the first part that differs decides.
impl Ord for Value {
    fn cmp(&self, other: &Value) -> Ordering {
        match (self, other) {
            (Value::Integer(m), Value::Integer(n)) => m.cmp(n),
            (Value::Element(g, k), Value::Element(h, l)) => (g, k).cmp(&(h, l)),
            (Value::Set(s), Value::Set(t)) | (Value::Tuple(s), Value::Tuple(t)) => {
                s.len().cmp(&t.len()).then_with(|| s.cmp(t))
            }
            _ => self.tag().cmp(&other.tag()),
        }
    }
}

impl PartialOrd for Value {
    fn partial_cmp(&self, other: &Value) -> Option<Ordering> {
        Some(self.cmp(other))
    }
}

/// A set while it is built: members are added one at a time.
#[derive(Default)]
pub struct SetBuilder {
    members: Vec<Value>,
    length: usize,
}

impl SetBuilder {
    /// Adds a member; false where the set's words then pass 64.
    pub fn add(&mut self, member: Value) -> bool {
        if let Err(at) = self.members.binary_search(&member) {
            self.length += member.length();
            self.members.insert(at, member);
        }
        2 + self.length <= MOST_WORDS
    }

    pub fn done(self) -> Value {
        Value::Set(self.members)
    }
}

/// Is the value of the type? An integer is of ℤ, element k of g of given g, a
/// set of power t if its members are of t, a tuple of a product if as many
/// parts are each of their own type; in no other case.
pub fn is_of(value: &Value, type_: &Type) -> bool {
    match (value, type_) {
        (Value::Integer(_), Type::Integer) => true,
        (Value::Element(g, _), Type::Given(h)) => g == h,
        (Value::Set(members), Type::Power(t)) => members.iter().all(|member| is_of(member, t)),
        (Value::Tuple(parts), Type::Product(types)) => {
            parts.len() == types.len() && parts.iter().zip(types).all(|(part, t)| is_of(part, t))
        }
        _ => false,
    }
}
