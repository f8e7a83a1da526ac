//! What a state says of its names, before it is words.

use reference::values::Value;

/// Identifiers and values in the order of the state's entries; of a given the
/// value is its size.
pub type Entries = Vec<(u32, Value)>;

/// The words of a state without givens.
pub fn words(entries: &Entries) -> Vec<u32> {
    let coded = |(_, value): &(u32, Value)| value.words().iter().map(|&word| word as u32).collect();
    coding::join(&entries.iter().map(coded).collect::<Vec<_>>())
}

/// The set of these values.
pub fn set(of: impl IntoIterator<Item = Value>) -> Value {
    let mut members: Vec<Value> = of.into_iter().collect();
    members.sort();
    Value::Set(members)
}

/// The set of these whole numbers.
pub fn numbers(of: impl IntoIterator<Item = i32>) -> Value {
    set(of.into_iter().map(Value::Integer))
}

/// The set of these pairs of whole numbers.
pub fn table(of: impl IntoIterator<Item = (i32, i32)>) -> Value {
    set(of.into_iter().map(|(a, b)| Value::Tuple(vec![Value::Integer(a), Value::Integer(b)])))
}
