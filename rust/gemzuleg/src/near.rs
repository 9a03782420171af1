//! "Did you mean": the one name that is one letter away, or the same in small letters.

/// Is the one word the other with a letter more, less, or another one in its place?
fn one_letter_away(one: &[u8], other: &[u8]) -> bool {
    let (short, long) = if one.len() <= other.len() { (one, other) } else { (other, one) };
    let same = short.iter().zip(long).take_while(|(a, b)| a == b).count();
    match long.len() - short.len() {
        0 => same < short.len() && short[same + 1..] == long[same + 1..],
        1 => short[same..] == long[same + 1..],
        _ => false,
    }
}

/// The name that was meant, where there is exactly one.
pub fn meant<'a>(names: &'a [String], typed: &str) -> Option<&'a str> {
    let small = typed.to_ascii_lowercase();
    if let Some(same) = names.iter().find(|name| **name == small) {
        return Some(same);
    }
    let mut near = names.iter().filter(|name| one_letter_away(name.as_bytes(), typed.as_bytes()));
    match (near.next(), near.next()) {
        (Some(name), None) => Some(name),
        _ => None,
    }
}

/// What stands behind a sentence about a name.
pub fn did_you_mean(names: &[String], typed: &str) -> String {
    meant(names, typed).map_or(String::new(), |name| format!("; did you mean '{name}'?"))
}
