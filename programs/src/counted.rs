//! A number with what it counts.

use std::fmt::Display;

/// `0 fields`, `1 field`, `2 fields`.
pub fn counted<N: Display + From<u8> + PartialEq>(number: N, one: &str, many: &str) -> String {
    let name = if number == N::from(1) { one } else { many };
    format!("{number} {name}")
}

#[cfg(test)]
mod tests {
    use super::*;

    #[test]
    fn one_and_many() {
        let fields = |n: usize| counted(n, "field", "fields");
        assert_eq!(
            [fields(0), fields(1), fields(2), fields(21)],
            ["0 fields", "1 field", "2 fields", "21 fields"]
        );
        assert_eq!(counted(u64::MAX, "entry", "entries"), "18446744073709551615 entries");
    }
}
