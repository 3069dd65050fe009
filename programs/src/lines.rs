//! Numbered lines of a text that people write: what follows a `#` is a comment, and blank lines say nothing.

/// A text without the byte order mark that some editors put before it.
pub fn without_mark(text: &[u8]) -> &[u8] {
    text.strip_prefix(b"\xEF\xBB\xBF").unwrap_or(text)
}

/// What a line says, without its comment and the blanks around; none if that is nothing.
pub fn said(line: &[u8]) -> Result<Option<&str>, String> {
    let text = std::str::from_utf8(line).map_err(|_| "not plain text (UTF-8)".to_string())?;
    let plain = text.split('#').next().unwrap_or("").trim();
    Ok((!plain.is_empty()).then_some(plain))
}

#[cfg(test)]
mod tests {
    use super::*;

    #[test]
    fn comments_and_blanks() {
        assert_eq!(said(b""), Ok(None));
        assert_eq!(said(b" \t\r\n"), Ok(None));
        assert_eq!(said(b"# all of it"), Ok(None));
        assert_eq!(said(b" 1 2 # some of it\r\n"), Ok(Some("1 2")));
        assert_eq!(said(b"\xFF"), Err("not plain text (UTF-8)".to_string()));
    }

    #[test]
    fn one_mark_at_the_start() {
        assert_eq!(without_mark(b"\xEF\xBB\xBF1 2"), b"1 2");
        assert_eq!(without_mark(b"\xEF\xBB\xBF\xEF\xBB\xBF"), b"\xEF\xBB\xBF");
        assert_eq!(without_mark(b"\xEF\xBB"), b"\xEF\xBB");
        assert_eq!(without_mark(b" \xEF\xBB\xBF"), b" \xEF\xBB\xBF");
    }
}
