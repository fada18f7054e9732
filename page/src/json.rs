//! Strings, lists and fields in JSON.

/// Appends a text as a JSON string.
pub fn push_text(out: &mut String, text: &str) {
    out.push('"');
    for c in text.chars() {
        match c {
            '"' | '\\' => out.extend(['\\', c]),
            '\0'..='\x1f' | '\u{2028}' | '\u{2029}' => {
                out.push_str(&format!("\\u{:04x}", c as u32))
            }
            _ => out.push(c),
        }
    }
    out.push('"');
}

/// Appends a list, with `push` for each item.
pub fn push_list<T>(
    out: &mut String,
    items: impl IntoIterator<Item = T>,
    mut push: impl FnMut(&mut String, T),
) {
    out.push('[');
    for (number, item) in items.into_iter().enumerate() {
        if number > 0 {
            out.push(',');
        }
        push(out, item);
    }
    out.push(']');
}

/// Appends the name of a field of an object.
pub fn push_name(out: &mut String, name: &str) {
    let is_first = out.ends_with('{') || out.is_empty();
    out.push(if is_first { ' ' } else { ',' });
    push_text(out, name);
    out.push(':');
}

/// Appends a field with a text.
pub fn push_word(out: &mut String, name: &str, text: &str) {
    push_name(out, name);
    push_text(out, text);
}

/// Appends a field with a number.
pub fn push_number(out: &mut String, name: &str, number: usize) {
    push_name(out, name);
    *out += &number.to_string();
}
