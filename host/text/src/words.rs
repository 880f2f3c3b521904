//! A line of the text form: its words and its names in quotes, without the comment.

/// A word of a line.
#[derive(Clone, PartialEq, Eq, Debug)]
pub enum Word<'a> {
    Plain(&'a str),
    /// What stood between two quotes.
    Name(String),
}

/// The longest name, in characters.
const LONGEST: usize = 60;

/// The words of a line. `#` outside quotes begins a comment.
pub fn split(line: &str) -> Result<Vec<Word<'_>>, String> {
    let mut words = Vec::new();
    let mut rest = line.trim_start();
    while !rest.is_empty() && !rest.starts_with('#') {
        if let Some(quoted) = rest.strip_prefix('"') {
            let (name, after) = name(quoted)?;
            if !after.starts_with([' ', '\t', '#']) && !after.trim().is_empty() {
                return Err(format!("a blank is missing after the name \"{name}\""));
            }
            words.push(Word::Name(name));
            rest = after.trim_start();
        } else {
            let end = rest.find(|c: char| c.is_whitespace() || c == '#' || c == '"').unwrap_or(rest.len());
            words.push(Word::Plain(&rest[..end]));
            rest = rest[end..].trim_start();
        }
    }
    Ok(words)
}

/// The name that begins here, up to its closing quote, and what follows. `\"` and `\\` stand for `"` and `\`.
fn name(quoted: &str) -> Result<(String, &str), String> {
    let mut name = String::new();
    let mut chars = quoted.char_indices();
    while let Some((at, c)) = chars.next() {
        match c {
            '"' => return check(name).map(|name| (name, &quoted[at + 1..])),
            '\\' => match chars.next() {
                Some((_, c @ ('"' | '\\'))) => name.push(c),
                _ => return Err("in a name, '\\' stands only before '\"' or '\\'".into()),
            },
            c => name.push(c),
        }
    }
    Err("the closing quote of a name is missing".into())
}

fn check(name: String) -> Result<String, String> {
    if name.trim().is_empty() {
        return Err("a name is empty".into());
    }
    if name.chars().count() > LONGEST {
        return Err(format!("a name has more than {LONGEST} characters"));
    }
    if name.chars().any(char::is_control) {
        return Err("a name has a control character".into());
    }
    Ok(name)
}

/// A name as it is written.
pub fn quote(name: &str) -> String {
    format!("\"{}\"", name.replace('\\', "\\\\").replace('"', "\\\""))
}
