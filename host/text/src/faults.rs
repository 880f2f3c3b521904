//! What is wrong with a text or with bytes: every fault, each with its line.

use std::fmt;

/// How many faults or notes of a file are shown.
pub const SHOWN: usize = 20;

/// What is wrong, and in which line (0: in the text as a whole).
#[derive(Clone, PartialEq, Eq, Debug)]
pub struct Fault {
    pub line: usize,
    pub message: String,
}

impl Fault {
    pub fn whole(message: impl Into<String>) -> Fault {
        Fault { line: 0, message: message.into() }
    }

    /// As compilers write it: `league.txt:14: ..`.
    pub fn in_file(&self, file: &str) -> String {
        match self.line {
            0 => format!("{file}: {}", self.message),
            line => format!("{file}:{line}: {}", self.message),
        }
    }
}

impl fmt::Display for Fault {
    fn fmt(&self, f: &mut fmt::Formatter) -> fmt::Result {
        match self.line {
            0 => write!(f, "{}", self.message),
            line => write!(f, "line {line}: {}", self.message),
        }
    }
}

/// All faults of a file, in the order of its lines.
#[derive(Clone, PartialEq, Eq, Debug, Default)]
pub struct Faults(pub Vec<Fault>);

impl Faults {
    /// The lines to show for a file: at most 20 faults, and how many more there are.
    pub fn in_file(&self, file: &str) -> Vec<String> {
        self.lines(|fault| fault.in_file(file))
    }

    fn lines(&self, show: impl Fn(&Fault) -> String) -> Vec<String> {
        let mut lines: Vec<String> = self.0.iter().take(SHOWN).map(show).collect();
        if self.0.len() > SHOWN {
            lines.push(format!("and {} more", self.0.len() - SHOWN));
        }
        lines
    }
}

impl From<Fault> for Faults {
    fn from(fault: Fault) -> Faults {
        Faults(vec![fault])
    }
}

impl fmt::Display for Faults {
    fn fmt(&self, f: &mut fmt::Formatter) -> fmt::Result {
        write!(f, "{}", self.lines(Fault::to_string).join("\n"))
    }
}
