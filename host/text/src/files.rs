//! Files: text and bytes told apart, and the outputs of a command written all or none.

use std::fs;
use std::io::{self, Read, Write};

/// What a file holds.
pub enum Content {
    Text(String),
    Bytes(Vec<u8>),
}

/// `-` is standard input.
pub fn read(name: &str) -> Result<Vec<u8>, String> {
    let mut bytes = Vec::new();
    let done = if name == "-" {
        io::stdin().read_to_end(&mut bytes)
    } else {
        fs::File::open(name).and_then(|mut file| file.read_to_end(&mut bytes))
    };
    done.map(|_| bytes).map_err(|error| format!("{name}: {error}"))
}

/// Tells text from bytes. A season's bytes 3 and 5 are at most 4 in every season that the checker accepts, and no text has such bytes.
pub fn content(name: &str) -> Result<Content, String> {
    let bytes = read(name)?;
    if bytes.starts_with(&[0xff, 0xfe]) || bytes.starts_with(&[0xfe, 0xff]) {
        return Err(format!("{name}: this text is UTF-16; save it as UTF-8"));
    }
    if bytes.iter().any(|&byte| byte < 9) {
        return Ok(Content::Bytes(bytes));
    }
    String::from_utf8(bytes).map(Content::Text).map_err(|error| {
        let at = error.utf8_error().valid_up_to();
        let bytes = error.as_bytes();
        let line = 1 + bytes[..at].iter().filter(|&&byte| byte == b'\n').count();
        format!("{name}:{line}: the byte 0x{:02x} is not UTF-8; save the file as UTF-8", bytes[at])
    })
}

/// The files that a command writes. `-` is standard output.
pub struct Outputs {
    names: Vec<String>,
}

impl Outputs {
    /// Refuses an output that is one of the sources, or another output.
    pub fn new(sources: &[&str], names: Vec<String>) -> Result<Outputs, String> {
        for (at, name) in names.iter().enumerate() {
            if sources.iter().any(|source| is_same(source, name)) {
                return Err(format!("{name}: this file is read by the command, and would be overwritten; name another one"));
            }
            if name != "-" && names[..at].iter().any(|other| other == name || is_same(other, name)) {
                return Err(format!("{name}: two outputs have this name"));
            }
        }
        Ok(Outputs { names })
    }

    /// Refuses an output that holds the text form of a season, for commands that write something else.
    pub fn spare_texts(self) -> Result<Outputs, String> {
        let is_text = |name: &&String| *name != "-" && fs::read(name).is_ok_and(|bytes| is_season_text(&bytes));
        match self.names.iter().find(is_text) {
            Some(name) => Err(format!("{name}: this file holds a season as text, and would be overwritten; name another one")),
            None => Ok(self),
        }
    }

    /// Removes what an earlier run has left, so that nobody takes it for the result of this one. A season's text stays, since somebody
    /// may have written it by hand; so do devices and the like.
    pub fn discard(&self) {
        let is_stale = |name: &&String| !fs::read(name).is_ok_and(|bytes| is_season_text(&bytes));
        self.names
            .iter()
            .filter(|name| *name != "-" && is_file(name))
            .filter(is_stale)
            .for_each(|name| drop(fs::remove_file(name)));
    }

    /// Writes each output, or removes it where it has no content; all are removed if one cannot be written.
    pub fn write(&self, contents: &[Option<Vec<u8>>]) -> Result<(), String> {
        for (at, (name, content)) in self.names.iter().zip(contents).enumerate() {
            let done = match content {
                Some(bytes) if name == "-" => print(bytes),
                Some(bytes) => fs::write(name, bytes),
                None if is_file(name) => fs::remove_file(name),
                None => Ok(()),
            };
            if let Err(error) = done {
                self.names[..=at].iter().filter(|name| *name != "-" && is_file(name)).for_each(|name| drop(fs::remove_file(name)));
                self.discard();
                return Err(format!("{name}: {error}"));
            }
        }
        Ok(())
    }
}

/// Whether this is a file, and not a device or a link.
fn is_file(name: &str) -> bool {
    fs::symlink_metadata(name).is_ok_and(|found| found.is_file())
}

/// Writes to standard output. A reader that has seen enough is no error.
pub fn print(bytes: &[u8]) -> io::Result<()> {
    let mut out = io::stdout().lock();
    match out.write_all(bytes).and_then(|()| out.flush()) {
        Err(error) if error.kind() == io::ErrorKind::BrokenPipe => Ok(()),
        done => done,
    }
}

/// Whether two names lead to one file.
fn is_same(one: &str, other: &str) -> bool {
    if one == "-" || other == "-" {
        return false;
    }
    #[cfg(unix)]
    {
        use std::os::unix::fs::MetadataExt;
        if let (Ok(one), Ok(other)) = (fs::metadata(one), fs::metadata(other)) {
            return one.is_file() && (one.dev(), one.ino()) == (other.dev(), other.ino());
        }
    }
    matches!((fs::canonicalize(one), fs::canonicalize(other)), (Ok(one), Ok(other)) if one == other)
}

fn is_season_text(bytes: &[u8]) -> bool {
    let is_teams = |line: &str| line.split_whitespace().next() == Some("teams");
    bytes.iter().all(|&byte| byte >= 9) && std::str::from_utf8(bytes).is_ok_and(|text| text.lines().any(is_teams))
}
