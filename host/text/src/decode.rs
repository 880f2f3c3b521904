//! Bytes to text.

use crate::encode::encode;
use crate::faults::{Fault, Faults};
use crate::kinds::{kind_by_number, FUNCTIONS, GROUPS, SIDES};
use crate::names::Names;
use crate::season::sizes;
use crate::words::quote;

/// The text of a season that is followed by its sheet, or all that keeps the checker from opening it.
pub fn decode(bytes: &[u8]) -> Result<String, Faults> {
    decode_named(bytes, &Names::default())
}

/// The same with the names that belong to the season.
pub fn decode_named(bytes: &[u8], names: &Names) -> Result<String, Faults> {
    let Some([teams, slots, games, constraints]) = sizes(bytes) else {
        return Err(Fault::whole(format!("a season has at least 6 bytes, and there are {}", bytes.len())).into());
    };
    let length = 6 + 3 * games + 24 * constraints;
    if bytes.len() != length {
        return Err(Fault::whole(format!(
            "with {games} games and {constraints} constraints, season and sheet have {length} bytes, and there are {}",
            bytes.len()
        ))
        .into());
    }
    let (home, rest) = bytes[6..].split_at(games);
    let (away, rest) = rest.split_at(games);
    let (heads, rest) = rest.split_at(8 * constraints);
    let (bodies, sheet) = rest.split_at(16 * constraints);

    // Each line with what it stands for, so that a fault in it can be named.
    let mut lines = vec![
        (format!("# {teams} teams, {slots} slots, {games} games, {constraints} constraints"), String::new()),
        (format!("teams {teams}"), "sizes".into()),
        (format!("slots {slots}"), "sizes".into()),
    ];
    lines.push((String::new(), String::new()));
    let named = names.team_and_slot_lines();
    if !named.is_empty() {
        lines.extend(named.lines().map(|line| (line.to_string(), "names".to_string())));
        lines.push((String::new(), String::new()));
    }
    lines.push(("# game HOME AWAY SLOT  # number".into(), String::new()));
    for at in 0..games {
        let slot = if sheet[at] == 0 { "-".into() } else { sheet[at].to_string() };
        lines.push((format!("game {} {} {slot}  # {at}", home[at], away[at]), format!("game {at}")));
    }
    lines.push((String::new(), String::new()));
    lines.push(("# KIND SIDE HARDNESS FUNCTION FIELDS  # number".into(), String::new()));
    let mut faults = Faults::default();
    for (at, (head, body)) in heads.chunks(8).zip(bodies.chunks(16)).enumerate() {
        let name = names.constraints.get(&at).map_or(String::new(), |name| format!(" {}", quote(name)));
        // The line of a constraint that cannot be written stays empty; the others are looked at all the same.
        let line = constraint(head, body, teams, slots).unwrap_or_else(|message| {
            faults.0.push(Fault::whole(format!("constraint {at}: {message}")));
            String::new()
        });
        lines.push((if line.is_empty() { line } else { format!("{line}{name}  # {at}") }, format!("constraint {at}")));
    }

    let text: String = lines.iter().map(|(line, _)| format!("{line}\n")).collect();
    match encode(&text) {
        Err(found) => faults.0.extend(found.0.into_iter().map(|fault| name_fault(fault, &lines))),
        Ok(encoded) if faults.0.is_empty() && [&encoded.season[..], &encoded.sheet].concat() != bytes => {
            faults.0.push(Fault::whole("the bytes have no text form"));
        }
        Ok(_) => (),
    }
    if faults.0.is_empty() {
        Ok(text)
    } else {
        Err(faults)
    }
}

/// A fault of a line, told of what the line stands for.
fn name_fault(fault: Fault, lines: &[(String, String)]) -> Fault {
    let name = |line: usize| lines[line.max(1) - 1].1.as_str();
    let message = match fault.message.rsplit_once(" (line ") {
        Some((message, line)) => {
            let line: usize = line.trim_end_matches(')').parse().unwrap_or(1);
            format!("{message} ({})", name(line))
        }
        None => fault.message,
    };
    Fault::whole(format!("{}: {message}", name(fault.line)))
}

/// What keeps a constraint from the rules of its kind.
pub(crate) fn constraint_faults(head: &[u8], body: &[u8], teams: usize, slots: usize) -> Vec<String> {
    match constraint(head, body, teams, slots) {
        Err(message) => vec![message],
        Ok(line) => match encode(&format!("teams {teams}\nslots {slots}\n{line}\n")) {
            Ok(_) => Vec::new(),
            Err(faults) => faults.0.into_iter().map(|fault| fault.message).collect(),
        },
    }
}

/// A constraint's line. Fields that its kind does not have are written where they are not 0, and `encode` says so.
fn constraint(head: &[u8], body: &[u8], teams: usize, slots: usize) -> Result<String, String> {
    let &[kind, mode, hard, function, weight, kmin, kmax, w] = head else {
        return Err("a head has 8 bytes".into());
    };
    let kind = kind_by_number(kind).ok_or_else(|| format!("no kind has the number {kind}"))?;
    let mut words = vec![kind.word.to_string()];
    match mode {
        1 if kind.sides.is_empty() => (),
        1..=3 if kind.sides.contains(&SIDES[usize::from(mode) - 1]) => words.push(SIDES[usize::from(mode) - 1].into()),
        4..=6 if kind.second.is_some() => {
            words.push(kind.second.unwrap_or("").into());
            words.push(SIDES[usize::from(mode) - 4].into());
        }
        _ => return Err(format!("{} has no mode {mode}", kind.word)),
    }
    words.push(match hard {
        0 => "soft".into(),
        1 => "hard".into(),
        _ => return Err(format!("hard is 1 or 0, not {hard}")),
    });
    words.push(match function {
        1..=5 => FUNCTIONS[usize::from(function) - 1].into(),
        _ => return Err(format!("no function has the number {function}")),
    });
    words.push(format!("weight={weight}"));
    for (name, value, used) in [("kmin", kmin, kind.kmin), ("kmax", kmax, kind.kmax.is_some()), ("w", w, kind.w)] {
        if used || value != 0 {
            words.push(format!("{name}={value}"));
        }
    }
    for (name, from, length) in GROUPS {
        let mut wide = [0; 8];
        wide[..length].copy_from_slice(&body[from..from + length]);
        let (size, base) = if name == "S" { (slots, 1) } else { (teams, 0) };
        let bits = u64::from_le_bytes(wide);
        if bits != 0 {
            words.push(format!("{name}={}", group(bits, size, base)));
        }
    }
    Ok(words.join(" "))
}

/// The members of a group, runs of three or more as `first-last`.
fn group(bits: u64, size: usize, base: usize) -> String {
    if bits == u64::MAX >> (64 - size.clamp(1, 64)) {
        return "all".into();
    }
    let mut parts = Vec::new();
    let mut k = 0;
    while k < 64 {
        let length = (bits >> k).trailing_ones() as usize;
        let first = k + base;
        match length {
            0 => (),
            1 => parts.push(format!("{first}")),
            2 => parts.push(format!("{first},{}", first + 1)),
            _ => parts.push(format!("{first}-{}", first + length - 1)),
        }
        k += length + 1;
    }
    parts.join(",")
}
