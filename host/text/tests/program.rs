//! The program season-text as it is run: files, messages, exit codes, stored outputs.

use std::fs;
use std::path::{Path, PathBuf};
use std::process::{Command, Output};

/// A folder of its own for a test.
struct Folder(PathBuf);

impl Folder {
    fn new(name: &str) -> Folder {
        let folder = PathBuf::from(env!("CARGO_TARGET_TMPDIR")).join(name);
        let _ = fs::remove_dir_all(&folder);
        fs::create_dir_all(&folder).unwrap();
        Folder(folder)
    }

    fn put(&self, name: &str, content: impl AsRef<[u8]>) -> &Folder {
        fs::write(self.0.join(name), content).unwrap();
        self
    }

    /// Copies a sample here.
    fn sample(&self, name: &str) -> &Folder {
        self.put(name, fs::read(examples().join(name)).unwrap())
    }

    fn get(&self, name: &str) -> Vec<u8> {
        fs::read(self.0.join(name)).unwrap_or_else(|error| panic!("{name}: {error}"))
    }

    fn has(&self, name: &str) -> bool {
        self.0.join(name).exists()
    }

    /// Runs the program here.
    fn run(&self, words: &str) -> Output {
        Command::new(env!("CARGO_BIN_EXE_season-text")).args(words.split_whitespace()).current_dir(&self.0).output().unwrap()
    }

    /// Runs it, and it succeeds; what it prints.
    fn good(&self, words: &str) -> String {
        let output = self.run(words);
        assert!(output.status.success(), "{words}: {}", String::from_utf8_lossy(&output.stderr));
        String::from_utf8(output.stdout).unwrap()
    }

    /// Runs it, and it fails; its messages.
    fn bad(&self, words: &str) -> String {
        let output = self.run(words);
        assert_eq!(output.status.code(), Some(1), "{words}");
        String::from_utf8(output.stderr).unwrap()
    }

    /// Runs it, and it succeeds; its notes.
    fn notes(&self, words: &str) -> String {
        let output = self.run(words);
        assert!(output.status.success(), "{words}");
        String::from_utf8(output.stderr).unwrap()
    }
}

fn examples() -> PathBuf {
    Path::new(env!("CARGO_MANIFEST_DIR")).join("../../examples")
}

/// Compares with a stored file; with HOST_STORE=1 it is written instead.
fn compare_stored(name: &str, got: &str) {
    let path = Path::new(env!("CARGO_MANIFEST_DIR")).join("tests/stored").join(name);
    if std::env::var_os("HOST_STORE").is_some() {
        fs::write(&path, got).unwrap();
    }
    let stored = fs::read_to_string(&path).unwrap_or_else(|error| panic!("{name}: {error}; HOST_STORE=1 writes it"));
    if let Some((at, (stored, got))) = stored.lines().zip(got.lines()).enumerate().find(|(_, (stored, got))| stored != got) {
        panic!("{name}:{}: stored\n{stored}\ngot\n{got}\n(HOST_STORE=1 writes the stored files anew)", at + 1);
    }
    assert_eq!(stored.len(), got.len(), "{name}: lengths");
}

/// Of a long output its first lines, its length and a sum of all its bytes.
fn digest(text: &str) -> String {
    let sum = text.bytes().fold(0xcbf29ce484222325, |sum: u64, byte| (sum ^ u64::from(byte)).wrapping_mul(0x100000001b3));
    let head: String = text.lines().take(80).map(|line| line.chars().take(200).collect::<String>() + "\n").collect();
    format!("{head}[{} lines, {} bytes, FNV-1a {sum:016x}]\n", text.lines().count(), text.len())
}

const SEASON: &str = "teams 4\nslots 3\ngame 0 1 1\ngame 2 3 1\n";

#[test]
fn help() {
    let folder = Folder::new("help");
    for words in ["--help", "-h", "help", "encode --help", "report x --help"] {
        assert!(folder.good(words).starts_with("usage: season-text encode"), "{words}");
    }
    for words in ["", "encode", "report", "page x", "play x", "show x", "decode a b c"] {
        let output = folder.run(words);
        assert_eq!(output.status.code(), Some(2), "{words}");
        assert!(output.stdout.is_empty() && output.stderr.starts_with(b"usage:"), "{words}");
    }
}

#[test]
fn names_survive() {
    let folder = Folder::new("names");
    folder.sample("named8.txt");
    folder.good("encode named8.txt a.bin");
    // The bytes are those of the season without its names.
    let text = String::from_utf8(folder.get("named8.txt")).unwrap();
    let plain: String =
        text.lines().filter(|line| !line.starts_with("team ") && !line.starts_with("slot ")).map(nameless).collect();
    folder.put("plain.txt", plain).good("encode plain.txt plain.bin");
    assert!(folder.get("a.bin") == folder.get("plain.bin"));
    assert!(folder.has("a.bin.names") && !folder.has("plain.bin.names"));
    // There and back, twice.
    folder.good("decode a.bin b.txt");
    folder.good("encode b.txt b.bin");
    folder.good("decode b.bin c.txt");
    assert!(folder.get("b.txt") == folder.get("c.txt"));
    assert!(folder.get("a.bin") == folder.get("b.bin") && folder.get("a.bin.names") == folder.get("b.bin.names"));
    // The sheet of its own: the names are beside the season.
    folder.good("encode b.txt b.season b.sheet");
    assert!(folder.get("b.season.names") == folder.get("a.bin.names"));
    // Both forms of a file give one report.
    let report = |name: &str| folder.good(&format!("report {name}")).replace(name, "FILE");
    assert_eq!(report("named8.txt"), report("a.bin"));
    // A season without names leaves no names of an earlier one.
    folder.good("encode plain.txt a.bin");
    assert!(!folder.has("a.bin.names"));
    assert!(folder.notes("encode b.txt").contains("b.txt: note: the bytes have no names"));
}

/// A line without the name at its end.
fn nameless(line: &str) -> String {
    match line.split_once(" \"") {
        Some((line, _)) if !line.starts_with('#') => format!("{line}\n"),
        _ => format!("{line}\n"),
    }
}

#[test]
fn names_of_any_kind() {
    let folder = Folder::new("any-names");
    let names = "team 0 \"St. \\\"P\\\" # 1\"\nteam 1 \"Çeşme & <Söhne>\"\nslot 2 \"back\\\\slash\"\n";
    let text = format!("{SEASON}{names}CA1 home hard sum \"in the middle\" weight=1 kmax=0 T1=all S=1\n");
    folder.put("a.txt", text).good("encode a.txt a.bin");
    let decoded = folder.good("decode a.bin");
    for line in names.lines() {
        assert!(decoded.contains(line), "{decoded}");
    }
    assert!(decoded.contains("CA1 home hard sum weight=1 kmin=0 kmax=0 T1=all S=1 \"in the middle\"  # 0"), "{decoded}");
    assert!(folder.good("report a.bin").contains("by 1  St. \"P\" # 1: 1 home game in slot 1, at most 0: slot 1"));
    folder.good("page a.bin a.html");
    assert!(String::from_utf8(folder.get("a.html")).unwrap().contains("Çeşme &amp; &lt;Söhne&gt;"));
    for (line, message) in [
        ("team 0 Elm", "a name stands in quotes: team 0 \"Elm\""),
        ("team 0", "a name is given as 'team N \"NAME\"'"),
        ("team 4 \"Elm\"", "'4' is not a team; teams are 0 to 3"),
        ("slot 4 \"1 May\"", "'4' is not a slot; slots are 1 to 3"),
        ("team 0 \"Elm\"x", "a blank is missing after the name \"Elm\""),
        ("team 0 \"Elm", "the closing quote of a name is missing"),
        ("team 0 \" \"", "a name is empty"),
        ("team 0 \"E\\lm\"", "in a name, '\\' stands only before '\"' or '\\'"),
        ("\"Elm\" 0", "a line does not begin with a name; it begins with teams, slots, team, slot, game or a kind such as CA1"),
        ("game 0 2 2 \"Elm\"", "a game is written 'game HOME AWAY SLOT', with '-' for SLOT if it is unplaced"),
        ("SE1 hard sum weight=1 w=1 T1=all \"a\" \"b\"", "\"b\": a constraint has one name only"),
    ] {
        folder.put("b.txt", format!("{SEASON}{line}\n"));
        assert_eq!(folder.bad("encode b.txt"), format!("b.txt:5: {message}\n"));
    }
    folder.put("c.txt", format!("{SEASON}team 0 \"{}\"\n", "x".repeat(61)));
    assert_eq!(folder.bad("encode c.txt"), "c.txt:5: a name has more than 60 characters\n");
    folder.put("c.txt", format!("{SEASON}team 0 \"Elm\"\nteam 0 \"Oak\"\n"));
    assert_eq!(folder.bad("encode c.txt"), "c.txt:6: team 0 already has the name \"Elm\"\n");
    folder.put("c.txt", format!("{SEASON}team 0 \"Elm\"\nteam 3 \"Elm\"\n"));
    assert!(folder.notes("encode c.txt c.bin").contains("c.txt: note: teams 0 and 3 have the same name, Elm"));
    folder.put("c.bin.names", "team 9 \"Elm\"\nplace 3 \"x\"\nconstraint 0 \"y\"\n");
    assert_eq!(
        folder.bad("decode c.bin"),
        "c.bin.names:1: '9' is not a team; teams are 0 to 3\n\
         c.bin.names:2: a line of names begins with team, slot or constraint\n\
         c.bin.names:3: '0' is not a constraint; there are 0, numbered from 0\n"
    );
}

#[test]
fn slips_are_told() {
    let folder = Folder::new("slips");
    folder.sample("season-a.bin").sample("season-a.txt");
    // A byte order mark is passed over.
    folder.put("bom.txt", [b"\xef\xbb\xbf", &folder.get("season-a.txt")[..]].concat());
    assert_eq!(
        folder.notes("encode bom.txt bom.bin"),
        "bom.txt:1: note: the file begins with a byte order mark (BOM), which is passed over\n"
    );
    assert!(folder.get("bom.bin") == folder.get("season-a.bin"));
    for (line, messages) in [
        ("ca1 home hard sum weight=1 kmax=1 T1=0 S=1", vec!["'ca1': a kind is written in capitals, CA1"]),
        ("Game 0 2 2", vec!["'Game' is written game"]),
        (
            "CA1 Home hard SUM weight=1 KMAX=1 t1=0 S=1",
            vec!["'Home' is written home", "'SUM' is written sum", "'KMAX' is written kmax", "'t1' is written T1"],
        ),
        ("CA1 home hard sum weight=1 kmax=1 T1=0, 2 ,3 S=1", vec!["no blank stands before or after a comma: write T1=0,2,3"]),
        (
            "CA1 home hard sum weight=1 kmax=1 T1=0, 9 S=1, 2",
            vec![
                "no blank stands before or after a comma: write T1=0,9",
                "no blank stands before or after a comma: write S=1,2",
                "'9' is not a team; teams are 0 to 3",
            ],
        ),
    ] {
        folder.put("a.txt", format!("{SEASON}{line}\n"));
        let lines: String = messages.iter().map(|message| format!("a.txt:5: {message}\n")).collect();
        assert_eq!(folder.bad("encode a.txt"), lines);
    }
    assert_eq!(
        folder.bad("encode season-a.bin"),
        "season-a.bin: these are bytes, not text; 'season-text decode' turns bytes into text\n"
    );
    assert_eq!(
        folder.bad("decode season-a.txt"),
        "season-a.txt: this is text, not bytes; 'season-text encode' turns text into bytes\n"
    );
    folder.put("utf16.txt", b"\xff\xfet\0e\0a\0m\0s\0");
    assert_eq!(folder.bad("encode utf16.txt"), "utf16.txt: this text is UTF-16; save it as UTF-8\n");
    folder.put("latin.txt", b"teams 4\nslots 3\nteam 0 \"K\xf6ln\"\n");
    assert_eq!(folder.bad("report latin.txt"), "latin.txt:3: the byte 0xf6 is not UTF-8; save the file as UTF-8\n");
    assert!(folder.bad("report none.txt").starts_with("none.txt: "));
}

#[test]
fn every_fault_is_told() {
    let folder = Folder::new("faults");
    let text = "teams 40\nslots 3\ngame 0 1 1\ngame 0 1 9\ngame 1 1 2\nCA1 hard sum weight=0 T1=all S=4\n";
    folder.put("a.txt", text);
    assert_eq!(
        folder.bad("encode a.txt"),
        "a.txt:1: teams has to be a number from 2 to 32, not '40'\n\
         a.txt:4: '9' is not a slot; slots are 1 to 3\n\
         a.txt:5: team 1 cannot play against itself\n\
         a.txt:6: weight has to be a number from 1 to 255, not '0'\n\
         a.txt:6: '4' is not a slot; slots are 1 to 3\n\
         a.txt:6: CA1 needs a side: home, away or any\n\
         a.txt:6: CA1 needs kmax=N\n"
    );
    folder.put("a.txt", "teams 4\nslots 3\ngame 8 9 4\n");
    assert_eq!(
        folder.bad("encode a.txt"),
        "a.txt:3: '8' is not a team; teams are 0 to 3\n\
         a.txt:3: '9' is not a team; teams are 0 to 3\n\
         a.txt:3: '4' is not a slot; slots are 1 to 3\n"
    );
    // At most 20, and how many more.
    folder.put("b.txt", format!("teams 4\nslots 3\n{}", "game 0 9 1\n".repeat(50)));
    let told = folder.bad("encode b.txt");
    assert_eq!((told.lines().count(), told.lines().last()), (21, Some("and 30 more")));
    // A missing size is told once, not once a line.
    folder.put("c.txt", "slots 3\ngame 0 1 1\ngame 2 3 1\n");
    assert_eq!(folder.bad("encode c.txt"), "c.txt:2: there is no line 'teams N' before this\n");
}

#[test]
fn round_robins_are_noted() {
    let folder = Folder::new("round-robin");
    let single = "teams 4\nslots 6\ngame 0 1 1\ngame 2 3 1\ngame 0 2 2\ngame 1 3 2\ngame 0 3 3\ngame 1 2 3\n";
    let cases = [
        (single.to_string(), vec![]),
        (single.replace("game 1 2 3\n", ""), vec!["a.txt: note: team 1 and team 2 never meet; most pairs of teams meet once"]),
        (format!("{single}game 0 1 -\n"), vec!["a.txt:9: note: team 0 - team 1 stands twice (also in line 3)"]),
        (format!("{single}game 1 0 -\n"), vec!["a.txt:9: note: team 0 and team 1 meet twice; most pairs of teams meet once"]),
        // No round robin: only what stands twice.
        ("teams 9\nslots 3\ngame 0 1 1\ngame 0 1 2\n".into(), vec!["a.txt:4: note: team 0 - team 1 stands twice (also in line 3)"]),
    ];
    for (text, notes) in cases {
        folder.put("a.txt", text);
        assert_eq!(folder.notes("encode a.txt a.bin").lines().collect::<Vec<_>>(), notes);
    }
    let named = String::from_utf8(fs::read(examples().join("named8.txt")).unwrap()).unwrap();
    folder.put("a.txt", named.replacen("game 7 0 1\n", "game 0 7 1\n", 1));
    assert_eq!(
        folder.notes("encode a.txt a.bin").lines().collect::<Vec<_>>(),
        [
            "a.txt: note: Hazel - Ash is missing; most pairs of teams meet twice",
            "a.txt:57: note: Ash - Hazel stands twice (also in line 32)"
        ]
    );
    for name in ["named8", "league18", "trips20", "robinx-table1", "season-a"] {
        folder.sample(&format!("{name}.txt"));
        assert_eq!(folder.notes(&format!("encode {name}.txt {name}.bin")), "", "{name}");
    }
}

#[test]
fn sources_and_stale_outputs() {
    let folder = Folder::new("outputs");
    folder.sample("season-a.txt").sample("season-a.bin").put("wrong.txt", "teams 4\n");
    let text = folder.get("season-a.txt");
    // An output is never a source, by whatever name.
    fs::hard_link(folder.0.join("season-a.txt"), folder.0.join("link")).unwrap();
    for words in [
        "encode season-a.txt season-a.txt",
        "encode season-a.txt ./season-a.txt",
        "encode season-a.txt link",
        "encode season-a.txt a.bin season-a.txt",
        "page season-a.txt season-a.txt",
        "decode season-a.bin season-a.bin",
    ] {
        assert!(folder.bad(words).contains("is read by the command"), "{words}");
    }
    assert!(folder.bad("encode season-a.txt a.bin a.bin").contains("two outputs"));
    assert!(folder.bad("encode season-a.txt wrong.txt").contains("holds a season as text"));
    assert!(folder.bad("page season-a.bin wrong.txt").contains("holds a season as text"));
    assert!(folder.get("season-a.txt") == text && folder.has("wrong.txt") && folder.has("season-a.bin"));
    // A failed command leaves no output of an earlier one.
    folder.put("a.bin", "old").put("a.sheet", "old").put("a.bin.names", "old");
    folder.bad("encode wrong.txt a.bin a.sheet");
    assert!(!folder.has("a.bin") && !folder.has("a.sheet") && !folder.has("a.bin.names"));
    folder.put("a.txt", "old").put("a.html", "old");
    folder.bad("decode wrong.txt a.txt");
    folder.bad("page wrong.txt a.html");
    assert!(!folder.has("a.txt") && !folder.has("a.html"));
    folder.put("a.bin", "old");
    assert!(folder.bad("encode season-a.txt a.bin none/a.sheet").starts_with("none/a.sheet: "));
    assert!(!folder.has("a.bin"));
    // A text that somebody may have written stays.
    folder.bad("decode none.bin wrong.txt");
    assert!(folder.has("wrong.txt"));
    // A device is no stale output.
    folder.bad("encode wrong.txt /dev/null");
    assert!(Path::new("/dev/null").exists());
}

#[test]
fn reports() {
    let folder = Folder::new("reports");
    for name in ["season-a", "robinx-table1", "named8"] {
        folder.sample(&format!("{name}.txt"));
        compare_stored(&format!("{name}.report"), &folder.good(&format!("report {name}.txt")));
    }
    for name in ["league18", "largest32", "mixed32", "trips20"] {
        folder.sample(&format!("{name}.txt"));
        compare_stored(&format!("{name}.report"), &digest(&folder.good(&format!("report {name}.txt"))));
    }
    // A season in which nothing is broken, one with nothing in it, and one of 64 slots.
    folder.put("a.txt", "teams 2\nslots 1\ngame 0 1 1\nCA1 home hard sum weight=1 kmax=1 T1=all S=all\n");
    assert_eq!(
        folder.good("report a.txt"),
        "a.txt: 2 teams, 1 slot, 1 game, 1 constraint\n\n\
         Verdict: feasible: every game has a slot, and no hard constraint is broken\n\
         Infeasibility: 0 (0 of 1 hard constraint broken)\nObjective: 0 (there is no soft constraint)\n"
    );
    folder.put("a.txt", "teams 32\nslots 64\ngame 0 31 64\nCA1 away hard sum weight=2 kmin=2 kmax=255 T1=31 S=60-64\n");
    assert!(folder.good("report a.txt").contains("by 1  team 31: 1 away game in slots 60 to 64, at least 2: slot 64"));
}

/// What a report says of the one constraint of a season: what it asks for, and its deviations.
fn explained(folder: &Folder, season: String) -> Vec<String> {
    folder.put("a.txt", season);
    let report = folder.good("report a.txt");
    let lines: Vec<String> =
        report.lines().map(str::trim).skip_while(|line| !line.starts_with("asks: ")).map(str::to_string).collect();
    assert!(lines[1].starts_with("penalty: weight"), "{report}");
    [&lines[..1], &lines[2..]].concat()
}

/// Ash and Elm meet in slots 1, 2, 4 and 9, so with no slot, one and four between; Birch meets nobody twice.
#[test]
fn reports_of_separation() {
    let folder = Folder::new("separation");
    let names = "team 0 \"Ash\"\nteam 1 \"Birch\"\nteam 2 \"Elm\"\nslot 4 \"1 May\"\n";
    let games = "game 0 2 1\ngame 2 0 2\ngame 1 2 3\ngame 0 2 4\ngame 1 0 5\ngame 2 0 9\n";
    let of = |w: u8| explained(&folder, format!("teams 3\nslots 9\n{names}{games}SE1 soft sum weight=1 w={w} T1=all\n"));
    assert_eq!(
        of(1),
        [
            "asks: any two teams: at least 1 slot between two games against each other",
            "by 1  Ash and Elm: games in slots 1 and 2, no slot between, at least 1"
        ]
    );
    assert_eq!(
        of(4),
        [
            "asks: any two teams: at least 4 slots between two games against each other",
            "by 7  Ash and Elm: games in slots 1 and 2, no slot between, at least 4",
            "Ash and Elm: games in slots 2 and 4 (1 May), 1 slot between, at least 4"
        ]
    );
}

/// Ash is away in slots 1, 2 and, over a free slot, 4; at home in 5; away in 6, 7 and 8. Elm is away once.
#[test]
fn reports_of_trips() {
    let folder = Folder::new("trips");
    let names = "team 0 \"Ash\"\nteam 1 \"Birch\"\nteam 2 \"Cedar\"\nteam 3 \"Elm\"\nslot 4 \"1 May\"\n";
    let games = "game 1 0 1\ngame 2 0 2\ngame 3 0 4\ngame 0 3 5\ngame 1 0 6\ngame 2 0 7\ngame 3 0 8\n";
    let of = |constraint: &str| explained(&folder, format!("teams 4\nslots 8\n{names}{games}{constraint}\n"));
    assert_eq!(
        of("BR4 away soft sum weight=1 kmin=3 T1=0,3 S=all"),
        [
            "asks: each of Ash, Elm: at least 3 trips",
            "by 1  Ash: 2 trips, at least 3: slots 1, 2, 4 (1 May); slots 6, 7, 8",
            "by 3  Elm: no trip, at least 3"
        ]
    );
    assert_eq!(
        of("BR4 away hard sum weight=1 kmin=2 T1=0 S=2-8"),
        [
            "asks: Ash: at least 2 trips that begin and end in slots 2 to 8",
            "by 1  Ash: 1 trip that begins and ends in slots 2 to 8, at least 2: slots 6, 7, 8; one end outside: slots 1, 2, 4 (1 May)"
        ]
    );
    assert_eq!(
        of("BR4 away hard sum weight=1 kmin=1 T1=all S=2,3"),
        [
            "asks: each team: at least 1 trip that begins and ends in slots 2, 3",
            "by 1  Ash: no trip that begins and ends in slots 2, 3, at least 1",
            "by 1  Birch: no trip that begins and ends in slots 2, 3, at least 1",
            "by 1  Cedar: no trip that begins and ends in slots 2, 3, at least 1",
            "by 1  Elm: no trip that begins and ends in slots 2, 3, at least 1"
        ]
    );
    assert_eq!(
        of("CA5 away soft sum weight=1 kmax=2 T1=all T2=all S=all"),
        [
            "asks: each team: at most 2 away games on each trip",
            "by 2  Ash: 3 away games on the trip in slots 1 to 4 (1 May), at most 2: slots 1, 2, 4 (1 May)",
            "Ash: 3 away games on the trip in slots 6 to 8, at most 2: slots 6, 7, 8"
        ]
    );
    assert_eq!(
        of("CA5 away soft sum weight=1 kmin=0 kmax=1 T1=0 T2=1,3 S=1,4"),
        [
            "asks: Ash: at most 1 away game against Birch, Elm on each trip that begins and ends in slots 1, 4 (1 May)",
            "by 1  Ash: 2 away games against Birch, Elm on the trip in slots 1 to 4 (1 May), at most 1: slots 1, 4 (1 May)"
        ]
    );
    assert_eq!(
        of("CA5 away soft sum weight=1 kmin=2 kmax=2 T1=0 T2=0,2 S=5-8"),
        [
            "asks: Ash: exactly 2 away games against Ash, Cedar on each trip that begins and ends in slots 5 to 8",
            "by 1  Ash: 1 away game against Ash, Cedar on the trip in slots 6 to 8, at least 2: slot 7"
        ]
    );
    assert_eq!(
        of("CA5 away soft sum weight=1 kmin=1 kmax=2 T1=0 T2=0 S=5-8"),
        [
            "asks: Ash: 1 to 2 away games against Ash on each trip that begins and ends in slots 5 to 8",
            "by 1  Ash: no away game against Ash on the trip in slots 6 to 8, at least 1"
        ]
    );
    // Where a game is missing on a trip, its games are marked on the page, and the ends of the trip lead to them.
    folder.good("page a.txt a.html");
    let page = String::from_utf8(folder.get("a.html")).unwrap();
    assert!(page.contains("on the trip in slots <a href=\"#t0s6\">6</a> to <a href=\"#t0s8\">8</a>, at least 1"), "{page}");
    for (slot, marked) in [(1, false), (5, false), (6, true), (7, true), (8, true)] {
        let cell = page.split_once(&format!("<td id=\"t0s{slot}\"")).unwrap().1.split_once('>').unwrap().0;
        assert_eq!(cell.contains("soft-"), marked, "slot {slot}: {cell}");
    }
}

#[test]
fn refusals_are_told() {
    let folder = Folder::new("refusals");
    folder.sample("season-a.bin");
    let bytes = folder.get("season-a.bin");
    let damaged = |changes: &[(usize, u8)]| {
        let mut bytes = bytes.clone();
        changes.iter().for_each(|&(at, value)| bytes[at] = value);
        bytes
    };
    for (bytes, told) in [
        (bytes[..5].to_vec(), "refused 1\nthe season has 5 bytes, and its sizes alone have 6"),
        (damaged(&[(0, 33), (1, 0)]), "refused 2\n33 teams, and 2 to 32 are possible\n0 slots, and 1 to 64 are possible"),
        (bytes[..100].to_vec(), "refused 3\nwith 6 games and 4 constraints a season has 114 bytes, and there are 100"),
        (
            damaged(&[(8, 9), (6, 1)]),
            "refused 4\ngame 0 (team 1 - team 1): a team cannot play against itself\n\
             game 2 (team 9 - team 2): there is no team 9; teams are 0 to 3",
        ),
        (
            damaged(&[(25, 1), (26, 99), (45, 0)]),
            "refused 5\nconstraint 0: CA1 has no field w\nconstraint 1: no kind has the number 99\n\
             constraint 3: no function has the number 0",
        ),
        (bytes[..119].to_vec(), "refused 7\nthe sheet has 5 items, and there are 6 games"),
        (
            damaged(&[(119, 1), (118, 4)]),
            "refused 8\ngame 4 (team 0 - team 2): there is no slot 4; slots are 1 to 3\n\
             team 3 has two games in slot 1: game 1 (team 2 - team 3) and game 5 (team 3 - team 1)\n\
             team 1 has two games in slot 1: game 0 (team 0 - team 1) and game 5 (team 3 - team 1)",
        ),
    ] {
        folder.put("a.bin", bytes);
        let lines: String = told.lines().map(|line| format!("a.bin: {line}\n")).collect();
        for command in ["report a.bin", "page a.bin a.html", "play a.bin season-a.bin"] {
            assert_eq!(folder.bad(command), lines);
        }
    }
    let meetings = [vec![2, 1, 9, 0, 0, 0], vec![0; 9], vec![1; 9], vec![0; 9]].concat();
    folder.put("a.bin", meetings);
    assert!(folder.bad("report a.bin").contains("game 8 (team 0 - team 1): the pair's game number 9, and at most 8 are possible"));
}

#[test]
fn moves() {
    let folder = Folder::new("moves");
    folder.sample("season-a.txt").sample("season-a.moves").sample("named8.txt").sample("league18.txt").sample("league18.calls");
    compare_stored("season-a.play", &folder.good("play season-a.txt season-a.moves --check"));
    folder.sample("named8.moves");
    compare_stored("named8.play", &folder.good("play named8.txt named8.moves --check"));
    // The last sheet in the three forms.
    folder.good("play named8.txt named8.moves a.txt a.bin a.html");
    folder.good("encode a.txt b.bin");
    assert!(folder.get("a.bin") == folder.get("b.bin") && folder.get("a.bin.names") == folder.get("b.bin.names"));
    folder.good("page a.txt b.html");
    let without_title = |name: &str| {
        String::from_utf8(folder.get(name))
            .unwrap()
            .replace("named8", "T")
            .replace("<title>a", "<title>T")
            .replace("<h1>a", "<h1>T")
    };
    assert!(without_title("a.html") == without_title("b.html"));
    let long = folder.good("play league18.txt league18.calls --check");
    assert!(long.ends_with("of the tally are those of a fresh opening\n"), "{long}");
    // Faults of a list: all of them, before any move is made.
    folder.put("wrong.moves", "set 0\nset 0 1\nmove 1 2\nset 1 -2\nexchange 1 x # no\nundo\n");
    let told = folder.bad("play season-a.txt wrong.moves a.txt a.html");
    assert_eq!(told.lines().count(), 5);
    assert!(told.starts_with("wrong.moves:1: 'set 0': a move is 'set GAME SLOT'"), "{told}");
    assert!(folder.has("a.txt") && !folder.has("a.html"));
    assert!(folder.bad("play season-a.txt season-a.moves a.doc").contains("a.doc: an output of play ends in .txt, .bin or .html"));
    assert!(folder.bad("play season-a.txt season-a.moves season-a.txt").contains("is read by the command"));
    assert!(folder.bad("play - -").contains("cannot both come from standard input"));
}

/// docs/TEXT.md shows what the commands print.
#[test]
fn the_page_on_the_text_form_is_right() {
    let folder = Folder::new("docs");
    folder.sample("named8.txt").sample("named8.moves").sample("season-a.txt").sample("league18.txt").sample("trips20.txt");
    let docs = fs::read_to_string(examples().join("../docs/TEXT.md")).unwrap();
    let block = |first: &str| -> Vec<String> {
        let rest = docs.split_once(&format!("    $ season-text {first}")).unwrap_or_else(|| panic!("docs/TEXT.md: {first}")).1;
        let lines = rest.lines().skip(1).take_while(|line| line.is_empty() || line.starts_with("    "));
        lines.map(str::trim).filter(|line| !line.is_empty() && *line != "..").map(str::to_string).collect()
    };
    let printed = |words: &str| -> Vec<String> { folder.good(words).lines().map(|line| line.trim().to_string()).collect() };
    let report = printed("report named8.txt");
    for line in block("report examples/named8.txt") {
        assert!(report.contains(&line.replace("examples/", "")), "docs/TEXT.md: {line}");
    }
    assert_eq!(block("play examples/named8.txt"), printed("play named8.txt named8.moves --check"));
    let season_a = String::from_utf8(folder.get("season-a.txt")).unwrap();
    for line in season_a.lines().filter(|line| !line.starts_with('#')) {
        assert!(docs.contains(line), "docs/TEXT.md: {line}");
    }
    // The sentences of the table are those of the samples, without the dates.
    let dates = |line: &str| -> String {
        line.split(" (")
            .enumerate()
            .map(|(at, part)| if at == 0 { part } else { part.split_once(')').map_or(part, |(_, rest)| rest) })
            .collect()
    };
    let mut plain: Vec<String> = report.iter().map(|line| dates(line)).collect();
    plain.extend(printed("report league18.txt"));
    plain.extend(printed("report trips20.txt"));
    let sentences = docs.split_once("| a deviation |").unwrap().1.lines().skip(2).take_while(|line| line.starts_with('|'));
    for sentence in sentences {
        let sentence = sentence.split('`').nth(1).unwrap();
        let parts: Vec<&str> = sentence.split("..").collect();
        assert!(
            plain.iter().any(|line| parts.iter().all(|part| line.contains(part.trim_end_matches(';')))),
            "docs/TEXT.md: {sentence}"
        );
    }
}
