//! The C declarations that documents show are those of the header, and so is the version.

fn file(name: &str) -> String {
    let path = format!("{}/../../{name}", env!("CARGO_MANIFEST_DIR"));
    std::fs::read_to_string(&path).unwrap_or_else(|error| panic!("{path}: {error}"))
}

/// Without comments, and with one blank between words.
fn plain(text: &str) -> String {
    let mut code = String::new();
    for (k, part) in text.split("/*").enumerate() {
        code += if k == 0 { part } else { part.split_once("*/").expect("a comment has an end").1 };
    }
    code.split_whitespace().collect::<Vec<_>>().join(" ")
}

#[test]
fn declarations_are_the_header_s() {
    let header = plain(&file("include/season_checker.h"));
    for name in ["README.md", "docs/FORMAT.md"] {
        let text = file(name);
        let blocks: Vec<&str> = text.split("```c\n").skip(1).map(|rest| rest.split("```").next().unwrap()).collect();
        assert!(!blocks.is_empty(), "{name}");
        for block in blocks {
            let code: String = block.lines().filter(|line| !line.starts_with("#include")).map(|line| format!("{line}\n")).collect();
            let calls = plain(&code);
            assert_eq!(calls.matches("season_reply season_").count(), 3, "{name}: {calls}");
            let (reply, calls) = calls.split_once("season_reply season_").unwrap();
            assert!(header.contains(reply.trim()), "{name}: {reply}");
            for call in format!("season_reply season_{calls}").split_inclusive(';') {
                assert!(header.contains(call.trim()), "{name}: {call}");
            }
        }
    }
}

#[test]
fn the_last_change_is_the_header_s_version() {
    let header = file("include/season_checker.h");
    let version = header.split("#define SEASON_CHECKER_VERSION \"").nth(1).unwrap().split('"').next().unwrap();
    let changes = file("CHANGELOG.md");
    let last = changes.lines().find_map(|line| line.strip_prefix("## ")).unwrap();
    assert_eq!(last, version);
}
