//! The text form: there and back, what it writes is accepted, and what it says about faults.

use checks::{example, seed, times, Check, Draft, Random, Shape};
use season_text::{decode, encode};

#[test]
fn the_examples_are_as_decode_writes_them() {
    for name in ["season-a", "league18", "largest32", "mixed32", "trips20"] {
        let text = String::from_utf8(example(&format!("{name}.txt"))).unwrap();
        let encoded = encode(&text).unwrap();
        let bytes = [encoded.season, encoded.sheet].concat();
        assert!(decode(&bytes).unwrap() == text, "{name}");
    }
}

#[test]
fn random_seasons_there_and_back() {
    let seed = seed(41);
    for case in 0..2000 * times() {
        let mut random = Random::new(seed, case);
        let draft = Draft::random(&mut random, if case % 20 == 0 { Shape::LARGEST } else { Shape::SMALL });
        let bytes = [draft.bytes(), draft.sheet.clone()].concat();
        let text = decode(&bytes).unwrap_or_else(|why| panic!("HOST_SEED={seed}, season {case}: {why}"));
        let encoded = encode(&text).unwrap();
        assert!(encoded.season == draft.bytes() && encoded.sheet == draft.sheet, "HOST_SEED={seed}, season {case}\n{text}");
        assert_eq!(encoded.deviations, reference::read(&encoded.season).unwrap().entries());
    }
}

/// Damaged bytes are decoded exactly when the library opens them.
#[test]
fn damaged_seasons_are_told() {
    let seed = seed(42);
    let (mut good, mut bad) = (0, 0);
    for case in 0..20000 * times() {
        let mut random = Random::new(seed, case);
        let draft = Draft::random(&mut random, Shape::SMALL);
        let mut bytes = [draft.bytes(), draft.sheet.clone()].concat();
        let at = random.below(bytes.len());
        bytes[at] = random.one_of(&[0, 1, 2, 6, 255, random.clone().bits() as u8]);
        let end = draft.bytes().len();
        let buffers = Check::buffers_for(&bytes[..end], &bytes[end..]);
        let reply = Check::new(format!("damaged text: HOST_SEED={seed}, season {case}"), &bytes[..end], buffers).open();
        match decode(&bytes) {
            Ok(text) => {
                assert!(!reply.declined, "HOST_SEED={seed}, season {case}: refusal {}\n{text}", reply.number);
                good += 1;
            }
            Err(why) => {
                assert!(reply.declined && !why.0.is_empty(), "HOST_SEED={seed}, season {case}: {why}");
                bad += 1;
            }
        }
    }
    println!("damaged text: {good} still seasons, {bad} not");
}

#[test]
fn faults_are_named_with_their_line() {
    let season = "teams 4\nslots 3\ngame 0 1 1\ngame 2 3 1\n";
    let cases = [
        ("teams 4\n", 0, "there is no line 'slots N'"),
        ("slots 4\ngame 0 1 1\n", 2, "there is no line 'teams N' before this"),
        ("teams 1\n", 1, "teams has to be a number from 2 to 32, not '1'"),
        ("teams 4\nslots 65\n", 2, "slots has to be a number from 1 to 64, not '65'"),
        ("teams 4\nslots 3\nteams 4\n", 3, "'teams' was already said"),
        ("teams\n", 1, "this is written 'teams N'"),
        ("# nothing\n\nTeam 4\n", 3, "'Team' is written team"),
        (
            "# nothing\n\nround 4\n",
            3,
            "'round' is not known here; a line begins with teams, slots, team, slot, game or a kind such as CA1",
        ),
        ("+game 0 1\n", 5, "a game is written 'game HOME AWAY SLOT', with '-' for SLOT if it is unplaced"),
        ("+game 0 4 1\n", 5, "'4' is not a team; teams are 0 to 3"),
        ("+game 0 -1 1\n", 5, "'-1' is not a team; teams are 0 to 3"),
        ("+game 0 0 2\n", 5, "team 0 cannot play against itself"),
        ("+game 0 1 4\n", 5, "'4' is not a slot; slots are 1 to 3"),
        ("+game 0 1 0\n", 5, "'0' is not a slot; slots are 1 to 3"),
        ("+game 0 2 1\n", 5, "team 0 already plays in slot 1 (line 3)"),
        ("+game 0 2 -\n\ngame 1 2 1 # twice\n", 7, "team 1 already plays in slot 1 (line 3)"),
        (
            "+CA9 home hard sum weight=1 kmax=1 T1=all S=all\n",
            5,
            "'CA9' is not known here; a line begins with teams, slots, team, slot, game or a kind such as CA1",
        ),
        ("+CA1 hard sum weight=1 kmax=1 T1=all S=all\n", 5, "CA1 needs a side: home, away or any"),
        ("+CA1 home sum weight=1 kmax=1 T1=all S=all\n", 5, "CA1 needs hard or soft"),
        ("+CA1 home hard weight=1 kmax=1 T1=all S=all\n", 5, "CA1 needs a function: sum, sq-sum, sum-sq, min or max"),
        ("+CA1 home hard sum kmax=1 T1=all S=all\n", 5, "CA1 needs weight=N"),
        ("+CA1 home hard sum weight=1 T1=all S=all\n", 5, "CA1 needs kmax=N"),
        ("+CA1 home hard sum weight=1 kmax=1 S=all\n", 5, "CA1 needs T1=TEAMS"),
        ("+CA1 home hard sum weight=1 kmax=1 T1=all\n", 5, "CA1 needs S=SLOTS"),
        ("+CA1 home hard sum weight=1 kmax=1 T1=all T2=all S=all\n", 5, "CA1 has no field T2"),
        ("+CA1 home hard sum weight=1 kmax=1 w=1 T1=all S=all\n", 5, "CA1 has no field w"),
        ("+CA1 each home hard sum weight=1 kmax=1 T1=all S=all\n", 5, "'each' is not known in a line of CA1"),
        ("+CA1 home away hard sum weight=1 kmax=1 T1=all S=all\n", 5, "'away': this was already said"),
        ("+CA1 home hard sum weight=1 kmax=1 kmax=1 T1=all S=all\n", 5, "'kmax=1': this was already said"),
        ("+CA1 home hard sum weight=0 kmax=1 T1=all S=all\n", 5, "weight has to be a number from 1 to 255, not '0'"),
        ("+CA1 home hard sum weight=1 kmax=256 T1=all S=all\n", 5, "kmax has to be a number from 0 to 255, not '256'"),
        ("+CA1 home hard sum weight=1 kmin=2 kmax=1 T1=all S=all\n", 5, "kmin 2 is above kmax 1"),
        ("+CA1 home hard sum weight=1 kmax=1 T1=1,4 S=all\n", 5, "'4' is not a team; teams are 0 to 3"),
        ("+CA1 home hard sum weight=1 kmax=1 T1= S=all\n", 5, "'' is not a team; teams are 0 to 3"),
        ("+CA1 home hard sum weight=1 kmax=1 T1=2-1 S=all\n", 5, "'2-1' runs backwards"),
        ("+CA1 home hard sum weight=1 kmax=1 T1=0-2,1 S=all\n", 5, "'0-2,1' names 1 twice"),
        ("+CA1 home hard sum weight=1 kmax=1 T1=all S=0-2\n", 5, "'0' is not a slot; slots are 1 to 3"),
        ("+CA1 home hard sum weight=1 kmax=1 T1=all X=1\n", 5, "'X' is not a field; there are weight, kmin, kmax, w, T1, T2 and S"),
        ("+GA1 home hard sum weight=1 kmax=1 T1=all T2=all S=all\n", 5, "GA1 has no side"),
        ("+CA2 home hard sum weight=1 kmax=1 T1=0 T2=1 S=all\n", 5, "CA2 needs more than one team in T1 or in T2"),
        ("+CA4 home hard sum weight=1 kmax=1 T1=0 T2=1 S=all\n", 5, "CA4 needs at least two teams in T1"),
        ("+BR2 home hard sum weight=1 kmax=0 T1=all S=all\n", 5, "kmax has to be a number from 1 to 255, not '0'"),
        ("+BR4 hard sum weight=1 kmin=1 T1=all S=all\n", 5, "BR4 needs its side, away"),
        ("+BR4 home hard sum weight=1 kmin=1 T1=all S=all\n", 5, "'home': the side of BR4 is away"),
        ("+BR4 exactly away hard sum weight=1 kmin=1 T1=all S=all\n", 5, "'exactly' is not known in a line of BR4"),
        ("+BR4 away hard sum weight=1 T1=all S=all\n", 5, "BR4 needs kmin=N"),
        ("+BR4 away hard sum weight=1 kmin=1 kmax=2 T1=all S=all\n", 5, "BR4 has no field kmax"),
        ("+BR4 away hard sum weight=1 kmin=1 w=2 T1=all S=all\n", 5, "BR4 has no field w"),
        ("+BR4 away hard sum weight=1 kmin=1 T1=all T2=all S=all\n", 5, "BR4 has no field T2"),
        ("+BR4 away hard sum weight=1 kmin=1 T1=all\n", 5, "BR4 needs S=SLOTS"),
        ("+CA5 any hard sum weight=1 kmax=1 T1=0 T2=1 S=all\n", 5, "'any': the side of CA5 is away"),
        ("+CA5 away hard sum weight=1 kmin=1 T1=0 T2=1 S=all\n", 5, "CA5 needs kmax=N"),
        ("+CA5 away hard sum weight=1 kmin=2 kmax=1 T1=0 T2=1 S=all\n", 5, "kmin 2 is above kmax 1"),
        ("+CA5 away hard sum weight=1 kmax=1 T1=0 S=all\n", 5, "CA5 needs T2=TEAMS"),
        ("+CA5 away hard sum weight=1 kmax=1 w=1 T1=0 T2=1 S=all\n", 5, "CA5 has no field w"),
        ("+SE1 hard sum weight=1 w=0 T1=all\n", 5, "w has to be a number from 1 to 255, not '0'"),
        ("+SE1 hard sum weight=1 kmax=0 w=1 T1=all\n", 5, "SE1 has no field kmax"),
    ];
    for (text, line, message) in cases {
        let text = text.strip_prefix('+').map_or(text.into(), |rest| format!("{season}{rest}"));
        let fault = &encode(&text).expect_err(&text).0[0];
        assert_eq!((fault.line, fault.message.as_str()), (line, message), "{text}");
    }
    let meetings = format!("teams 2\nslots 64\n{}", "game 0 1 -\n".repeat(9));
    assert_eq!(encode(&meetings).unwrap_err().to_string(), "line 11: team 0 and team 1 have more than 8 games");
    let constraints = format!("{season}{}", "SE1 hard sum weight=1 w=1 T1=all\n".repeat(1025));
    assert_eq!(encode(&constraints).unwrap_err().to_string(), "line 1029: there are more than 1024 constraints");
    assert_eq!(encode("").unwrap_err().to_string(), "there is no line 'teams N'\nthere is no line 'slots N'");
    // A side that a kind does not have is told once, not as missing too.
    let side = format!("{season}BR4 home hard sum weight=1 kmin=1 T1=all S=all\n");
    assert_eq!(encode(&side).unwrap_err().to_string(), "line 5: 'home': the side of BR4 is away");
}

/// What the lines of CA5 and BR4 stand for, byte by byte, and as `decode` writes them.
#[test]
fn lines_of_trips() {
    let cases = [
        ("BR4 away soft sum weight=5 kmin=2 T1=all S=all", [34, 2, 0, 1, 5, 2, 0, 0], [15, 0, 7]),
        ("BR4 away hard max weight=255 kmin=255 T1=3 S=2", [34, 2, 1, 5, 255, 255, 0, 0], [8, 0, 2]),
        ("CA5 away hard sum weight=10 kmin=0 kmax=1 T1=0 T2=2,3 S=1,2", [15, 2, 1, 1, 10, 0, 1, 0], [1, 12, 3]),
        ("CA5 away soft sum-sq weight=1 kmin=2 kmax=2 T1=0-2 T2=3 S=all", [15, 2, 0, 3, 1, 2, 2, 0], [7, 8, 7]),
    ];
    for (line, head, [t1, t2, s]) in cases {
        let encoded = encode(&format!("teams 4\nslots 3\n{line}\n")).unwrap();
        let body = [t1, 0, 0, 0, t2, 0, 0, 0, s, 0, 0, 0, 0, 0, 0, 0];
        assert_eq!(encoded.season[6..], [&head[..], &body].concat(), "{line}");
        assert_eq!(encoded.deviations, t1.count_ones() as usize, "{line}");
        let text = decode(&[encoded.season, encoded.sheet].concat()).unwrap();
        assert!(text.ends_with(&format!("\n{line}  # 0\n")), "{text}");
    }
}

#[test]
fn damaged_bytes_are_named() {
    let bytes = example("season-a.bin");
    let told = |at: usize, value: u8| {
        let mut damaged = bytes.clone();
        damaged[at] = value;
        decode(&damaged).unwrap_err().0[0].message.clone()
    };
    assert_eq!(decode(&bytes[..5]).unwrap_err().to_string(), "a season has at least 6 bytes, and there are 5");
    assert_eq!(
        decode(&bytes[..119]).unwrap_err().to_string(),
        "with 6 games and 4 constraints, season and sheet have 120 bytes, and there are 119"
    );
    assert_eq!(told(0, 33), "sizes: teams has to be a number from 2 to 32, not '33'");
    assert_eq!(told(8, 9), "game 2: '9' is not a team; teams are 0 to 3");
    assert_eq!(told(18, 10), "constraint 0: no kind has the number 10");
    assert_eq!(told(27, 7), "constraint 1: BR2 has no mode 7");
    assert_eq!(told(26, 34), "constraint 1: BR4 has no mode 3");
    assert_eq!(told(42, 15), "constraint 3: CA5 has no field w");
    assert_eq!(told(36, 2), "constraint 2: hard is 1 or 0, not 2");
    assert_eq!(told(45, 0), "constraint 3: no function has the number 0");
    assert_eq!(told(25, 1), "constraint 0: CA1 has no field w");
    assert_eq!(told(50, 17), "constraint 0: '4' is not a team; teams are 0 to 3");
    assert_eq!(told(119, 1), "game 5: team 3 already plays in slot 1 (game 1)");
}
