//! Every refusal number: cases by hand, damaged seasons and sheets, wrong lengths, and which of several faults comes first.

use checks::{example, seed, times, Check, Draft, Lent, Random, Shape, KIND_MODES};
use reference::{read, Buffers, Call};
use std::collections::BTreeMap;

const CALLS: [Call; 3] = [Call::Open, Call::Set { game: 0, slot: 0 }, Call::Exchange { game: 0, other: 1 }];

/// Makes the three calls on a season that may be damaged, with buffers of its own right lengths and of given ones.
fn compare_all(name: &str, bytes: &[u8], sheet: &[u8], ledger: usize, tally: usize, seen: &mut BTreeMap<u8, u64>) {
    let mut fitting = vec![Buffers { sheet: sheet.to_vec(), ledger: vec![1; ledger], tally: vec![1; tally] }];
    if let Ok(season) = read(bytes) {
        let mut sheet = sheet.to_vec();
        sheet.resize(season.games.len(), 0);
        fitting.push(Buffers { sheet, ledger: vec![1; season.entries()], tally: vec![1; season.constraints.len() + 2] });
    }
    for buffers in fitting {
        for call in CALLS {
            let mut check = Check::new(name.into(), bytes, buffers.clone());
            let reply = check.make(call);
            *seen.entry(if reply.declined { reply.number } else { 0 }).or_default() += 1;
        }
    }
}

/// A season with one constraint of every kind and mode.
fn all_kinds(random: &mut Random, shape: Shape) -> Draft {
    let mut draft = Draft::random(random, shape);
    draft.constraints.clear();
    for (kind, lowest, highest) in KIND_MODES {
        for mode in lowest..=highest {
            draft.add_constraint(random, kind, mode);
        }
    }
    draft
}

#[test]
fn by_hand() {
    let bytes = example("season-a.bin");
    let (season, sheet) = bytes.split_at(114);
    let set = |game, slot| Call::Set { game, slot };
    let exchange = |game, other| Call::Exchange { game, other };
    let head = 6 + 2 * 6;
    let body = head + 8 * 4;
    // bytes to change (place, value) in season and sheet, call, number
    type Case = (&'static [(usize, u8)], &'static [(usize, u8)], Call, u8);
    let cases: Vec<Case> = vec![
        (&[(0, 1)], &[], Call::Open, 2),
        (&[(0, 33)], &[], Call::Open, 2),
        (&[(1, 0)], &[], Call::Open, 2),
        (&[(1, 65)], &[], set(0, 0), 2),
        (&[(3, 5)], &[], Call::Open, 2),
        (&[(5, 5)], &[], Call::Open, 2),
        (&[(2, 5)], &[], exchange(0, 1), 3),
        (&[(4, 3)], &[], Call::Open, 3),
        (&[(6, 4)], &[], Call::Open, 4),
        (&[(6, 1)], &[], Call::Open, 4),
        (&[(12, 255)], &[], set(0, 0), 4),
        (&[(18, 10)], &[], Call::Open, 5),
        (&[(19, 4)], &[], Call::Open, 5),
        (&[(20, 2)], &[], Call::Open, 5),
        (&[(21, 6)], &[], Call::Open, 5),
        (&[(22, 0)], &[], Call::Open, 5),
        (&[(23, 1)], &[], Call::Open, 5),
        (&[(25, 1)], &[], Call::Open, 5),
        (&[(50, 0)], &[], Call::Open, 5),
        (&[(50, 16)], &[], exchange(0, 1), 5),
        (&[(54, 1)], &[], Call::Open, 5),
        (&[(58, 0)], &[], Call::Open, 5),
        (&[(58, 8)], &[], set(0, 0), 5),
        (&[], &[(0, 4)], Call::Open, 8),
        (&[], &[(0, 2)], Call::Open, 8),
        (&[], &[(0, 255)], set(0, 1), 8),
        (&[], &[(5, 1)], exchange(9, 9), 8),
        (&[], &[], set(6, 0), 9),
        (&[], &[], set(u64::MAX, u64::MAX), 9),
        (&[], &[], set(1 << 32, 0), 9),
        (&[], &[], exchange(0, 6), 9),
        (&[], &[], exchange(6, 6), 9),
        (&[], &[], exchange(u64::MAX, 0), 9),
        (&[], &[], set(0, 4), 10),
        (&[], &[], set(0, 256), 10),
        (&[], &[], set(0, 1 << 32), 10),
        (&[], &[], set(0, u64::MAX), 10),
        (&[], &[], exchange(2, 2), 11),
        (&[], &[(2, 0)], exchange(2, 2), 11),
        (&[], &[(2, 0)], exchange(2, 3), 12),
        (&[], &[(2, 0)], exchange(3, 2), 12),
        (&[], &[], set(0, 2), 13),
        (&[], &[], set(0, 3), 13),
        (&[], &[], exchange(0, 2), 13),
    ];
    assert_eq!((head, body), (18, 50));
    for (in_season, in_sheet, call, number) in cases {
        let (mut season, mut sheet) = (season.to_vec(), sheet.to_vec());
        in_season.iter().for_each(|&(at, value)| season[at] = value);
        in_sheet.iter().for_each(|&(at, value)| sheet[at] = value);
        let books = Buffers { sheet, ledger: vec![3; 12], tally: vec![3; 6] };
        let mut lent = Lent::new(&season, &books);
        let reply = lent.call(call);
        let wanted = reference::Reply { declined: true, number, infeasibility: 0, objective: 0 };
        assert_eq!(reply, wanted, "{in_season:?} {in_sheet:?} {call:?}");
        let untouched = lent.sheet() == books.sheet && lent.ledger() == books.ledger && lent.tally() == books.tally;
        assert!(untouched && lent.season() == season, "{call:?} writes although it is refused");
    }
}

/// What CA5 and BR4 allow: each rule once kept and once broken.
#[test]
fn rules_of_trips() {
    let br4 = [34, 2, 1, 1, 1, 2, 0, 0];
    let ca5 = [15, 2, 1, 1, 1, 1, 2, 0];
    // head; T1, T2 and S of 4 teams and 3 slots; whether it is allowed
    let mut cases = vec![
        (br4, [15, 0, 7], true),
        (br4, [1, 0, 7], true),
        (br4, [8, 0, 4], true),
        (br4, [0, 0, 7], false),
        (br4, [16, 0, 7], false),
        (br4, [15, 1, 7], false),
        (br4, [15, 15, 7], false),
        (br4, [15, 0, 0], false),
        (br4, [15, 0, 8], false),
        (ca5, [15, 15, 7], true),
        (ca5, [1, 1, 1], true),
        (ca5, [8, 1, 4], true),
        (ca5, [0, 1, 7], false),
        (ca5, [15, 0, 7], false),
        (ca5, [15, 16, 7], false),
        (ca5, [15, 1, 0], false),
        (ca5, [15, 1, 8], false),
    ];
    // head, place and value of a byte
    for (head, t2, at, value, allowed) in [
        // the only mode is 2
        (br4, 0, 1, 0, false),
        (br4, 0, 1, 1, false),
        (br4, 0, 1, 3, false),
        (br4, 0, 1, 5, false),
        (ca5, 1, 1, 0, false),
        (ca5, 1, 1, 1, false),
        (ca5, 1, 1, 3, false),
        (ca5, 1, 1, 5, false),
        // hardness, functions, weight
        (br4, 0, 2, 2, false),
        (br4, 0, 3, 0, false),
        (br4, 0, 3, 5, true),
        (br4, 0, 3, 6, false),
        (br4, 0, 4, 0, false),
        (ca5, 1, 2, 0, true),
        (ca5, 1, 3, 5, true),
        (ca5, 1, 3, 6, false),
        (ca5, 1, 4, 0, false),
        // BR4: any kmin, no kmax
        (br4, 0, 5, 0, true),
        (br4, 0, 5, 255, true),
        (br4, 0, 6, 1, false),
        (br4, 0, 6, 2, false),
        (br4, 0, 6, 255, false),
        // CA5: kmin up to kmax
        (ca5, 1, 5, 0, true),
        (ca5, 1, 5, 2, true),
        (ca5, 1, 5, 3, false),
        (ca5, 1, 6, 0, false),
        (ca5, 1, 6, 1, true),
        (ca5, 1, 6, 255, true),
        // no w
        (br4, 0, 7, 1, false),
        (ca5, 1, 7, 1, false),
    ] {
        let mut head = head;
        head[at] = value;
        cases.push((head, [15, t2, 7], allowed));
    }
    for (head, [t1, t2, s], allowed) in cases {
        let body = [t1, 0, 0, 0, t2, 0, 0, 0, s, 0, 0, 0, 0, 0, 0, 0];
        let draft = Draft { teams: 4, slots: 3, games: vec![], constraints: vec![(head, body)], sheet: vec![] };
        let buffers = Buffers { sheet: vec![], ledger: vec![3; t1.count_ones() as usize], tally: vec![3; 3] };
        let mut lent = Lent::new(&draft.bytes(), &buffers);
        let reply = lent.call(Call::Open);
        let refusal = reply.declined.then_some(reply.number);
        assert_eq!(refusal, if allowed { None } else { Some(5) }, "{head:?}, T1 {t1}, T2 {t2}, S {s}");
        let untouched = lent.ledger() == buffers.ledger && lent.tally() == buffers.tally;
        assert_eq!(untouched, !allowed, "{head:?}, T1 {t1}, T2 {t2}, S {s}");
    }
}

#[test]
fn every_length() {
    let bytes = example("season-a.bin");
    let (season, sheet) = bytes.split_at(114);
    let mut seen = BTreeMap::new();
    // The season cut or lengthened, to nothing and to twice its length.
    let long = [season, season].concat();
    for length in 0..=long.len() {
        compare_all("lengths of the season", &long[..length], sheet, 12, 6, &mut seen);
    }
    // The sheet, the ledger and the tally too short and too long.
    for sheet_length in [0, 1, 5, 6, 7, 12] {
        for ledger in [0, 1, 11, 12, 13, 24] {
            for tally in [0, 1, 4, 5, 6, 7, 12] {
                let mut sheet = sheet.to_vec();
                sheet.resize(sheet_length, 0);
                compare_all("lengths of the buffers", season, &sheet, ledger, tally, &mut seen);
            }
        }
    }
    println!("lengths: {seen:?} (number: calls; 0: accepted)");
    assert!([0, 1, 3, 7].iter().all(|number| seen.contains_key(number)));
}

/// Each byte of season A takes every value.
#[test]
fn every_byte_of_season_a() {
    let bytes = example("season-a.bin");
    let mut seen = BTreeMap::new();
    for at in 0..bytes.len() {
        for value in 0..=255 {
            let mut damaged = bytes.clone();
            damaged[at] = value;
            let (season, sheet) = damaged.split_at(114);
            compare_all(&format!("season A, byte {at} is {value}"), season, sheet, 12, 6, &mut seen);
        }
    }
    println!("every byte of season A: {seen:?} (number: calls; 0: accepted)");
    assert!([0, 2, 3, 4, 5, 7, 8].iter().all(|number| seen.contains_key(number)));
}

/// Each byte of the heads takes every value, and each bit of the bodies flips, in a season with every kind and mode.
#[test]
fn every_field_of_every_kind() {
    let mut seen = BTreeMap::new();
    for case in 0..2 * times() {
        let seed = seed(31);
        let mut random = Random::new(seed, case);
        let draft = all_kinds(&mut random, Shape { teams: 6, slots: 8, games: 12, constraints: 1 });
        for (which, good) in draft.constraints.iter().enumerate() {
            // One constraint at a time, and once more among others.
            let mut alone = Draft { constraints: vec![*good], ..draft.clone() };
            if which % 8 == 0 {
                alone = draft.clone();
            }
            let at = if which % 8 == 0 { which } else { 0 };
            let mut damaged = Vec::new();
            for byte in 0..8 {
                for value in 0..=255 {
                    let mut bad = alone.clone();
                    bad.constraints[at].0[byte] = value;
                    damaged.push((format!("head byte {byte} is {value}"), bad));
                }
            }
            for bit in 0..128 {
                let mut bad = alone.clone();
                bad.constraints[at].1[bit / 8] ^= 1 << (bit % 8);
                damaged.push((format!("body bit {bit} flips"), bad));
            }
            for (from, to) in [(0, 4), (4, 8), (8, 16)] {
                let mut bad = alone.clone();
                bad.constraints[at].1[from..to].fill(0);
                damaged.push((format!("body bytes {from} to {to} are 0"), bad));
            }
            for (what, bad) in damaged {
                let bytes = bad.bytes();
                let entries = read(&alone.bytes()).unwrap().entries();
                let name = format!("every field: HOST_SEED={seed}, season {case}, constraint {at}: {what}");
                compare_all(&name, &bytes, &bad.sheet, entries, alone.constraints.len() + 2, &mut seen);
            }
        }
    }
    println!("every field of every kind: {seen:?} (number: calls; 0: accepted)");
    assert!([0, 5].iter().all(|number| seen.contains_key(number)));
}

/// Groups of one, two and no teams, for each kind and mode.
#[test]
fn small_groups() {
    let mut seen = BTreeMap::new();
    for (kind, _, highest) in KIND_MODES {
        for mode in 0..=highest + 1 {
            let mut random = Random::new(seed(32), u64::from(kind) * 16 + u64::from(mode));
            let mut draft = Draft { teams: 4, slots: 3, games: vec![(0, 1), (2, 3)], constraints: Vec::new(), sheet: vec![1, 1] };
            draft.add_constraint(&mut random, kind, 1);
            draft.constraints[0].0[1] = mode;
            for t1 in 0..16 {
                for t2 in 0..16 {
                    for s in [0, 1, 5, 7, 8] {
                        draft.constraints[0].1 = [0; 16];
                        draft.constraints[0].1[0] = t1;
                        draft.constraints[0].1[4] = t2;
                        draft.constraints[0].1[8] = s;
                        compare_all("small groups", &draft.bytes(), &draft.sheet, 1, 3, &mut seen);
                    }
                }
            }
        }
    }
    println!("small groups: {seen:?} (number: calls; 0: accepted)");
}

/// Random seasons with several faults at once: the first sentence gives the number.
#[test]
fn several_faults() {
    let seed = seed(33);
    let mut seen: BTreeMap<u8, u64> = BTreeMap::new();
    for case in 0..6000 * times() {
        let mut random = Random::new(seed, case);
        let draft = Draft::random(&mut random, if case % 50 == 0 { Shape::LARGEST } else { Shape::SMALL });
        let mut bytes = draft.bytes();
        let mut buffers = Check::buffers_for(&bytes, &draft.sheet);
        for _ in 0..random.within(0, 4) {
            damage(&mut random, &mut bytes, &mut buffers);
        }
        let games = draft.games.len() as u64;
        let numbers = [0, 1, games.saturating_sub(1), games, u64::MAX];
        let slots = [0, 1, draft.slots as u64, draft.slots as u64 + 1, u64::MAX];
        let calls = [
            Call::Open,
            Call::Set { game: random.one_of(&numbers), slot: random.one_of(&slots) },
            Call::Exchange { game: random.one_of(&numbers), other: random.one_of(&numbers) },
        ];
        for call in calls {
            let mut check = Check::new(format!("several faults: HOST_SEED={seed}, season {case}"), &bytes, buffers.clone());
            let reply = check.make(call);
            *seen.entry(if reply.declined { reply.number } else { 0 }).or_default() += 1;
        }
    }
    println!("several faults: {seen:?} (number: calls; 0: accepted)");
    assert!((0..=13).filter(|&number| number != 6).all(|number| seen.contains_key(&number)));
}

/// One fault, somewhere in the season or the buffers.
fn damage(random: &mut Random, bytes: &mut Vec<u8>, buffers: &mut Buffers) {
    match random.below(12) {
        0 => bytes.truncate(random.below(bytes.len() + 1)),
        1 => bytes.push(0),
        2 | 3 if bytes.len() >= 6 => {
            let at = random.below(6);
            bytes[at] = random.one_of(&[0, 1, 2, 4, 5, 32, 33, 64, 65, 255]);
        }
        4..=6 if !bytes.is_empty() => {
            let at = random.below(bytes.len());
            bytes[at] = random.bits() as u8;
        }
        7 if bytes.len() > 6 => {
            let at = random.within(6, bytes.len() - 1);
            bytes[at] ^= 1 << random.below(8);
        }
        8 if !buffers.sheet.is_empty() => {
            let at = random.below(buffers.sheet.len());
            buffers.sheet[at] = random.one_of(&[1, 2, 65, 255]);
        }
        9 => buffers.sheet.push(0),
        10 => buffers.ledger.push(0),
        _ => buffers.tally.truncate(random.below(buffers.tally.len() + 1)),
    }
}
