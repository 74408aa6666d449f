// The hundredths between which a contact lies, through the safe functions: the examples, at the limits, refused.
use ukhtvaresh::{contact, read, sheet_vec, star_contact, star_vec, Bracket, Entry, Phase, Refusal};

fn example(name: &str) -> Vec<u8> {
    std::fs::read(format!("{}/../examples/{name}", env!("CARGO_MANIFEST_DIR"))).expect("an example")
}

// The request with another guard; the guard is the last two bytes of a request.
fn guarded(mut request: Vec<u8>, guard: u16) -> Vec<u8> {
    let at = request.len() - 2;
    request[at..].copy_from_slice(&guard.to_be_bytes());
    request
}

// The bracket of each enter and leave lies between its two seconds and is narrow.
fn all_bracketed(entries: &[Entry], find: impl Fn(Phase, i64, i64) -> Result<Bracket, Refusal>) -> usize {
    let mut count = 0;
    for entry in entries {
        let (Entry::Enter { phase, from, to, .. } | Entry::Leave { phase, from, to, .. }) = *entry else {
            continue;
        };
        let Bracket { earlier, later } = find(phase, from, to).expect("a bracket");
        assert!(100 * from <= earlier && earlier < later && later <= 100 * to, "{entry:?}");
        assert!(later - earlier <= 3, "{entry:?} {earlier} {later}");
        count += 1;
    }
    count
}

#[test]
fn every_contact_of_the_examples() {
    for (name, contacts) in [("hopkinsville2017.bin", 4), ("moscow1954.bin", 2), ("kiev1954.bin", 4)] {
        let request = guarded(example(name), 32);
        let entries = read(&sheet_vec(&request).expect("a sheet")).expect("entries");
        assert_eq!(
            all_bracketed(&entries, |phase, from, to| contact(&request, phase, from, to)),
            contacts,
            "{name}"
        );
    }
    for name in ["potsdam1956.bin", "kansas1949.bin"] {
        let request = guarded(example(name), 32);
        let entries = read(&star_vec(&request).expect("a sheet")).expect("entries");
        assert!(all_bracketed(&entries, |_, from, to| star_contact(&request, from, to)) >= 1, "{name}");
    }
}

#[test]
fn a_guard_below_32_counts_as_32() {
    let request = example("hopkinsville2017.bin");
    let found = |guard| contact(&guarded(request.clone(), guard), Phase::Central, 1_550, 1_551);
    assert_eq!(found(16), Ok(Bracket { earlier: 155_019, later: 155_020 }));
    assert_eq!(found(16), found(32));
    assert_ne!(found(16), found(1_000));
}

#[test]
fn seconds_far_apart() {
    let request = example("hopkinsville2017.bin");
    let near = contact(&request, Phase::Central, 1_550, 1_551);
    assert_eq!(contact(&request, Phase::Central, -10_800, 1_600), near);
    assert_eq!(contact(&request, Phase::Central, 0, 1_551), near);
}

#[test]
fn refused() {
    let request = example("hopkinsville2017.bin");
    assert_eq!(contact(&request[1..], Phase::Central, 1_550, 1_551), Err(Refusal::Shape));
    for (from, to) in [(1_551, 1_550), (-10_801, 0), (0, 10_801), (i64::MIN, i64::MAX)] {
        assert_eq!(contact(&request, Phase::Central, from, to), Err(Refusal::Window));
    }
    assert_eq!(contact(&guarded(request.clone(), 15), Phase::Central, 1_550, 1_551), Err(Refusal::Guard));
    // both outside, both inside, one second
    for (from, to) in [(0, 1), (1_560, 1_570), (1_550, 1_550), (-10_800, 10_800)] {
        assert_eq!(contact(&request, Phase::Central, from, to), Err(Refusal::NoContact));
    }
    assert_eq!(contact(&request, Phase::Star, 1_550, 1_551), Err(Refusal::Phase));
    assert_eq!((Refusal::Phase.number(), Refusal::Phase.place()), (22, 0));
    assert_eq!((Refusal::NoContact.number(), Refusal::NoContact.place()), (22, 1));
    assert_eq!(star_contact(&request, 0, 1), Err(Refusal::Shape));
    assert_eq!(star_contact(&example("potsdam1956.bin"), -10_800, -10_799), Err(Refusal::NoContact));
}
