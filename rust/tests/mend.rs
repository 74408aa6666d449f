//! A file of sheets mended.

use ukhtvaresh::{mend, mend_into, sheet_vec, Refusal, Stretch};

fn sheets() -> Vec<u8> {
    let requests =
        [&include_bytes!("../../examples/moscow1954.bin")[..], include_bytes!("../../examples/kiev1954.bin")];
    requests.iter().flat_map(|request| sheet_vec(request).expect("a sheet")).collect()
}

#[test]
fn whole_files_come_out_unchanged() {
    for file in [vec![], sheets(), sheets().repeat(1000)] {
        let mended = mend(&file);
        assert_eq!((mended.sheets, mended.stretches), (file, vec![]));
    }
}

#[test]
fn every_hole_is_noted() {
    let file = sheets();
    for from in 0..file.len() {
        for to in from + 1..=file.len() {
            let holed = [&file[..from], &file[to..]].concat();
            let mended = mend(&holed);
            let lost: u64 = mended.stretches.iter().map(|stretch| stretch.length).sum();
            assert_eq!(mended.sheets.len() as u64 + lost, holed.len() as u64);
            assert!(mended.stretches.windows(2).all(|pair| pair[0].start + pair[0].length < pair[1].start));
            let again = mend(&mended.sheets);
            assert_eq!((again.sheets, again.stretches), (mended.sheets, vec![]));
        }
    }
}

#[test]
fn the_shortest_sheet_between_two_bytes() {
    let sheet = [1, 0, 7, 0, 0, 0, 9, 0, 16, 0x30, 0, 5, 0, 0, 0, 0, 0x7F];
    let mended = mend(&[b"?", &sheet[..], b"?"].concat());
    assert_eq!(mended.sheets, sheet);
    assert_eq!(mended.stretches, [Stretch { start: 0, length: 1 }, Stretch { start: 18, length: 1 }]);
}

#[test]
fn an_old_head_is_dropped() {
    let mut file = sheet_vec(include_bytes!("../../examples/moscow1954.bin")).expect("a sheet");
    file.drain(7..9);
    let length = file.len() as u64;
    let mended = mend(&file);
    assert_eq!((mended.sheets, mended.stretches), (vec![], vec![Stretch { start: 0, length }]));
}

#[test]
fn short_rooms_are_left_alone() {
    let file = [&sheets()[..], b"?", &sheets()].concat();
    let (needed, mut sheets, mut dropped) = (file.len() - 1, vec![7; file.len()], vec![7; 17]);
    for (kept, noted, refused) in [(needed - 1, 0, needed), (needed, 15, 16), (needed, 0, 16)] {
        let answer = mend_into(&file, &mut sheets[..kept], &mut dropped[..noted]);
        assert_eq!(answer, Err(Refusal::Room { needed: refused as u64 }));
        assert!(sheets.iter().chain(&dropped).all(|&byte| byte == 7));
    }
    assert_eq!(mend_into(&file, &mut sheets[..needed], &mut dropped[..16]), Ok((needed, 16)));
    assert_eq!((sheets[needed], dropped[16]), (7, 7));
    assert_eq!(dropped[..16], [((needed / 2) as u64).to_be_bytes(), 1u64.to_be_bytes()].concat());
}

#[test]
fn nested_beginnings_take_no_longer() {
    let file = [0x13, 0x01, 0x00, 0x01, 0x00].repeat(1_000_000);
    let started = std::time::Instant::now();
    let mended = mend(&file);
    assert!(started.elapsed().as_secs() < 10);
    assert_eq!(mended.stretches, [Stretch { start: 0, length: 5_000_000 }]);
}
