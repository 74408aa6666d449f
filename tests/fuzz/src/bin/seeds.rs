//! `seeds FOLDER`: what the fuzzer starts from, in FOLDER/read, listing, sheet, star, second, share, horizon,
//! star_horizon, contact, star_contact, network, elements, write and mend: the requests and sheets that the repository holds, and some drawn as
//! tests/agreement draws them.

use agreement::{draws, files, horizons, rows, sheets, stars};
use fuzz::{networks, tables};
use fuzz::requests::{LEAVE_NUMBERS, LEAVE_SECOND, LEAVE_SHAPE, OTHER_SINES, WITH_SHARE};
use reference::random::Random;
use reference::sample_network;
use reference::sheet;
use std::fs;
use std::path::{Path, PathBuf};

const DRAWN: usize = 500;

/// Exactly the length that is needed.
const ROOM: [u8; 2] = [0, 0];

fn stored(file: &str) -> Vec<u8> {
    let path = Path::new(env!("CARGO_MANIFEST_DIR")).join("../..").join(file);
    fs::read(&path).unwrap_or_else(|error| panic!("{}: {error}", path.display()))
}

/// The records of one letter that program `sheet_vectors` is given: a letter, the length in two bytes, the bytes.
fn records(letter: u8) -> Vec<Vec<u8>> {
    let all = stored("crates/sheet_vectors/stdin");
    let mut rest = &all[..];
    let mut records = Vec::new();
    while let [first, high, low, more @ ..] = rest {
        let (record, after) = more.split_at(usize::from(*high) << 8 | usize::from(*low));
        if *first == letter {
            records.push(record.to_vec());
        }
        rest = after;
    }
    records
}

fn stored_sheets() -> Vec<Vec<u8>> {
    [vec![stored("crates/listing/stdin")], records(b'r')].concat()
}

/// A request's record begins with the length of the buffer for its sheet, in two bytes.
fn stored_requests() -> Vec<Vec<u8>> {
    let files = [
        "examples/moscow1954.bin",
        "examples/kiev1954.bin",
        "examples/hopkinsville2017.bin",
        "crates/sheet/stdin",
    ];
    let inputs = records(b'q').into_iter().map(|record| record[2..].to_vec());
    files.iter().map(|file| stored(file)).chain(inputs).collect()
}

fn stored_stars() -> Vec<Vec<u8>> {
    ["examples/potsdam1956.bin", "examples/kansas1949.bin"].map(stored).to_vec()
}

fn drawn_sheet(random: &mut Random) -> Vec<u8> {
    let entries = sheets::entries(random);
    let mut bytes = vec![0; 7 * entries.len()];
    let length = sheet::write(&entries, &mut bytes).expect("entries that keep all rules");
    bytes.truncate(length);
    sheets::damage(random, &mut bytes);
    bytes
}

fn drawn_entries(random: &mut Random) -> Vec<u8> {
    let mut entries = sheets::entries(random);
    if random.once_in(2) {
        sheets::damage_entries(random, &mut entries);
    }
    entries.iter().flat_map(|number| number.to_be_bytes()).collect()
}

fn put(folder: &Path, head: &[u8], inputs: impl IntoIterator<Item = Vec<u8>>, from: &str) {
    fs::create_dir_all(folder).expect("a folder for seeds");
    for (number, input) in inputs.into_iter().enumerate() {
        fs::write(folder.join(format!("{from}{number}")), [head, &input].concat())
            .expect("a file for a seed");
    }
}

fn main() {
    let folder = PathBuf::from(std::env::args_os().nth(1).expect("usage: seeds FOLDER"));
    let mut random = Random::new(1);
    let (read, sheet) = (folder.join("read"), folder.join("sheet"));
    for folder in [read, folder.join("listing")] {
        put(&folder, &ROOM, stored_sheets(), "stored");
        put(&folder, &ROOM, (0..DRAWN).map(|_| drawn_sheet(&mut random)), "drawn");
    }
    let mend = folder.join("mend");
    put(&mend, &[ROOM, ROOM].concat(), [stored_sheets().concat()], "stored");
    put(&mend, &[ROOM, ROOM].concat(), (0..DRAWN).map(|_| files::file(&mut random)), "drawn");
    put(&folder.join("write"), &ROOM, (0..DRAWN).map(|_| drawn_entries(&mut random)), "drawn");
    let head = [ROOM[0], ROOM[1], LEAVE_SHAPE | LEAVE_NUMBERS];
    put(&sheet, &head, stored_requests(), "stored");
    put(&sheet, &head, (0..DRAWN).map(|_| draws::request(&mut random)), "drawn");
    let star = folder.join("star");
    put(&star, &head, stored_stars(), "stored");
    put(&star, &head, (0..DRAWN).map(|_| stars::request(&mut random)), "drawn");
    let network = folder.join("network");
    put(
        &network,
        &head,
        (0..DRAWN).filter_map(|_| networks::packed(&sample_network::draw(&mut random))),
        "drawn",
    );
    let of_rows = folder.join("elements");
    put(&of_rows, &head, (0..DRAWN).map(|_| tables::packed(&rows::given(&mut random))), "drawn");
    let shared = [head[0], head[1], head[2] | WITH_SHARE];
    put(&sheet, &shared, stored_requests(), "shared");
    put(&sheet, &shared, (0..DRAWN).map(|_| draws::request(&mut random)), "shared_drawn");
    // the same with a buffer for table S that is shorter or longer by one
    let others = [0x08, 0x10].map(|far| [ROOM[0], far, head[2] | OTHER_SINES]);
    for (head, from) in others.iter().zip(["short", "long"]) {
        put(&sheet, head, stored_requests(), from);
        put(&star, head, stored_stars(), from);
    }
    let head = [head[0], head[1], head[2] | LEAVE_SECOND];
    for second in [folder.join("second"), folder.join("share")] {
        for (head, from) in others.iter().zip(["short", "long"]) {
            put(&second, &[&head[..], &[0; 8]].concat(), stored_requests(), from);
        }
        let at_zero = [&head[..], &[0; 8]].concat();
        put(&second, &at_zero, stored_requests(), "stored");
        put(&second, &at_zero, (0..DRAWN).map(|_| draws::request(&mut random)), "drawn");
        let overlapping = (0..DRAWN).map(|_| {
            let (request, second) = draws::overlapping(&mut random);
            [&second.to_be_bytes()[..], &request].concat()
        });
        put(&second, &head, overlapping, "overlapping");
    }
    let at_zero = [&head[..], &[0; 8]].concat();
    let (of_suns, of_stars) = (folder.join("horizon"), folder.join("star_horizon"));
    for (head, from) in others.iter().zip(["short", "long"]) {
        let head = [&head[..], &[0; 8]].concat();
        put(&of_suns, &head, stored_requests(), from);
        put(&of_stars, &head, stored_stars(), from);
    }
    put(&of_suns, &at_zero, stored_requests(), "stored");
    put(&of_suns, &at_zero, (0..DRAWN).map(|_| draws::request(&mut random)), "drawn");
    let placed = (0..DRAWN).filter_map(|_| {
        let (request, second) = horizons::eclipse(&mut random);
        Some([&second.to_be_bytes()[..], &request.to_bytes()?].concat())
    });
    put(&of_suns, &head, placed, "placed");
    put(&of_stars, &at_zero, stored_stars(), "stored");
    put(&of_stars, &at_zero, (0..DRAWN).map(|_| stars::request(&mut random)), "drawn");
    let placed = (0..DRAWN).filter_map(|_| {
        let (request, second) = horizons::star(&mut random);
        Some([&second.to_be_bytes()[..], &request.to_bytes()?].concat())
    });
    put(&of_stars, &head, placed, "placed");
    // contacts of the first second to each hour, of either phase
    for phase in [0, 1] {
        let asked = |to: i64| [&head[..], &[phase], &(-3_600_i64).to_be_bytes(), &to.to_be_bytes()].concat();
        for to in [0, 1_560, 1_600, 3_600, 10_800] {
            put(&folder.join("contact"), &asked(to), stored_requests(), &format!("phase{phase}_to{to}_"));
            put(&folder.join("star_contact"), &asked(to), stored_stars(), &format!("phase{phase}_to{to}_"));
        }
        let drawn = (0..DRAWN).map(|_| draws::request(&mut random)).collect::<Vec<_>>();
        put(&folder.join("contact"), &asked(0), drawn, &format!("phase{phase}_drawn"));
        let drawn = (0..DRAWN).map(|_| stars::request(&mut random)).collect::<Vec<_>>();
        put(&folder.join("star_contact"), &asked(0), drawn, &format!("phase{phase}_drawn"));
    }
}
