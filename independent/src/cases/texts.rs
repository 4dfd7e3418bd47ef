//! Texts for the trip printer: lawful trips, trips with an edit or two, trips with two faults, of which one is told, and bytes
//! that never were a trip. The same seed and number always give the same text.

use super::rng::Rng;
use super::scenes;
use super::{affordable, allowance, setting};
use crate::floor::Floor;
use crate::leg::Task;
use crate::printer::LONG_TEXT;

/// A trip as it is written down: the first line's words, and the rows.
struct Trip {
    words: Vec<Vec<u8>>,
    rows: Vec<Vec<u8>>,
    cart: usize,
    cells: usize,
}

/// The text of this number in the sequence that belongs to a seed.
pub fn text(seed: u64, number: u64) -> Vec<u8> {
    let mut rng = Rng::new(seed, number);
    match rng.below(100) {
        0..=27 => {
            let floor = scenes::sizes(&mut rng);
            trip(&mut rng, floor).bytes()
        }
        28..=34 => row_faults_of_any_floor(&mut rng),
        35..=76 => edited(&mut rng),
        77..=92 => ordered_faults(&mut rng),
        93..=98 => noise(&mut rng),
        _ => Vec::new(),
    }
}

impl Trip {
    fn bytes(&self) -> Vec<u8> {
        let mut bytes = self.words.join(&b' ');
        bytes.push(b'\n');
        for row in &self.rows {
            bytes.extend(row);
            bytes.push(b'\n');
        }
        bytes
    }
}

/// A lawful trip, but for floors on which no cell is left for the cart.
fn trip(rng: &mut Rng, floor: Floor) -> Trip {
    let scene = scenes::fresh(rng, floor);
    let n = floor.cells();
    let mut task = Task { cart: scene.cart, goal: scene.goal, lookahead: setting(rng, n), limit: setting(rng, n) };
    let dash = rng.chance(15);
    if dash {
        task.limit = 1;
    }
    let moves = affordable(&scene, &task, allowance(rng, n));
    let numbers = [floor.width, floor.height, task.cart, task.goal, task.lookahead, task.limit, moves];
    let mut words: Vec<Vec<u8>> = numbers.iter().map(|number| number.to_string().into_bytes()).collect();
    if dash {
        words[5] = b"-".to_vec();
    }
    if rng.chance(10) {
        let place = rng.pick(&[0, 1, 2, 3, 4, 6]);
        fill_with_zeros(&mut words[place], rng.between(2, 9));
    }
    let row = |cells: &[u8]| cells.iter().map(|&cell| if cell == 1 { b'#' } else { b'.' }).collect();
    Trip { words, rows: scene.maps.plan.chunks(floor.width).map(row).collect(), cart: task.cart, cells: n }
}

/// A floor so small that any settings and any allowance are soon walked.
fn small_floor(rng: &mut Rng) -> Floor {
    let (width, height) = match rng.below(10) {
        0..=6 => (rng.between(1, 6), rng.between(1, 6)),
        7 | 8 => (rng.between(2, 12), rng.between(2, 12)),
        _ => rng.pick(&[(1, 64), (64, 1), (1, 63), (2, 40)]),
    };
    Floor { width, height }
}

/// A trip on any floor with a fault in its rows or after them. The first line stays, and so does the work of the walk.
fn row_faults_of_any_floor(rng: &mut Rng) -> Vec<u8> {
    let floor = scenes::sizes(rng);
    let mut trip = trip(rng, floor);
    if rng.chance(60) {
        edit_rows(rng, &mut trip);
        return trip.bytes();
    }
    let mut bytes = trip.bytes();
    append(rng, &mut bytes);
    bytes
}

/// A trip on a small floor with one or two edits of any kind.
fn edited(rng: &mut Rng) -> Vec<u8> {
    let floor = small_floor(rng);
    let mut trip = trip(rng, floor);
    let mut later = 0;
    for _ in 0..rng.between(1, 2) {
        match rng.below(10) {
            0..=3 => edit_number(rng, &mut trip),
            4 | 5 => edit_words(rng, &mut trip),
            6 => edit_rows(rng, &mut trip),
            _ => later += 1,
        }
    }
    let mut bytes = trip.bytes();
    for _ in 0..later {
        edit_bytes(rng, &mut bytes);
    }
    bytes
}

/// Numbers at the bounds and forms that are no number; the last is empty.
const WORDS: &[u8] =
    b"0 1 63 64 65 4095 4096 4097 16384 16385 65536 65537 999999999 1000000000 9999999999 4294967297 0000000001 \
    000000001 0000000000 01 18446744073709551617 +1 -1 -0 -- - 1. 0x1 \xD9\xA1 ";

fn any_word(rng: &mut Rng) -> Vec<u8> {
    let words: Vec<&[u8]> = WORDS.split(|&byte| byte == b' ').collect();
    rng.pick(&words).to_vec()
}

/// One number of the first line becomes another, lawful or not.
fn edit_number(rng: &mut Rng, trip: &mut Trip) {
    if trip.words.len() != 7 {
        return;
    }
    let place = rng.below(7);
    let n = trip.cells;
    let near = match place {
        0 | 1 => rng.pick(&[0, 1, 63, 64, 65, 66]),
        2 | 3 => rng.pick(&[0, n - 1, n, n + 1, 65_536]),
        4 | 5 => rng.pick(&[0, 1, 2, 4096, 4097]),
        _ => rng.pick(&[0, 1, 2, 16_383, 16_384, 16_385, 16_386]),
    };
    trip.words[place] = match rng.chance(50) {
        true => near.to_string().into_bytes(),
        false => any_word(rng),
    };
}

/// A word lost, doubled or changed in its form, or spaces where none belong.
fn edit_words(rng: &mut Rng, trip: &mut Trip) {
    if trip.words.is_empty() {
        return;
    }
    let place = rng.below(trip.words.len());
    match rng.below(11) {
        0 => {
            trip.words.remove(place);
        }
        1 => {
            trip.words.pop();
        }
        2 => trip.words.insert(place, any_word(rng)),
        3 => trip.words.push(b"1".to_vec()),
        4 => trip.words[place].insert(0, rng.pick(b"++-0")),
        5 => trip.words[place].push(rng.pick(b" \t\r.\0")),
        6 => trip.words[place] = b"-".to_vec(),
        7 => trip.words[place].clear(),
        // An empty word: a space at the start, at the end, or two in a row.
        8 => trip.words.insert(rng.pick(&[0, place, trip.words.len()]), Vec::new()),
        9 => fill_with_zeros(&mut trip.words[place], rng.between(9, 11)),
        _ => {
            let joined = trip.words.join(&rng.pick(b" \t,"));
            trip.words = vec![joined];
        }
    }
}

/// Leading zeros up to this length.
fn fill_with_zeros(word: &mut Vec<u8>, length: usize) {
    let zeros = length.saturating_sub(word.len());
    word.splice(..0, vec![b'0'; zeros]);
}

/// A row lost, doubled, too short, too long, joined to the next, or with a byte that is no cell.
fn edit_rows(rng: &mut Rng, trip: &mut Trip) {
    if trip.rows.iter().any(Vec::is_empty) || trip.rows.is_empty() {
        return;
    }
    let at = rng.below(trip.rows.len());
    let cell = rng.below(trip.rows[at].len());
    match rng.below(9) {
        0 => {
            trip.rows.remove(at);
        }
        1 => trip.rows.truncate(at),
        2 => trip.rows.insert(at, trip.rows[at].clone()),
        3 => trip.rows.push(Vec::new()),
        4 => {
            trip.rows[at].remove(cell);
        }
        5 => trip.rows[at].push(rng.pick(b".# \r")),
        6 => trip.rows[at][cell] = rng.pick(b"\n \r\0@x0,\x2E\x23\xFF"),
        7 => trip.rows[at][cell] = b'#',
        _ => trip.rows[at].extend(vec![b'.'; trip.cells]),
    }
}

/// An edit that knows nothing of words and rows.
fn edit_bytes(rng: &mut Rng, bytes: &mut Vec<u8>) {
    if bytes.is_empty() {
        return;
    }
    let at = rng.below(bytes.len());
    let byte = rng.pick(b"0123456789 .#-+\n\r\t\0\x0B\x7F\x80\xC2\xFF");
    match rng.below(13) {
        0 | 1 => bytes[at] = byte,
        2 | 3 => bytes.insert(at, byte),
        4 => {
            bytes.remove(at);
        }
        5 => bytes.insert(at, bytes[at]),
        6 => bytes.truncate(at),
        7 | 8 => bytes.truncate(bytes.len() - 1),
        9 => *bytes = returns_before_line_feeds(bytes, rng.pick(&[1, bytes.len()])),
        10 => *bytes = without_a_line_or_with_two(rng, bytes),
        _ => append(rng, bytes),
    }
}

/// The text with a carriage return before as many of its line feeds.
fn returns_before_line_feeds(bytes: &[u8], most: usize) -> Vec<u8> {
    let mut left = most;
    let mut with = Vec::new();
    for &byte in bytes {
        if byte == b'\n' && left > 0 {
            with.push(b'\r');
            left -= 1;
        }
        with.push(byte);
    }
    with
}

/// The text with one of its lines lost, or twice.
fn without_a_line_or_with_two(rng: &mut Rng, bytes: &[u8]) -> Vec<u8> {
    let mut lines: Vec<&[u8]> = bytes.split_inclusive(|&byte| byte == b'\n').collect();
    let at = rng.below(lines.len());
    if rng.chance(50) {
        lines.remove(at);
    } else {
        lines.insert(at, lines[at]);
    }
    lines.concat()
}

/// Bytes after the text: one, some, or more than a printer has to keep.
fn append(rng: &mut Rng, bytes: &mut Vec<u8>) {
    let more = match rng.below(8) {
        0..=2 => 1,
        3 | 4 => rng.between(2, 70),
        5 => LONG_TEXT - bytes.len().min(LONG_TEXT),
        6 => (LONG_TEXT + 1).saturating_sub(bytes.len()),
        _ => LONG_TEXT + rng.below(LONG_TEXT),
    };
    let kind = rng.pick(b".\n \0?");
    bytes.extend((0..more).map(|_| if kind == b'?' { rng.any() as u8 } else { kind }));
}

/// A trip with one fault of those that the document orders, or two: which of them is told says in which order a printer tests.
fn ordered_faults(rng: &mut Rng) -> Vec<u8> {
    let floor = small_floor(rng);
    let mut trip = trip(rng, floor);
    let first = rng.below(6);
    let later = if rng.chance(20) { 6 } else { rng.between(first + 1, 6) };
    spoil(rng, &mut trip, later);
    // The words are damaged last: their number may change.
    if rng.chance(70) {
        spoil(rng, &mut trip, first);
    }
    let mut bytes = trip.bytes();
    if (first == 2 || later == 2) && rng.chance(25) {
        let first_line = bytes.iter().take_while(|&&byte| byte != b'\n').count();
        bytes.truncate(first_line);
    }
    bytes
}

/// Gives a trip one fault, by its place in the document's order: the first line's text (0 and 1), refusal 1, the rows' text,
/// refusals 3, 4 and 8.
fn spoil(rng: &mut Rng, trip: &mut Trip, fault: usize) {
    let n = trip.cells;
    let word = |number: usize| number.to_string().into_bytes();
    match fault {
        0 => edit_words(rng, trip),
        1 => trip.words[6] = word(rng.pick(&[16_385, 16_386, 65_536, 999_999_999])),
        2 => trip.words[rng.below(2)] = word(rng.pick(&[0, 65, 66, 999_999_999])),
        3 => edit_rows(rng, trip),
        4 => trip.words[rng.between(2, 3)] = word(n + rng.pick(&[0, 1, 4096, 65_536])),
        5 => trip.words[rng.between(4, 5)] = word(rng.pick(&[0, 4097, 65_537])),
        _ => block_the_start(rng, trip),
    }
}

/// The start's cell becomes blocked; at times it is the goal too.
fn block_the_start(rng: &mut Rng, trip: &mut Trip) {
    let width = trip.rows[0].len();
    trip.rows[trip.cart / width][trip.cart % width] = b'#';
    if rng.chance(20) {
        trip.words[3] = trip.words[2].clone();
    }
}

/// Bytes that never were a trip: any at all, those that trips are made of, or a word without end.
fn noise(rng: &mut Rng) -> Vec<u8> {
    let length = if rng.chance(10) { LONG_TEXT + rng.below(1000) } else { rng.between(1, 120) };
    match rng.below(4) {
        0 | 1 => (0..length).map(|_| rng.any() as u8).collect(),
        2 => (0..length).map(|_| rng.pick(b"0123456789 -.#\n")).collect(),
        _ => vec![rng.pick(b"0 .#\n\0"); length],
    }
}
