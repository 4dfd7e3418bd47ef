//! Trip records: each rule alone on both sides of its bound, serials, the order of faults, reading by number.

use independent::cases::rng::Rng;
use independent::records::Record;
use independent::wrong::Planner;

fn lawful() -> Record {
    Record { serial: 5, cart: 0, start: 4, goal: 9, ending: 2, last: 3, moves: 70_000, required: 8, lookahead: 2, limit: 300 }
}

/// What the writer says of a changed record; reading the same bytes has to agree.
fn verdict(change: impl Fn(&mut Record)) -> Result<(), u8> {
    let planner = Planner::right();
    let mut record = lawful();
    change(&mut record);
    let mut room = [0x55; 24];
    let written = planner.write(&record, &mut room);
    match written {
        Ok(()) => {
            assert_eq!(room.to_vec(), record.bytes());
            assert_eq!(planner.read(&room, 0), Ok(record), "reading gives back what was written");
        }
        Err(_) => assert_eq!(room, [0x55; 24], "a refusal writes nothing"),
    }
    assert_eq!(planner.count(&record.bytes()), written.map(|()| 1));
    written
}

#[test]
fn values_within_the_rules() {
    let changes: [fn(&mut Record); 14] = [
        |_| {},
        |record| record.ending = 3,
        |record| record.start = 4095,
        |record| record.goal = 4095,
        |record| record.last = 4095,
        |record| (record.ending, record.last) = (1, 9),
        |record| record.moves = 16_769_025,
        |record| record.moves = 0,
        |record| record.required = 126,
        |record| record.required = 0,
        |record| (record.lookahead, record.limit) = (1, 1),
        |record| (record.lookahead, record.limit) = (4096, 4096),
        |record| (record.serial, record.cart) = (65_535, 65_535),
        |record| (record.serial, record.cart, record.start) = (0, 0, 0),
    ];
    for (place, change) in changes.iter().enumerate() {
        assert_eq!(verdict(change), Ok(()), "change {}", place);
    }
}

#[test]
fn each_rule_broken_alone() {
    let changes: [fn(&mut Record); 19] = [
        |record| record.ending = 0,
        // Under way is no ending of a trip.
        |record| record.ending = 4,
        |record| record.ending = 255,
        |record| record.start = 4096,
        |record| record.goal = 4096,
        |record| record.last = 4096,
        |record| (record.ending, record.goal, record.last) = (1, 4096, 4096),
        |record| record.ending = 1,
        |record| record.last = 9,
        // Spent on the goal.
        |record| (record.ending, record.last) = (3, 9),
        |record| record.moves = 16_769_026,
        |record| record.moves = u32::MAX,
        |record| record.required = 127,
        |record| record.required = 65_535,
        |record| record.lookahead = 0,
        |record| record.lookahead = 4097,
        |record| record.limit = 0,
        |record| record.limit = 4097,
        |record| (record.lookahead, record.limit) = (65_535, 65_535),
    ];
    for (place, change) in changes.iter().enumerate() {
        assert_eq!(verdict(change), Err(11), "change {}", place);
    }
}

#[test]
fn the_room_comes_first() {
    let unlawful = Record { ending: 9, ..lawful() };
    for length in [0, 23, 25, 48] {
        let mut room = vec![0x55; length];
        assert_eq!(Planner::right().write(&lawful(), &mut room), Err(10));
        assert_eq!(Planner::right().write(&unlawful, &mut room), Err(10));
        assert_eq!(room, vec![0x55; length]);
    }
}

#[test]
fn zeros() {
    for at in [9, 22, 23] {
        for value in [1, 128, 255] {
            let mut bytes = lawful().bytes();
            bytes[at] = value;
            assert_eq!(Planner::right().count(&bytes), Err(11), "byte {}", at);
        }
    }
}

fn file(serials: &[u16]) -> Vec<u8> {
    serials.iter().flat_map(|&serial| Record { serial, ..lawful() }.bytes()).collect()
}

#[test]
fn serials() {
    let count = |serials: &[u16]| Planner::right().count(&file(serials));
    assert_eq!(count(&[]), Ok(0));
    // The first may be any.
    assert_eq!(count(&[40_000]), Ok(1));
    assert_eq!(count(&[65_534, 65_535, 0, 1]), Ok(4));
    for serials in [[7, 7], [7, 9], [7, 6], [65_535, 1], [65_535, 65_535], [0, 65_535], [255, 0]] {
        assert_eq!(count(&serials), Err(12));
    }
    assert_eq!(count(&[1, 2, 4]), Err(12));
}

#[test]
fn lengths() {
    let bytes = file(&[1, 2]);
    for length in 0..=48 {
        let expected = if length % 24 == 0 { Ok(length / 24) } else { Err(10) };
        assert_eq!(Planner::right().count(&bytes[..length]), expected);
    }
    // The length comes before every other fault.
    let mut bytes = file(&[9, 9]);
    bytes[8] = 0;
    bytes.push(0);
    assert_eq!(Planner::right().count(&bytes), Err(10));
}

/// The first record with any fault decides, 11 before 12 in it.
#[test]
fn record_by_record() {
    let count = |serials: &[u16], bad_record: usize| {
        let mut bytes = file(serials);
        bytes[24 * bad_record + 8] = 0;
        Planner::right().count(&bytes)
    };
    assert_eq!(count(&[1, 3, 4], 2), Err(12));
    assert_eq!(count(&[1, 2, 4], 1), Err(11));
    assert_eq!(count(&[1, 3, 4], 1), Err(11));
}

/// A number past the end is refused once the whole file has passed; a record is read whole.
#[test]
fn reading_by_number() {
    let read = |bytes: &[u8], number: usize| Planner::right().read(bytes, number);
    let bytes = file(&[65_535, 0, 1]);
    assert_eq!(read(&bytes, 0), Ok(Record { serial: 65_535, ..lawful() }));
    assert_eq!(read(&bytes, 2), Ok(Record { serial: 1, ..lawful() }));
    for number in [3, 4, 1 << 16, 1 << 32, 1 << 61, 1 << 63, usize::MAX] {
        assert_eq!(read(&bytes, number), Err(11));
    }
    assert_eq!(read(&[], 0), Err(11));
    // The whole file is tested first, also past the record that was asked for.
    assert_eq!(read(&file(&[1, 2, 2]), 0), Err(12));
    assert_eq!(read(&file(&[1, 2, 2]), 99), Err(12));
    assert_eq!(read(&bytes[..71], 0), Err(10));
    assert_eq!(read(&bytes[..71], 99), Err(10));
}

#[test]
fn any_record_that_is_written_is_read_back() {
    let mut written = 0;
    for number in 0..20_000 {
        let mut rng = Rng::new(5, number);
        let mut small = |bound: usize| rng.below(bound) as u16;
        let record = Record {
            serial: small(65_536),
            cart: small(65_536),
            start: small(4100),
            goal: small(3),
            ending: small(5) as u8,
            last: small(3),
            moves: u32::from(small(65_536)) * 257,
            required: small(130),
            lookahead: small(4100),
            limit: small(4100),
        };
        written += u32::from(verdict(|changed| *changed = record).is_ok());
    }
    assert!(written > 1000, "only {} records were lawful", written);
}
