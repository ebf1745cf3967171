//! The safe types: what they refuse, and that they hand the calls over as they are meant.
use futonrobin::layout::{KEY_TABLE, MIRROR, SCREEN};
use futonrobin::{drop_in, ffi, KeyTable, Kind, Mirror, Pair, Refusal, Report, Screen, Shown, Waited};

/// Where document 01 has a record's serial.
const SERIAL: std::ops::Range<usize> = 9..13;
/// Where the documents have serial, sitting and touched rows of a record.
const STAMP: std::ops::Range<usize> = 9..21;
/// Where records, reports and mirrors have their version.
const VERSION: usize = 2;
/// Where document 02 has a record's insert and, beside it, that a print ended with 13.
const BITS: usize = 6;

type Change = fn(&mut Screen) -> Result<(), Refusal>;

fn spent() -> Screen {
    let mut record = Screen::new(80, 3).record().to_vec();
    record[SERIAL].fill(255);
    Screen::from_bytes(&record).unwrap()
}

#[test]
fn refusals_have_the_documents_numbers() {
    for (number, refusal) in [
        (1, Refusal::WrongLength),
        (2, Refusal::BrokenLayout),
        (3, Refusal::OutOfRange),
        (4, Refusal::SpentSerial),
        (5, Refusal::BrokenReport),
        (6, Refusal::WidthWithoutRows),
        (7, Refusal::LongInput),
        (13, Refusal::SplitLineEnd),
    ] {
        assert_eq!(refusal.number(), number);
        assert_eq!(Refusal::of_answer(4_294_967_040 + number), Err(refusal));
        assert!(refusal.to_string().ends_with(&format!("(refusal {number})")));
    }
    assert_eq!(Refusal::of_answer(4_294_967_040), Ok(4_294_967_040));
}

#[test]
fn bytes_of_any_origin_are_judged() {
    let screen = Screen::new(40, 3);
    assert!(Screen::from_bytes(screen.record()) == Ok(screen));
    assert_eq!(Screen::from_bytes(&[0; SCREEN - 1]).err(), Some(Refusal::WrongLength));
    assert_eq!(Screen::from_bytes(&[0; SCREEN]).err(), Some(Refusal::BrokenLayout));

    let mirror = Mirror::new(40, 3);
    assert!(Mirror::from_bytes(mirror.as_bytes()) == Ok(mirror));
    assert_eq!(Mirror::from_bytes(&[0; MIRROR + 1]).err(), Some(Refusal::WrongLength));
    assert_eq!(Mirror::from_bytes(&[0; MIRROR]).err(), Some(Refusal::BrokenLayout));

    let table = KeyTable::standard();
    assert!(KeyTable::from_bytes(table.as_bytes()) == Ok(table));
    assert_eq!(KeyTable::from_bytes(&[]).err(), Some(Refusal::WrongLength));
    assert_eq!(KeyTable::from_bytes(&[16; KEY_TABLE]).err(), Some(Refusal::BrokenLayout));
}

#[test]
fn reports_of_any_origin_are_judged() {
    let mut screen = Screen::new(40, 3);
    screen.type_char(b'A').unwrap();
    for (report, kind) in [(screen.report_step(), Kind::Step), (screen.report_full(), Kind::Full)] {
        assert_eq!((report.kind(), report.serial(), report.sitting()), (kind, 1, 3));
        assert!(Report::from_bytes(report.as_bytes()) == Ok(report.clone()));
        assert_eq!(Report::from_bytes(&report.as_bytes()[1..]).err(), Some(Refusal::BrokenReport));
    }
    assert_eq!(Report::from_bytes(&[]).err(), Some(Refusal::BrokenReport));
    // It is valid, though a mirror of the other width refuses it.
    assert_eq!(Mirror::new(80, 3).arrive(screen.report_step()), Err(Refusal::WidthWithoutRows));
}

/// The same bytes, but for the version.
fn of_version_1(bytes: &[u8]) -> Vec<u8> {
    let mut bytes = bytes.to_vec();
    assert_eq!(bytes[VERSION], 2);
    bytes[VERSION] = 1;
    bytes
}

#[test]
fn version_1_is_refused() {
    let (screen, mirror) = (Screen::new(40, 3), Mirror::new(40, 3));
    assert_eq!(Screen::from_bytes(&of_version_1(screen.record())).err(), Some(Refusal::BrokenLayout));
    assert_eq!(Screen::from_bytes(&[0; 4042]).err(), Some(Refusal::WrongLength));
    assert_eq!(Mirror::from_bytes(&of_version_1(mirror.as_bytes())).err(), Some(Refusal::BrokenLayout));
    assert_eq!(Mirror::from_bytes(&[0; 4049]).err(), Some(Refusal::WrongLength));
    for report in [screen.report_step(), screen.report_full()] {
        assert_eq!(Report::from_bytes(&of_version_1(report.as_bytes())).err(), Some(Refusal::BrokenReport));
        // without the sitting, as version 1 was
        let mut old = of_version_1(&[&report.as_bytes()[..8], &report.as_bytes()[12..]].concat());
        let length = old.len() as u16;
        old[..2].copy_from_slice(&length.to_be_bytes());
        assert_eq!(Report::from_bytes(&old).err(), Some(Refusal::BrokenReport));
    }
}

#[test]
fn every_sitting_is_taken_and_answered() {
    for sitting in [0, 1, 255, 256, 0x0102_0304, 1 << 31, u32::MAX] {
        let (screen, mirror) = (Screen::new(40, sitting), Mirror::new(40, sitting));
        let new = Pair { sitting, serial: 0 };
        assert_eq!((screen.sitting(), screen.pair()), (sitting, new));
        assert_eq!((mirror.sitting(), mirror.pair(), mirror.newest(), mirror.is_level()), (sitting, new, new, true));
        assert_eq!((screen.report_step().sitting(), screen.report_full().pair()), (sitting, new));
        assert!(mirror.same_as(&screen));
    }
}

#[test]
fn changing_calls_keep_the_sitting() {
    let mut screen = Screen::new(80, 0x0102_0304);
    let calls: [Change; 10] = [
        |screen| screen.print_bytes(&[b'A'; 3000]),
        |screen| screen.print_checked(b"WARD 7\r"),
        |screen| screen.print_waiting(b"WARD 8\r\n", 1).map(drop),
        |screen| screen.type_char(b'B'),
        Screen::escape_line,
        Screen::clear,
        |screen| screen.set_width(40),
        |screen| screen.set_cursor(9, 9),
        |screen| screen.set_keys_on(false),
        |screen| screen.take_logical_line().map(|_| ()),
    ];
    for (call, serial) in calls.iter().zip(1..) {
        call(&mut screen).unwrap();
        assert_eq!(screen.pair(), Pair { sitting: 0x0102_0304, serial });
    }
}

#[test]
fn pairs_are_ordered_by_the_sitting_first() {
    let pair = |sitting, serial| Pair { sitting, serial };
    assert!(pair(1, 9) < pair(2, 0) && pair(2, 0) < pair(2, 1) && pair(255, u32::MAX) < pair(256, 0));
    assert_eq!(pair(2, 7).to_string(), "call 7 of sitting 2");
}

#[test]
fn a_mirror_follows_a_restart() {
    let pair = |sitting, serial| Pair { sitting, serial };
    let (mut first, mut mirror) = (Screen::new(40, 3), Mirror::new(40, 3));
    first.print_checked(b"WARD 7").unwrap();
    assert_eq!(mirror.arrive(first.report_step()), Ok(true));

    let mut second = Screen::new(80, 4);
    second.type_char(b'A').unwrap();
    second.type_char(b'B').unwrap();
    // It is the serial that would be next, but of another sitting, and of another width: it only counts.
    assert_eq!(mirror.arrive(second.report_step()), Ok(false));
    assert_eq!((mirror.pair(), mirror.newest()), (pair(3, 1), pair(4, 2)));
    assert!(mirror.same_as(&first));
    // A step of the shown sitting is still applied.
    first.home().unwrap();
    assert_eq!(mirror.arrive(first.report_step()), Ok(false));
    assert_eq!((mirror.pair(), mirror.newest()), (pair(3, 2), pair(4, 2)));

    assert_eq!(mirror.arrive(second.report_full()), Ok(true));
    assert!(mirror.same_as(&second));
    assert_eq!((mirror.width(), mirror.snapshot()), (80, b"AB".to_vec()));
    // What comes late of the sitting before is old, whatever its serial.
    (0..9).for_each(|_| first.type_char(b'X').unwrap());
    assert_eq!(mirror.arrive(first.report_full()), Ok(true));
    assert!(mirror.same_as(&second));
    second.type_char(b'C').unwrap();
    assert_eq!(mirror.arrive(second.report_step()), Ok(true));
    assert!(mirror.same_as(&second));
}

#[test]
fn a_spent_serial_refuses_every_changing_call() {
    let before = spent();
    let mut screen = before.clone();
    assert_eq!(screen.type_char(b'A'), Err(Refusal::SpentSerial));
    assert_eq!(screen.print_bytes(b"A"), Err(Refusal::SpentSerial));
    assert_eq!(screen.print_checked(b"\n"), Err(Refusal::SpentSerial));
    assert_eq!(screen.print_waiting(b"", 0), Err(Refusal::SpentSerial));
    assert_eq!(screen.type_limited(b'A', 5), Err(Refusal::SpentSerial));
    assert_eq!(screen.take_logical_line(), Err(Refusal::SpentSerial));
    assert_eq!(screen.set_width(41), Err(Refusal::OutOfRange), "3 comes before 4");
    assert_eq!(screen.print_waiting(b"", 1_001), Err(Refusal::OutOfRange), "3 comes before 4");
    assert_eq!(screen.type_limited(b'A', 0), Err(Refusal::OutOfRange), "3 comes before 4");
    assert!(screen == before);
}

#[test]
fn arguments_out_of_range_are_refused() {
    let mut screen = Screen::new(40, 3);
    assert!(screen.cell(24, 39).is_ok());
    assert_eq!(screen.cell(24, 40), Err(Refusal::OutOfRange));
    assert_eq!(screen.cell(25, 0), Err(Refusal::OutOfRange));
    assert_eq!(screen.continues(24), Ok(false));
    assert_eq!(screen.continues(25), Err(Refusal::OutOfRange));
    assert_eq!(screen.set_width(41), Err(Refusal::OutOfRange));
    assert_eq!(screen.print_waiting(b"A", 1_001), Err(Refusal::OutOfRange));
    assert_eq!(screen.print_waiting(&[b'A'; 70_000], u32::MAX), Err(Refusal::OutOfRange));
    assert_eq!(screen.type_limited(b'A', 0), Err(Refusal::OutOfRange));
    assert_eq!(screen.type_limited(7, 0), Err(Refusal::OutOfRange), "of a character that types nothing too");
    assert!(screen == Screen::new(40, 3));
    let keys = KeyTable::standard();
    assert_eq!(keys.strip(10, 80), Err(Refusal::OutOfRange));
    assert_eq!(keys.strip(0, 81), Err(Refusal::OutOfRange));
}

#[test]
fn what_is_typed_is_shown() {
    let mut screen = Screen::new(80, 3);
    assert_eq!((screen.width(), screen.cursor(), screen.attr(), screen.insert_mode()), (80, (0, 0), 7, false));
    screen.set_attr(0x1e).unwrap();
    screen.print_checked(b"AB").unwrap();
    screen.move_left().unwrap();
    screen.set_insert(true).unwrap();
    screen.type_char(b'X').unwrap();
    assert_eq!(screen.logical_text(), b"AXB");
    assert_eq!(screen.cell(0, 1), Ok(futonrobin::Cell { ch: b'X', attr: 0x1e }));
    assert_eq!((screen.cursor(), screen.insert_mode(), screen.serial()), ((0, 2), true, 5));
    assert_eq!(screen.take_logical_line(), Ok(b"AXB".to_vec()));
    screen.set_keys_on(false).unwrap();
    assert_eq!((screen.editable_rows(), screen.keys_visible()), (25, false));
    assert_eq!(screen.snapshot(), b"AXB");
}

/// What comes between a 13 and its 10, and whether the 10 is then refused.
const BETWEEN: [(&str, Change, bool); 11] = [
    ("nothing", |_| Ok(()), true),
    ("a print of no bytes", |screen| screen.print_bytes(b""), true),
    ("a checked print of no bytes", |screen| screen.print_checked(b""), true),
    ("a waiting print of no bytes", |screen| screen.print_waiting(b"", 0).map(drop), true),
    ("an ignored byte", |screen| screen.print_checked(b"\x07"), false),
    ("an ignored byte, waiting", |screen| screen.print_waiting(b"\x07", 0).map(drop), false),
    ("the 10, unchecked", |screen| screen.print_bytes(b"\n"), false),
    ("the 10, waiting", |screen| screen.print_waiting(b"\n", 0).map(drop), false),
    ("another call", Screen::end_of_line, false),
    ("a call that changes nothing", |screen| screen.set_insert(screen.insert_mode()), false),
    ("a character that types nothing", |screen| screen.type_limited(7, 1), false),
];

#[test]
fn a_split_line_end_is_refused() {
    for insert in [false, true] {
        for (what, change, refused) in BETWEEN {
            let mut screen = Screen::new(80, 3);
            screen.set_insert(insert).unwrap();
            screen.print_checked(b"WARD 7\r").unwrap();
            assert!(screen.ended_in_cr());
            change(&mut screen).unwrap();
            assert_eq!((screen.ended_in_cr(), screen.insert_mode()), (refused, insert), "{what}");
            let before = screen.clone();
            assert_eq!(screen.print_checked(b"\nBED 12"), if refused { Err(Refusal::SplitLineEnd) } else { Ok(()) }, "{what}");
            assert_eq!(screen == before, refused, "{what}");
            assert_eq!((screen.ended_in_cr(), screen.insert_mode()), (refused, insert), "{what}");
        }
    }
}

#[test]
fn a_split_line_end_comes_before_a_spent_serial() {
    let mut record = spent().record().to_vec();
    record[BITS] = 2;
    let before = Screen::from_bytes(&record).unwrap();
    let mut screen = before.clone();
    assert_eq!(screen.print_checked(b"\n"), Err(Refusal::SplitLineEnd), "13 comes before 4");
    assert_eq!(screen.print_checked(b"A\n"), Err(Refusal::SpentSerial));
    assert_eq!(screen.print_bytes(b"\n"), Err(Refusal::SpentSerial));
    assert!(screen == before);
}

/// What a caller does whose text comes in pieces: in the place of a 10 that is refused stands a byte that is ignored.
fn print_piece(screen: &mut Screen, piece: &[u8]) {
    match screen.print_checked(piece) {
        Err(Refusal::SplitLineEnd) => screen.print_checked(&[&[0], &piece[1..]].concat()).unwrap(),
        printed => printed.unwrap(),
    }
}

#[test]
fn pieces_look_like_the_whole() {
    let text = b"A\r\n\nB\r\r\nC\n\r\x07\nD\r";
    let mut whole = Screen::new(40, 3);
    whole.print_bytes(text).unwrap();
    for (first, second) in (0..=text.len()).flat_map(|first| (first..=text.len()).map(move |second| (first, second))) {
        let mut screen = Screen::new(40, 3);
        for piece in [&text[..first], &text[first..second], &text[second..]] {
            print_piece(&mut screen, piece);
        }
        assert_eq!(
            (screen.snapshot(), screen.cursor(), screen.ended_in_cr()),
            (whole.snapshot(), whole.cursor(), true),
            "{first}, {second}"
        );
    }
}

/// What is shown, and not by which calls: the record without serial, sitting and touched rows.
fn shown(screen: &Screen) -> [&[u8]; 2] {
    [&screen.record()[..STAMP.start], &screen.record()[STAMP.end..]]
}

/// A screen of 80 columns whose last editable row has the cursor, at this column.
fn at_the_bottom(col: u32) -> Screen {
    let mut screen = Screen::new(80, 3);
    screen.set_cursor(23, col).unwrap();
    screen
}

#[test]
fn a_waiting_print_stops_before_the_byte_that_scrolls() {
    for (bytes, rows, taken, scrolled) in [
        (&b"AB"[..], 0, 1, 0),
        (b"AB", 1, 2, 1),
        (b"A\x07\x07B", 0, 3, 0),
        (b"\r\n", 0, 0, 0),
        (b"\r\n", 1, 2, 1),
        (b"\r\n\n", 1, 2, 1),
        (b"\n\r", 1, 1, 1),
        (b"\r\r\n", 1, 1, 1),
        (b"\r\r\n", 2, 3, 2),
        (b"A\r\n\x07BED\r\n\r\n", 2, 9, 2),
        // the 13 only clears the flag that B has set, and scrolls nothing
        (b"AB\r\nC\n", 1, 5, 1),
    ] {
        let (mut screen, mut whole) = (at_the_bottom(78), at_the_bottom(78));
        assert_eq!(screen.print_waiting(bytes, rows), Ok(Waited { taken, scrolled }), "{bytes:?}, {rows}");
        whole.print_bytes(&bytes[..taken]).unwrap();
        assert!(screen == whole, "{bytes:?}, {rows}");
    }
}

#[test]
fn a_waiting_print_that_takes_nothing_is_accepted() {
    let mut screen = at_the_bottom(0);
    screen.print_bytes(b"WARD 7\r").unwrap();
    let before = screen.clone();
    for (bytes, serial) in [&b""[..], b"\n", b"\r\nA"].iter().zip(3..) {
        assert_eq!(screen.print_waiting(bytes, 0), Ok(Waited { taken: 0, scrolled: 0 }));
        assert_eq!((shown(&screen), screen.serial(), screen.ended_in_cr()), (shown(&before), serial, true));
    }
}

/// More lines than one call can take bytes of, so long that 65,535 bytes scroll fewer rows than 1,000; a 13 and its 10 stand from `at` on.
fn long_text(at: usize) -> Vec<u8> {
    let mut text: Vec<u8> = (0..2_000).flat_map(|k| format!("{k:076}\r\n").into_bytes()).collect();
    text[at - 3..at + 5].copy_from_slice(b"END\r\nBED");
    text
}

/// Waiting prints until nothing is left, or nothing is taken; the mirror follows each. What the first took, and what is left.
fn print_pages<'a>(screen: &mut Screen, text: &'a [u8], rows: u32) -> (usize, &'a [u8]) {
    let mut mirror = Mirror::new(80, 3);
    let (mut first, mut rest) = (None, text);
    while !rest.is_empty() {
        let Waited { taken, scrolled } = screen.print_waiting(rest, rows).unwrap();
        assert!(scrolled <= rows);
        assert_eq!(mirror.arrive(screen.report_step()), Ok(true));
        assert!(mirror.same_as(screen));
        if taken == 0 {
            break;
        }
        first = first.or(Some(taken));
        rest = &rest[taken..];
    }
    (first.unwrap(), rest)
}

#[test]
fn waiting_prints_in_turn_look_like_one_print() {
    // the 10 is the last byte that one call can take, the one after it, or the next
    for (cr, at_most) in [(65_533, 65_535), (65_534, 65_534), (65_535, 65_535)] {
        let text = long_text(cr);
        let mut whole = Screen::new(80, 3);
        whole.print_bytes(&text).unwrap();
        for rows in [0, 1, 23, 1_000] {
            let mut screen = Screen::new(80, 3);
            let (first, rest) = print_pages(&mut screen, &text, rows);
            assert_eq!((first == at_most, rest.is_empty()), (rows == 1_000, rows > 0), "{cr}, {rows}");
            screen.print_bytes(rest).unwrap();
            assert_eq!(shown(&screen), shown(&whole), "{cr}, {rows}");
        }
    }
}

#[test]
fn the_call_itself_refuses_a_long_input() {
    let (mut record, long) = (spent().record().to_vec(), [b'A'; 65_536]);
    let before = record.clone();
    let mut refusal = |bytes: &[u8], rows| Refusal::of_answer(ffi::screen_print_waiting(&mut record, bytes, rows)).unwrap_err();
    assert_eq!(refusal(&long, 1_001), Refusal::OutOfRange, "3 comes before 7");
    assert_eq!(refusal(&long, 1_000), Refusal::LongInput, "7 comes before 4");
    assert_eq!(refusal(&long[1..], 1_000), Refusal::SpentSerial);
    assert!(record == before);
}

/// A screen of this width with a text typed into a field of so many characters.
fn field(width: u32, text: &[u8], limit: u8) -> Screen {
    let mut screen = Screen::new(width, 3);
    text.iter().for_each(|&ch| screen.type_limited(ch, limit).unwrap());
    screen
}

#[test]
fn a_full_field_takes_nothing_in_addition() {
    for (width, limit) in [(40, 5), (80, 5), (40, 60), (80, 1), (40, 40), (80, 255)] {
        let before = field(width, &vec![b'A'; limit.into()], limit);
        assert_eq!(before.logical_text(), vec![b'A'; limit.into()]);
        // At its end and, with insert on, in it.
        for insert in [false, true] {
            let (mut screen, mut mirror) = (before.clone(), Mirror::new(width, 3));
            screen.set_insert(insert).unwrap();
            if insert {
                screen.home().unwrap();
            }
            let (full, serial) = (screen.clone(), screen.serial());
            for made in 1..=3 {
                screen.type_limited(b'B', limit).unwrap();
                assert_eq!((shown(&screen), screen.serial()), (shown(&full), serial + made), "{width}, {limit}, {insert}");
            }
            mirror.arrive(screen.report_full()).unwrap();
            screen.type_limited(b'B', limit).unwrap();
            let report = screen.report_step();
            assert_eq!((report.as_bytes().len(), mirror.arrive(&report)), (22, Ok(true)), "a step without rows");
            assert!(mirror.same_as(&screen));
        }
    }
}

#[test]
fn what_stands_in_a_field_is_typed_over() {
    let mut screen = field(80, b"WARD7", 5);
    screen.move_left().unwrap();
    screen.type_limited(b'8', 5).unwrap();
    assert_eq!((screen.logical_text(), screen.cursor()), (b"WARD8".to_vec(), (0, 5)));
    screen.home().unwrap();
    b"BED 12".iter().for_each(|&ch| screen.type_limited(ch, 5).unwrap());
    assert_eq!((screen.logical_text(), screen.cursor()), (b"BED 1".to_vec(), (0, 5)));
    screen.backspace().unwrap();
    screen.type_limited(b'2', 5).unwrap();
    assert_eq!(screen.logical_text(), b"BED 2", "what is deleted makes room");
}

#[test]
fn a_line_that_is_longer_than_the_field() {
    let mut screen = Screen::new(40, 3);
    screen.print_bytes(b"WARD 7: BED 11 FREE, BED 12 TAKEN UNTIL NOON").unwrap();
    let before = screen.clone();
    screen.type_limited(b'!', 5).unwrap();
    assert_eq!(shown(&screen), shown(&before));
    screen.set_cursor(0, 38).unwrap();
    b"L SIX ".iter().for_each(|&ch| screen.type_limited(ch, 5).unwrap());
    assert_eq!((screen.logical_text(), screen.cursor()), (b"WARD 7: BED 11 FREE, BED 12 TAKEN UNTIL SIX".to_vec(), (1, 4)));
}

#[test]
fn a_cursor_to_the_right_of_the_text_counts() {
    let mut screen = field(80, b"A", 5);
    screen.set_cursor(0, 4).unwrap();
    screen.type_limited(b'B', 5).unwrap();
    assert_eq!(screen.logical_text(), b"A   B");
    screen.clear().unwrap();
    screen.set_cursor(0, 5).unwrap();
    let before = screen.clone();
    screen.type_limited(b'B', 5).unwrap();
    assert_eq!(shown(&screen), shown(&before), "there is no character, and no room");
}

#[test]
fn a_field_of_255_is_the_whole_line() {
    for insert in [false, true] {
        let mut screens = [0; 2].map(|_| Screen::new(40, 3));
        screens.iter_mut().for_each(|screen| screen.set_insert(insert).unwrap());
        for n in 0..300_u32 {
            let ch = (n * 7) as u8;
            let [limited, whole] = &mut screens;
            limited.type_limited(ch, 255).unwrap();
            whole.type_char(ch).unwrap();
            if n % 31 == 30 {
                screens.iter_mut().for_each(|screen| screen.set_cursor(n % 5, n % 37).unwrap());
            }
            assert!(screens[0] == screens[1], "{n}");
        }
    }
}

#[test]
fn the_call_itself_refuses_what_no_byte_holds() {
    let mut record = spent().record().to_vec();
    let before = record.clone();
    let mut refusal = |ch, limit| Refusal::of_answer(ffi::screen_type_limited(&mut record, ch, limit)).unwrap_err();
    for (ch, limit) in [(256, 5), (u32::MAX, 255), (65, 0), (65, 256), (65, u32::MAX), (256, 256)] {
        assert_eq!(refusal(ch, limit), Refusal::OutOfRange, "{ch}, {limit}");
    }
    assert_eq!((refusal(255, 255), refusal(0, 1)), (Refusal::SpentSerial, Refusal::SpentSerial));
    assert!(record == before);
}

#[test]
fn byte_6_has_two_bits() {
    let mut record = Screen::new(80, 3).record().to_vec();
    for (byte, insert, ended_in_cr) in [(0, false, false), (1, true, false), (2, false, true), (3, true, true)] {
        record[BITS] = byte;
        let screen = Screen::from_bytes(&record).unwrap();
        assert_eq!((screen.insert_mode(), screen.ended_in_cr()), (insert, ended_in_cr));
        assert_eq!(screen.same_as(&Screen::new(80, 3)), byte == 0);
        assert_eq!(drop_in::Screen::from(screen).insert_mode(), insert);
    }
    for byte in 4..=255 {
        record[BITS] = byte;
        assert_eq!(Screen::from_bytes(&record).err(), Some(Refusal::BrokenLayout), "{byte}");
    }
}

#[test]
fn a_mirror_shows_both_bits() {
    let (mut screen, mut mirror) = (Screen::new(80, 3), Mirror::new(80, 3));
    let calls: [Change; 4] =
        [|screen| screen.set_insert(true), |screen| screen.print_checked(b"WARD 7\r"), |screen| screen.print_checked(b""), Screen::home];
    for (call, bits) in calls.iter().zip([(true, false), (true, true), (true, true), (true, false)]) {
        call(&mut screen).unwrap();
        assert_eq!(mirror.arrive(screen.report_step()), Ok(true));
        assert_eq!((mirror.insert_mode(), mirror.ended_in_cr()), bits);
        assert!(mirror.same_as(&screen));
    }
}

#[test]
fn the_key_table() {
    let mut keys = KeyTable::standard();
    assert_eq!((keys.get(1), keys.get(2), keys.get(10)), (&b"LIST"[..], &b"RUN\r"[..], &b"SCREEN 0,0,0\r"[..]));
    assert!(keys.strip(0, 80).unwrap().starts_with(b"1LIST   2RUN\x1b"));
    keys.set(10, b"BED 12, WARD 7 IS FREE");
    assert_eq!(keys.get(10), b"BED 12, WARD 7 ");
    keys.set(10, b"");
    assert_eq!(keys.strip(9, 40).unwrap()[..9], *b"0       1");
    assert!(KeyTable::from_bytes(keys.as_bytes()).is_ok());
}

#[test]
fn the_drop_in_panics_where_no_signature_has_room() {
    fn sentence<T: std::fmt::Debug>(call: impl FnOnce() -> T + std::panic::UnwindSafe) -> String {
        *std::panic::catch_unwind(call).unwrap_err().downcast::<String>().unwrap()
    }
    assert_eq!(sentence(|| drop_in::Screen::new(40).cell(0, 40)), Refusal::OutOfRange.to_string());
    assert_eq!(sentence(|| drop_in::Screen::new(80).cell(usize::MAX, 0)), Refusal::OutOfRange.to_string());
    assert_eq!(sentence(|| drop_in::Screen::new(80).continues(25)), Refusal::OutOfRange.to_string());
    assert_eq!(sentence(|| drop_in::Screen::from(spent()).type_char(b'A')), Refusal::SpentSerial.to_string());
    assert_eq!(sentence(|| drop_in::Screen::from(spent()).take_logical_line()), Refusal::SpentSerial.to_string());
    assert_eq!(sentence(|| drop_in::Screen::from(spent()).set_width(40)), Refusal::SpentSerial.to_string());
    assert!(!drop_in::Screen::new(80).set_width(41));
    assert!(!drop_in::Screen::new(80).set_width((1 << 32) + 40));
    assert_eq!(drop_in::Screen::new((1 << 32) + 40).width(), 80);
}

#[test]
fn the_drop_in_parts_line_ends_as_the_rust_does() {
    let mut screen = drop_in::Screen::new(80);
    for (bytes, row) in [(&b"\r"[..], 1), (b"", 1), (b"\n", 2), (b"\r\n", 3)] {
        screen.print_bytes(bytes);
        assert_eq!(screen.cursor(), (row, 0));
    }
}

#[test]
fn the_drop_in_in_a_sitting() {
    assert_eq!(drop_in::Screen::new(80).proved().pair(), Pair { sitting: 0, serial: 0 });
    let mut screen = drop_in::Screen::new(40).in_sitting(9);
    let mut mirror = Mirror::new(40, 9);
    assert!(mirror.same_as(screen.proved()));
    screen.print_str("WARD 7");
    assert_eq!(mirror.arrive(screen.proved().report_step()), Ok(true));
    assert_eq!((mirror.pair(), mirror.snapshot()), (Pair { sitting: 9, serial: 1 }, b"WARD 7".to_vec()));
    // A new screen, in whatever sitting.
    assert!(screen.in_sitting(10).proved() == &Screen::new(40, 10));
}

#[test]
fn what_differs_is_not_the_same() {
    let screen_in = |sitting: u32, text: &[u8], change: Change| {
        let mut screen = Screen::new(80, sitting);
        text.iter().for_each(|&ch| screen.type_char(ch).unwrap());
        change(&mut screen).unwrap();
        screen
    };
    let screen = |text: &[u8], change| screen_in(3, text, change);
    let one = screen(b"AB", Screen::home);
    assert!(one.same_as(&one.clone()));
    let mut mirror = Mirror::new(80, 3);
    mirror.arrive(one.report_full()).unwrap();
    assert!(mirror.same_as(&one), "touched rows are left out");
    let others: [Screen; 7] = [
        screen_in(4, b"AB", Screen::home),
        screen(b"AC", Screen::home),
        screen(b"AB", Screen::move_left),
        screen(b"AB", Screen::ctrl_enter),
        screen(b"A", Screen::home),
        screen(b"AB", |screen| screen.set_insert(true)),
        screen(b"AB", |screen| screen.set_keys_on(false)),
    ];
    assert!(others.iter().all(|other| !one.same_as(other)));
}
