//! The entries and the steps against Rust's standard library.
//!
//! usage: rust PROBE

use std::fmt::{Debug, Write as _};
use std::io::{Read, Write};
use std::process::{exit, Command, Stdio};
use std::str::from_utf8;

const LAST: u32 = 1;
const STRICT: u32 = 4;
const SHOW: u32 = 8;
const START: &str = "00000000000000000000000000000000";
const MOST_DIFFERENCES: usize = 10;

const BORDER: &[u8] = &[
    0x00, 0x41, 0x7F, 0x80, 0x8F, 0x90, 0x9F, 0xA0, 0xB2, 0xBF, 0xC0, 0xC1, 0xC2, 0xDF, 0xE0, 0xE1, 0xEC, 0xED, 0xEE,
    0xEF, 0xF0, 0xF1, 0xF3, 0xF4, 0xF5, 0xF7, 0xF8, 0xFF,
];
const NARROW_BORDER: &[u8] =
    &[0x00, 0x41, 0x80, 0x8F, 0x90, 0x9F, 0xA0, 0xBF, 0xC1, 0xC2, 0xE0, 0xE1, 0xED, 0xF0, 0xF4, 0xF8];
const BORDER_CHARS: &[char] = &[
    '\0', '\u{7F}', '\u{80}', '\u{7FF}', '\u{800}', '\u{2032}', '\u{D7FF}', '\u{E000}', '\u{FFFD}', '\u{FFFF}',
    '\u{10000}', '\u{10FFFF}',
];

extern "C" {
    fn utf8b_decode(s: *const u8, n: usize, codes: *mut u8, room: usize, flags: u32, report: *mut u8, len: usize) -> i64;
    fn utf8b_encode(codes: *const u8, n: usize, dst: *mut u8, room: usize, flags: u32, report: *mut u8, len: usize) -> i64;
}

/// What an entry left: the answer, the consumed count, the length of the bad stretch, the items produced.
#[derive(PartialEq, Debug)]
struct Left<T> {
    answer: i64,
    consumed: u64,
    bad_length: u8,
    items: Vec<T>,
}

const REPORT: usize = 9;

fn left<T>(answer: i64, report: [u8; REPORT], items: Vec<T>) -> Left<T> {
    let (count, length) = report.split_at(8);
    Left { answer, consumed: u64::from_le_bytes(count.try_into().unwrap()), bad_length: length[0], items }
}

fn answer_of(items: usize, bad: bool) -> i64 {
    if bad && items == 0 { -1 } else { items as i64 }
}

fn read(data: &[u8], flags: u32) -> Left<u32> {
    let mut codes = vec![0xA5; data.len() * 4 + 3];
    let mut report = [0xA5; REPORT];
    let answer = unsafe {
        utf8b_decode(data.as_ptr(), data.len(), codes.as_mut_ptr(), codes.len(), flags, report.as_mut_ptr(), REPORT)
    };
    codes.truncate(answer.max(0) as usize * 4);
    let items = codes.chunks_exact(4).map(|c| u32::from_le_bytes(c.try_into().unwrap())).collect();
    left(answer, report, items)
}

fn write(codes: &[u32], flags: u32) -> Left<u8> {
    let packed: Vec<u8> = codes.iter().flat_map(|code| code.to_le_bytes()).collect();
    let mut items = vec![0xA5; packed.len()];
    let mut report = [0xA5; REPORT];
    let answer = unsafe {
        utf8b_encode(packed.as_ptr(), packed.len(), items.as_mut_ptr(), items.len(), flags, report.as_mut_ptr(), REPORT)
    };
    items.truncate(answer.max(0) as usize);
    left(answer, report, items)
}

fn codes_of(text: &str) -> Vec<u32> {
    text.chars().map(u32::from).collect()
}

/// A reading: its number, the codes, for each the bytes that it came from, and the length of the bad stretch.
struct Reading {
    number: u32,
    codes: Vec<u32>,
    spans: Vec<usize>,
    bad_length: u8,
}

impl Reading {
    fn of(text: &str, number: u32, bad_length: u8) -> Reading {
        let mut reading = Reading { number, codes: vec![], spans: vec![], bad_length };
        reading.extend(text);
        reading
    }

    fn push(&mut self, code: u32, span: usize) {
        self.codes.push(code);
        self.spans.push(span);
    }

    fn extend(&mut self, text: &str) {
        text.chars().for_each(|c| self.push(c.into(), c.len_utf8()));
    }

    /// A smaller room cuts the codes short, with number 1.
    fn with_room(mut self, room: usize) -> Reading {
        if self.codes.len() > room {
            self.codes.truncate(room);
            self.spans.truncate(room);
            self.number = 1;
            self.bad_length = 0;
        }
        self
    }

    fn consumed(&self) -> u64 {
        self.spans.iter().sum::<usize>() as u64
    }

    fn left(self) -> Left<u32> {
        let (answer, consumed) = (answer_of(self.codes.len(), self.number == 3), self.consumed());
        Left { answer, consumed, bad_length: self.bad_length, items: self.codes }
    }
}

/// STRICT, by from_utf8: no error_len is a partial sequence, which waits unless LAST is given, and is then bad as a whole.
fn read_strictly_by_peer(data: &[u8], flags: u32) -> Reading {
    let (valid, number, bad_length) = match from_utf8(data) {
        Ok(_) => (data.len(), 0, 0),
        Err(e) if e.error_len().is_none() && flags & LAST == 0 => (e.valid_up_to(), 2, 0),
        Err(e) => (e.valid_up_to(), 3, e.error_len().unwrap_or(data.len() - e.valid_up_to()) as u8),
    };
    Reading::of(from_utf8(&data[..valid]).unwrap(), number, bad_length)
}

fn is_partial(bytes: &[u8]) -> bool {
    from_utf8(bytes).is_err_and(|e| e.valid_up_to() == 0 && e.error_len().is_none())
}

/// Without STRICT, by utf8_chunks: with SHOW an invalid part is a mark, else every byte of it is an escape.
fn read_loosely_by_peer(data: &[u8], flags: u32) -> Reading {
    let mut reading = Reading::of("", 0, 0);
    for chunk in data.utf8_chunks() {
        reading.extend(chunk.valid());
        let invalid = chunk.invalid();
        let ends = reading.consumed() as usize + invalid.len() == data.len();
        if ends && flags & LAST == 0 && is_partial(invalid) {
            reading.number = 2;
        } else if flags & SHOW == 0 {
            invalid.iter().for_each(|&b| reading.push(0xDC00 + u32::from(b), 1));
        } else if !invalid.is_empty() {
            reading.push(0xFFFD, invalid.len());
        }
    }
    reading
}

fn read_by_peer(data: &[u8], flags: u32) -> Reading {
    if flags & STRICT != 0 { read_strictly_by_peer(data, flags) } else { read_loosely_by_peer(data, flags) }
}

/// SURRO has no peer in the standard library.
const READER_FLAGS: [u32; 6] = [0, LAST, STRICT, STRICT | LAST, SHOW, SHOW | LAST];

struct Tally {
    compared: usize,
    with_show: usize,
    differences: usize,
}

impl Tally {
    fn compare<T: PartialEq + Debug>(&mut self, expected: &T, answer: &T, what: impl FnOnce() -> String) {
        self.compared += 1;
        if expected == answer {
            return;
        }
        self.differences += 1;
        println!("difference: {}\n  Rust: {expected:X?}\n  here: {answer:X?}", what());
        if self.differences == MOST_DIFFERENCES {
            println!("too many differences");
            exit(1);
        }
    }
}

// Inputs.

struct Random(u64);

impl Random {
    fn below(&mut self, n: usize) -> usize {
        self.0 ^= self.0 << 13;
        self.0 ^= self.0 >> 7;
        self.0 ^= self.0 << 17;
        (self.0 >> 32) as usize % n
    }

    fn pick<T: Copy>(&mut self, of: &[T]) -> T {
        of[self.below(of.len())]
    }

    fn char(&mut self) -> char {
        let most = self.pick(&[0x80, 0x800, 0xD800, 0x110000]);
        char::from_u32(self.below(most) as u32).unwrap_or('\u{2032}')
    }

    fn text(&mut self, length: usize) -> String {
        (0..length).map(|_| if self.below(4) == 0 { self.pick(BORDER_CHARS) } else { self.char() }).collect()
    }

    fn bytes(&mut self, length: usize) -> Vec<u8> {
        (0..length).map(|_| if self.below(3) == 0 { self.below(256) as u8 } else { self.pick(BORDER) }).collect()
    }

    /// One byte dropped, changed or doubled.
    fn damage(&mut self, data: &mut Vec<u8>) {
        if data.is_empty() {
            return;
        }
        let place = self.below(data.len());
        match self.below(3) {
            0 => drop(data.remove(place)),
            1 => data[place] = self.below(256) as u8,
            _ => data.insert(place, data[place]),
        }
    }

    fn damaged(&mut self, length: usize) -> Vec<u8> {
        let mut data = self.text(length).into_bytes();
        for _ in 0..=self.below(1 + length / 3) {
            self.damage(&mut data);
        }
        data
    }
}

/// All strings of that length over the bytes.
fn strings_over(bytes: &[u8], length: usize) -> Vec<Vec<u8>> {
    let mut all = vec![vec![]];
    for _ in 0..length {
        all = all.iter().flat_map(|s| bytes.iter().map(|&b| [&s[..], &[b]].concat())).collect();
    }
    all
}

fn short_strings() -> Vec<Vec<u8>> {
    let every: Vec<u8> = (0..=255).collect();
    let mut all: Vec<_> = (0..=2).flat_map(|length| strings_over(&every, length)).collect();
    all.extend(strings_over(BORDER, 3));
    all.extend(strings_over(NARROW_BORDER, 4));
    all
}

// The entries.

fn compare_read(tally: &mut Tally, data: &[u8], flags: u32) {
    tally.with_show += usize::from(flags & SHOW != 0);
    tally.compare(&read_by_peer(data, flags).left(), &read(data, flags), || format!("read, flags {flags}, bytes {data:02X?}"));
}

fn compare_reads(tally: &mut Tally, random: &mut Random) {
    let mut strings = short_strings();
    for _ in 0..50_000 {
        let length = random.below(24);
        strings.push(random.bytes(length));
        strings.push(random.damaged(length));
    }
    for data in &strings {
        for flags in READER_FLAGS {
            compare_read(tally, data, flags);
        }
    }
}

/// The whole of from_utf8_lossy, on every string of three bytes and on longer ones.
fn compare_lossy(tally: &mut Tally) {
    let every = (0..1 << 24).map(|n: u32| n.to_be_bytes()[1..].to_vec());
    for data in every.chain(strings_over(BORDER, 4)).chain(strings_over(NARROW_BORDER, 5)) {
        let items = codes_of(&String::from_utf8_lossy(&data));
        let expected = Left { answer: items.len() as i64, consumed: data.len() as u64, bad_length: 0, items };
        tally.with_show += 1;
        tally.compare(&expected, &read(&data, SHOW | LAST), || format!("from_utf8_lossy, bytes {data:02X?}"));
    }
}

/// The unread rest goes before the next piece; only the last piece has LAST.
fn read_in_pieces(random: &mut Random, data: &[u8], flags: u32) -> Left<u32> {
    let (mut at, mut rest, mut all) = (0, vec![], Left { answer: 0, consumed: 0, bad_length: 0, items: vec![] });
    loop {
        let most = random.pick(&[100, 100, 100, 4000]);
        let end = data.len().min(at + random.below(most));
        rest.extend_from_slice(&data[at..end]);
        at = end;
        let left = read(&rest, if at == data.len() { flags } else { flags & !LAST });
        all.items.extend(left.items);
        all.consumed += left.consumed;
        rest.drain(..left.consumed as usize);
        if at == data.len() || left.bad_length > 0 {
            all.bad_length = left.bad_length;
            all.answer = answer_of(all.items.len(), left.answer < 0);
            return all;
        }
    }
}

fn compare_pieces(tally: &mut Tally, random: &mut Random) {
    for round in 0..100 {
        let mut data = random.text(2000).into_bytes();
        match round % 3 {
            0 => random.damage(&mut data),
            1 => data = random.damaged(2000),
            _ => (),
        }
        for flags in READER_FLAGS {
            let pieces = read_in_pieces(random, &data, flags);
            tally.compare(&read_by_peer(&data, flags).left(), &pieces, || format!("pieces, flags {flags}, bytes {data:02X?}"));
        }
    }
}

/// Texts have scalar values only, so all flag sets of the writer agree.
fn compare_writes(tally: &mut Tally, random: &mut Random) {
    let mut texts: Vec<String> = (0..20_000).map(|i| random.text(i % 16)).collect();
    let every: Vec<char> = ('\0'..=char::MAX).collect();
    texts.extend(every.chunks(1000).map(|chunk| chunk.iter().collect::<String>()));
    for text in &texts {
        let codes = codes_of(text);
        let (answer, consumed) = (text.len() as i64, codes.len() as u64);
        let expected = Left { answer, consumed, bad_length: 0, items: text.as_bytes().to_vec() };
        for flags in 0..8 {
            tally.compare(&expected, &write(&codes, flags), || format!("write, flags {flags}, codes {codes:X?}"));
        }
    }
}

// The steps and the reader's numbers, by way of probe.

fn hex(bytes: &[u8]) -> String {
    if bytes.is_empty() {
        return "-".to_string();
    }
    bytes.iter().fold(String::new(), |mut s, b| {
        write!(s, "{b:02X}").unwrap();
        s
    })
}

/// A state record: its kind, the number of data bytes, the data, zeros.
fn record(kind: u8, data: &[u8]) -> String {
    if data.is_empty() {
        return START.to_string();
    }
    let mut bytes = vec![kind, data.len() as u8];
    bytes.extend_from_slice(data);
    bytes.resize(16, 0);
    hex(&bytes)
}

/// Commands with the answers that are expected.
#[derive(Default)]
struct Batch {
    commands: String,
    expected: Vec<String>,
}

impl Batch {
    fn add(&mut self, command: String, expected: String) {
        self.commands += &command;
        self.commands.push('\n');
        self.expected.push(expected);
    }

    fn compare(self, tally: &mut Tally, probe: &str) {
        let answers = ask(probe, self.commands.clone());
        let answers: Vec<&str> = answers.lines().collect();
        assert_eq!(self.expected.len(), answers.len(), "probe: one answer for each command");
        for ((command, expected), answer) in self.commands.lines().zip(&self.expected).zip(answers) {
            tally.compare(&expected.as_str(), &answer, || command.to_string());
        }
    }
}

fn ask(probe: &str, commands: String) -> String {
    let mut child =
        Command::new(probe).stdin(Stdio::piped()).stdout(Stdio::piped()).spawn().expect("probe cannot be run");
    let mut stdin = child.stdin.take().unwrap();
    let feeder = std::thread::spawn(move || stdin.write_all(commands.as_bytes()));
    let mut answers = String::new();
    child.stdout.take().unwrap().read_to_string(&mut answers).expect("probe's answers are text");
    feeder.join().unwrap().expect("probe reads all its input");
    assert!(child.wait().unwrap().success(), "probe exits with status 0");
    answers
}

fn list(codes: &[u32]) -> String {
    if codes.is_empty() {
        return "-".to_string();
    }
    codes.iter().map(|code| format!("{code:X}")).collect::<Vec<_>>().join(",")
}

/// A length, or none.
fn length(n: u8) -> String {
    if n == 0 { "-".to_string() } else { n.to_string() }
}

fn compare_numbers(tally: &mut Tally, probe: &str) {
    let mut batch = Batch::default();
    for (i, data) in strings_over(BORDER, 2).iter().chain(&strings_over(NARROW_BORDER, 3)).enumerate() {
        for flags in READER_FLAGS {
            let room = i % (data.len() + 1);
            let r = read_by_peer(data, flags).with_room(room);
            let expected = format!("{} {} {} {}", r.number, r.consumed(), list(&r.codes), length(r.bad_length));
            batch.add(format!("read {flags} {room} {}", hex(data)), expected);
        }
    }
    batch.compare(tally, probe);
}

/// Texts with a code above 10FFFF at the end of some: the longest part that fits is written.
fn compare_write_numbers(tally: &mut Tally, probe: &str, random: &mut Random) {
    let mut batch = Batch::default();
    for i in 0..20_000 {
        let text = random.text(i % 6);
        let room = random.below(text.len() + 3);
        let fits = (0..=text.len().min(room)).rev().find(|&n| text.is_char_boundary(n)).unwrap();
        let mut codes = codes_of(&text);
        let mut number = if fits < text.len() { 1 } else { 0 };
        if i % 3 == 0 {
            codes.push(random.pick(&[0x110000, 0x7FFFFFFF, 0xFFFFFFFF]));
            number = if fits < text.len() { 1 } else { 3 };
        }
        let expected = format!("{number} {} {}", text[..fits].chars().count(), hex(&text.as_bytes()[..fits]));
        batch.add(format!("write {} {room} {}", i % 8, list(&codes)), expected);
    }
    batch.compare(tally, probe);
}

/// The first unit of a character, and the state for the others.
fn first_unit(c: char, width: u32) -> (u32, String) {
    match width {
        8 => {
            let mut buffer = [0; 4];
            let bytes = c.encode_utf8(&mut buffer).as_bytes();
            (bytes[0].into(), record(2, &bytes[1..]))
        }
        16 => {
            let mut buffer = [0; 2];
            let units = c.encode_utf16(&mut buffer);
            (units[0].into(), units.get(1).map_or(START.to_string(), |u| record(3, &u.to_le_bytes())))
        }
        _ => (c.into(), START.to_string()),
    }
}

/// A step's answer over data, of which the first bytes are held. The sequence is found with from_utf8.
fn step_by_peer(data: &[u8], held: usize, width: u32) -> String {
    for length in held + 1..=data.len() {
        match from_utf8(&data[..length]) {
            Ok("\0") => return format!("null 0 0 1 - - {START}"),
            Ok(text) => {
                let (unit, next) = first_unit(text.chars().next().unwrap(), width);
                return format!("unit 0 {unit:X} {} - - {next}", length - held);
            }
            Err(e) => {
                if let Some(bad_length) = e.error_len() {
                    return format!("bad 3 - 0 {held} {bad_length} {START}");
                }
            }
        }
    }
    format!("incomplete 2 - {} - - {}", data.len() - held, record(1, data))
}

/// Every string from the starting state, and from the state that holds its beginning.
fn compare_steps(tally: &mut Tally, probe: &str) {
    let mut strings = strings_over(BORDER, 3);
    strings.extend(strings_over(&(0..=255).collect::<Vec<u8>>(), 1));
    strings.extend(strings_over(NARROW_BORDER, 4));
    strings.push(vec![]);
    let mut batch = Batch::default();
    for data in &strings {
        let held = (1..=data.len()).take_while(|&held| is_partial(&data[..held]));
        for held in std::iter::once(0).chain(held) {
            for width in [8, 16, 32] {
                let command = format!("step{width} {} {}", record(1, &data[..held]), hex(&data[held..]));
                batch.add(command, step_by_peer(data, held, width));
            }
        }
    }
    batch.compare(tally, probe);
}

/// Every character in each width: its first unit, then its pending units one by one.
fn compare_units(tally: &mut Tally, probe: &str, random: &mut Random) {
    let mut batch = Batch::default();
    for i in 0..12_000 {
        let c = if i % 8 == 0 { random.pick(BORDER_CHARS) } else { random.char() };
        let text = c.to_string();
        for width in [8, 16, 32] {
            batch.add(format!("step{width} {START} {}", hex(text.as_bytes())), step_by_peer(text.as_bytes(), 0, width));
        }
        let mut pending = &text.as_bytes()[1..];
        while let [first, others @ ..] = pending {
            let expected = format!("continuation 0 {first:X} 0 - - {}", record(2, others));
            batch.add(format!("step8 {} 4141", record(2, pending)), expected);
            pending = others;
        }
        if let Some(low) = text.encode_utf16().nth(1) {
            batch.add(format!("step16 {} -", record(3, &low.to_le_bytes())), format!("continuation 0 {low:X} 0 - - {START}"));
        }
    }
    batch.compare(tally, probe);
}

/// decode_utf16 takes a high unit at the end for an error; here it is held.
fn back_by_peer(units: &[u16]) -> String {
    match (char::decode_utf16(units.iter().copied()).next().unwrap(), units) {
        (Ok(c), _) => format!("bytes 0 {:0<8} {} - {START}", hex(c.to_string().as_bytes()), c.len_utf8()),
        (Err(_), &[high @ 0xD800..=0xDBFF]) => format!("held 0 00000000 0 - {}", record(4, &high.to_le_bytes())),
        (Err(_), _) => format!("bad 3 00000000 0 {} {START}", units.len() - 1),
    }
}

/// Every unit from the starting state; after a held unit, units of each kind.
fn compare_back(tally: &mut Tally, probe: &str, random: &mut Random) {
    let mut batch = Batch::default();
    for unit in 0..=0xFFFF {
        batch.add(format!("back {START} {unit:X}"), back_by_peer(&[unit]));
    }
    for i in 0..30_000 {
        let high = 0xD800 + random.below(0x400) as u16;
        let unit = match i % 4 {
            0 => random.below(0x10000) as u16,
            1 => random.pick(&[0, 0x41, 0xD7FF, 0xD800, 0xDBFF, 0xE000, 0xFFFF]),
            2 => random.pick(&[0xDC00, 0xDFFF]),
            _ => 0xDC00 + random.below(0x400) as u16,
        };
        batch.add(format!("back {} {unit:X}", record(4, &high.to_le_bytes())), back_by_peer(&[high, unit]));
    }
    batch.compare(tally, probe);
}

/// What a record stands for, if it is valid.
enum State {
    Start,
    Held(Vec<u8>),
    Pending8(Vec<u8>),
    Pending16(u16),
    High(u16),
    Invalid,
}

fn state_of(record: &[u8; 16]) -> State {
    let count = usize::from(record[1]);
    if count > 14 || record[2 + count..].iter().any(|&b| b != 0) {
        return State::Invalid;
    }
    match (record[0], &record[2..2 + count]) {
        (0, []) => State::Start,
        (1, data) if is_partial(data) => State::Held(data.to_vec()),
        (2, data @ [0x80..=0xBF, others @ ..]) if count <= 3 && others.iter().all(|b| (0x80..=0xBF).contains(b)) => {
            State::Pending8(data.to_vec())
        }
        (3, &[low, high @ 0xDC..=0xDF]) => State::Pending16(u16::from_le_bytes([low, high])),
        (4, &[low, high @ 0xD8..=0xDB]) => State::High(u16::from_le_bytes([low, high])),
        _ => State::Invalid,
    }
}

fn step_from(bytes: &[u8; 16], input: &[u8], width: u32) -> String {
    match (state_of(bytes), width) {
        (State::Start, _) => step_by_peer(input, 0, width),
        (State::Held(held), _) => step_by_peer(&[&held, input].concat(), held.len(), width),
        (State::Pending8(units), 8) => format!("continuation 0 {:X} 0 - - {}", units[0], record(2, &units[1..])),
        (State::Pending16(unit), 16) => format!("continuation 0 {unit:X} 0 - - {START}"),
        _ => format!("refused 5 - 0 - - {}", hex(bytes)),
    }
}

fn back_from(bytes: &[u8; 16], unit: u16) -> String {
    match state_of(bytes) {
        State::Start => back_by_peer(&[unit]),
        State::High(high) => back_by_peer(&[high, unit]),
        _ => format!("refused 5 00000000 0 - {}", hex(bytes)),
    }
}

const RECORD_BYTES: &[u8] =
    &[0x00, 0x41, 0x80, 0xA0, 0xBF, 0xC1, 0xD8, 0xDB, 0xDC, 0xDF, 0xE0, 0xE2, 0xED, 0xF0, 0xF4];

/// Records of every kind and count, most of them invalid.
fn records() -> Vec<[u8; 16]> {
    let mut all = vec![];
    for kind in [0, 1, 2, 3, 4, 5, 0x80, 0xFF] {
        for count in [0, 1, 2, 3, 4, 14, 15, 0xFF] {
            for data in strings_over(RECORD_BYTES, 2) {
                for (place, stray) in [(4, 0x00), (4, 0x80), (4, 0x41), (15, 0x01)] {
                    let mut bytes = [0; 16];
                    bytes[..4].copy_from_slice(&[kind, count, data[0], data[1]]);
                    bytes[place] = stray;
                    all.push(bytes);
                }
            }
        }
    }
    all
}

/// The calls from every such record: number 5 exactly where the state is refused.
fn compare_records(tally: &mut Tally, probe: &str) {
    let mut batch = Batch::default();
    for (i, bytes) in records().iter().enumerate() {
        let text = hex(bytes);
        let input: &[u8] = [&[][..], &[0x80], &[0x80, 0x80, 0x80], &[0x41]][i % 5 % 4];
        for width in [8, 16, 32] {
            batch.add(format!("step{width} {text} {}", hex(input)), step_from(bytes, input, width));
        }
        let unit = [0xDC00, 0xDFFF, 0x41, 0xD800][i % 5 % 4];
        batch.add(format!("back {text} {unit:X}"), back_from(bytes, unit));
        batch.add(format!("reset {text}"), format!("0 {START}"));
        batch.add(format!("start {text}"), if text == START { "yes" } else { "no" }.to_string());
    }
    batch.compare(tally, probe);
}

fn main() {
    let probe = std::env::args().nth(1).expect("usage: rust PROBE");
    let mut tally = Tally { compared: 0, with_show: 0, differences: 0 };
    let mut random = Random(88172645463325252);
    compare_reads(&mut tally, &mut random);
    compare_lossy(&mut tally);
    compare_pieces(&mut tally, &mut random);
    compare_writes(&mut tally, &mut random);
    compare_numbers(&mut tally, &probe);
    compare_write_numbers(&mut tally, &probe, &mut random);
    compare_steps(&mut tally, &probe);
    compare_units(&mut tally, &probe, &mut random);
    compare_back(&mut tally, &probe, &mut random);
    compare_records(&mut tally, &probe);
    println!("{} comparisons, {} of them with SHOW, {} differences", tally.compared, tally.with_show, tally.differences);
    exit(i32::from(tally.differences != 0));
}
