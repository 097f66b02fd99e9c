//! Reading the two sheets, line by line; the first fault is the answer.

use std::ops::RangeInclusive;

const LONGEST_SHEET: usize = 30_000;
const MOST_TEACHERS: u16 = 200;

/// One subject at one school. The list of teachers is checked but not kept, since points decide.
pub struct Lane {
    pub school: u16,
    pub subject: u16,
    pub size: u16,
}

/// The cost is checked but not kept, since sizes are seats.
pub struct Teacher {
    pub home: u16,
    pub main: u16,
    pub also: Vec<u16>,
    pub wishes: Vec<u16>,
    pub points: u16,
}

pub struct Round {
    pub schools: u16,
    pub lanes: Vec<Lane>,
    pub teachers: Vec<Teacher>,
}

/// Why a sheet is refused, and where.
pub struct Fault {
    pub number: u8,
    pub sheet: u8,
    pub line: usize,
    pub place: usize,
}

impl Fault {
    pub fn report(&self) -> String {
        let Fault { number, sheet, line, place } = self;
        format!("refused={number}\nsheet={sheet}\nline={line}\nplace={place}\n")
    }

    /// The text of the faulty line, without its line end.
    pub fn text<'a>(&self, sheet: &'a [u8]) -> &'a [u8] {
        let rest = &sheet[self.place..];
        let end = rest.iter().position(|&byte| byte == b'\n');
        &rest[..end.unwrap_or(rest.len())]
    }
}

/// Reads both sheets, posts first.
pub fn read(posts: &[u8], staff: &[u8]) -> Result<Round, Fault> {
    let (schools, subjects, lanes) = read_posts(posts)?;
    let teachers = read_staff(staff, schools, subjects)?;
    Ok(Round { schools, lanes, teachers })
}

fn read_posts(bytes: &[u8]) -> Result<(u16, u16, Vec<Lane>), Fault> {
    let mut sheet = Reader::new(1, bytes)?;
    let schools = sheet.number("schools", 1..=30)?;
    let subjects = sheet.number("subjects", 1..=10)?;
    let count = sheet.number("lanes", 1..=80)?;
    let mut lanes: Vec<Lane> = Vec::with_capacity(count.into());
    for _ in 0..count {
        let lane = sheet.numbers("lane", 3..=3)?;
        let (school, subject, size) = (lane[0], lane[1], lane[2]);
        sheet.ask(5, (1..=schools).contains(&school))?;
        sheet.ask(5, (1..=subjects).contains(&subject))?;
        sheet.ask(5, size <= 60_000)?;
        sheet.ask(7, !lanes.iter().any(|other| (other.school, other.subject) == (school, subject)))?;
        lanes.push(Lane { school, subject, size });

        let list = sheet.list("list", 20, 1..=MOST_TEACHERS)?;
        sheet.ask(6, all_different(&list))?;
    }
    sheet.end()?;
    Ok((schools, subjects, lanes))
}

fn read_staff(bytes: &[u8], schools: u16, subjects: u16) -> Result<Vec<Teacher>, Fault> {
    let mut sheet = Reader::new(2, bytes)?;
    let count = sheet.number("teachers", 1..=MOST_TEACHERS)?;
    let mut teachers = Vec::with_capacity(count.into());
    for _ in 0..count {
        let home = sheet.number("home", 0..=schools)?;
        let main = sheet.number("main", 1..=subjects)?;
        let also = sheet.list("also", 9, 1..=subjects)?;
        sheet.ask(6, also.windows(2).all(|pair| pair[0] < pair[1]) && !also.contains(&main))?;
        let wishes = sheet.list("wish", 12, 1..=schools)?;
        sheet.ask(6, all_different(&wishes))?;
        let points = sheet.number("points", 0..=u16::MAX)?;
        sheet.number("cost", 0..=100)?;
        teachers.push(Teacher { home, main, also, wishes, points });
    }
    sheet.end()?;
    Ok(teachers)
}

fn all_different(numbers: &[u16]) -> bool {
    numbers.iter().enumerate().all(|(at, number)| !numbers[..at].contains(number))
}

/// A sheet, and how far it has been read.
struct Reader<'a> {
    sheet: u8,
    bytes: &'a [u8],
    /// Number of the line that was read last, from 1.
    line: usize,
    /// Where that line begins.
    place: usize,
    /// Where the line after it begins.
    next: usize,
}

impl<'a> Reader<'a> {
    fn new(sheet: u8, bytes: &'a [u8]) -> Result<Self, Fault> {
        let reader = Reader { sheet, bytes, line: 0, place: 0, next: 0 };
        reader.ask(1, bytes.len() <= LONGEST_SHEET)?;
        Ok(reader)
    }

    /// Refuses the line that was read last, with this number, unless the answer is yes.
    fn ask(&self, number: u8, yes: bool) -> Result<(), Fault> {
        if yes {
            Ok(())
        } else {
            Err(self.fault(number))
        }
    }

    fn fault(&self, number: u8) -> Fault {
        Fault { number, sheet: self.sheet, line: self.line, place: self.place }
    }

    /// Goes to the next line.
    fn step(&mut self) {
        self.line += 1;
        self.place = self.next;
    }

    /// The next line's value, which is what follows the key and the equals sign.
    fn value(&mut self, key: &str) -> Result<&'a [u8], Fault> {
        self.step();
        let rest = &self.bytes[self.place..];
        let length = rest.iter().position(|&byte| byte == b'\n').ok_or_else(|| self.fault(2))?;
        self.next = self.place + length + 1;
        rest[..length]
            .strip_prefix(key.as_bytes())
            .and_then(|rest| rest.strip_prefix(b"="))
            .ok_or_else(|| self.fault(3))
    }

    /// The next line's numbers, of which there have to be `count`.
    fn numbers(&mut self, key: &str, count: RangeInclusive<usize>) -> Result<Vec<u16>, Fault> {
        let value = self.value(key)?;
        let numbers: Option<Vec<u16>> = if value.is_empty() {
            Some(Vec::new())
        } else {
            value.split(|&byte| byte == b',').map(parse).collect()
        };
        numbers.filter(|numbers| count.contains(&numbers.len())).ok_or_else(|| self.fault(4))
    }

    /// The next line's numbers, at most `most` of them, each in the range.
    fn list(&mut self, key: &str, most: usize, range: RangeInclusive<u16>) -> Result<Vec<u16>, Fault> {
        let numbers = self.numbers(key, 0..=most)?;
        self.ask(5, numbers.iter().all(|number| range.contains(number)))?;
        Ok(numbers)
    }

    /// The next line's only number.
    fn number(&mut self, key: &str, range: RangeInclusive<u16>) -> Result<u16, Fault> {
        let number = self.numbers(key, 1..=1)?[0];
        self.ask(5, range.contains(&number))?;
        Ok(number)
    }

    /// Nothing may follow the last line.
    fn end(mut self) -> Result<(), Fault> {
        self.step();
        self.ask(8, self.place == self.bytes.len())
    }
}

/// A number: 1 to 5 digits, no leading zero, at most 65535.
fn parse(text: &[u8]) -> Option<u16> {
    let well_written = match text {
        [b'0'] => true,
        [b'1'..=b'9', rest @ ..] => rest.len() <= 4 && rest.iter().all(u8::is_ascii_digit),
        _ => false,
    };
    if !well_written {
        return None;
    }
    let value = text.iter().fold(0u32, |value, &digit| value * 10 + u32::from(digit - b'0'));
    value.try_into().ok()
}
