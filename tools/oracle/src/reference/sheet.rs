//! The reader: a sheet's rows, or its refusal (1 to 3) with the line.

const HEADER: &[u8] = b"row at place n cap";
const BYTES: usize = 65_536;
/// Transitions, and places.
const MOST: i64 = 256;
/// Rows of `pay`, and of each arc kind of a transition.
const ROWS: usize = 64;
const MILLION: i64 = 1_000_000;

/// The row words, and which of the four fields hold a number.
const FORMS: [(&[u8], [bool; 4]); 11] = [
    (b"size", [true, true, false, false]),
    (b"mark", [false, true, true, false]),
    (b"pay", [false, true, true, false]),
    (b"turn", [true, false, true, false]),
    (b"auto", [true, false, true, false]),
    (b"in", [true, true, true, false]),
    (b"out", [true, true, true, false]),
    (b"read", [true, true, true, false]),
    (b"stop", [true, true, true, false]),
    (b"cap", [true, true, true, true]),
    (b"void", [true, false, false, false]),
];

#[derive(Clone, Default)]
pub struct Transition {
    /// (automatic, side), once a `turn` or `auto` row has said it.
    pub role: Option<(bool, i64)>,
    pub void: bool,
    pub ins: Vec<(usize, i64)>,
    pub outs: Vec<(usize, i64)>,
    pub reads: Vec<(usize, i64)>,
    pub stops: Vec<(usize, i64)>,
    pub caps: Vec<(usize, i64, i64)>,
}

#[derive(Clone, Default)]
pub struct Sheet {
    pub transitions: Vec<Transition>,
    /// Per place: its `mark` row.
    pub marks: Vec<Option<i64>>,
    pub pays: Vec<(usize, i64)>,
    /// The rows below `size` in their order: which word, and the four fields.
    pub rows: Vec<(usize, [i64; 4])>,
}

#[derive(Debug)]
pub struct Fault {
    pub number: u64,
    pub line: u64,
}

fn fault<T>(number: u64, line: u64) -> Result<T, Fault> {
    Err(Fault { number, line })
}

/// `0`, or a digit from 1 on and more digits, perhaps after `-`. A number
/// too long for i64 stays at its end, which no limit admits.
fn number(field: &[u8]) -> Option<i64> {
    if field == b"0" {
        return Some(0);
    }
    let (sign, digits) = match field {
        [b'-', rest @ ..] => (-1, rest),
        _ => (1, field),
    };
    if !matches!(digits.first(), Some(b'1'..=b'9')) || !digits.iter().all(u8::is_ascii_digit) {
        return None;
    }
    let add = |n: i64, d: &u8| n.saturating_mul(10).saturating_add((d - b'0') as i64);
    Some(sign * digits.iter().fold(0, add))
}

/// A row of the right form: its word and its four fields (0 for `-`).
fn form(line: &[u8]) -> Option<(&[u8], [i64; 4])> {
    let fields: Vec<&[u8]> = line.split(|&b| b == b' ').collect();
    let (word, numbers) = FORMS.iter().find(|f| fields[0] == f.0)?;
    if fields.len() != 5 {
        return None;
    }
    let mut row = [0; 4];
    for i in 0..4 {
        if numbers[i] {
            row[i] = number(fields[i + 1])?;
        } else if fields[i + 1] != b"-" {
            return None;
        }
    }
    Some((word, row))
}

impl Sheet {
    /// Whether a row's numbers, indices and row counts are within limits.
    fn within(&self, word: &[u8], [t, p, n, c]: [i64; 4]) -> bool {
        if word == b"size" {
            return (1..=MOST).contains(&t) && (1..=MOST).contains(&p);
        }
        let at = (0..self.transitions.len() as i64).contains(&t);
        let place = (0..self.marks.len() as i64).contains(&p);
        let tr = self.transitions.get(t as usize);
        let room = |rows: fn(&Transition) -> usize| tr.is_some_and(|x| rows(x) < ROWS);
        let weight = (0..=MILLION).contains(&n);
        match word {
            b"mark" => place && (0..=1).contains(&n),
            b"pay" => place && (-MILLION..=MILLION).contains(&n) && self.pays.len() < ROWS,
            b"turn" | b"auto" => at && (-1..=1).contains(&n),
            b"in" => at && place && weight && room(|x| x.ins.len()),
            b"out" => at && place && weight && room(|x| x.outs.len()),
            b"read" => at && place && weight && room(|x| x.reads.len()),
            b"stop" => at && place && weight && room(|x| x.stops.len()),
            b"cap" => {
                let d = (-MILLION..=MILLION).contains(&n);
                at && place && d && (0..=MILLION).contains(&c) && room(|x| x.caps.len())
            }
            _ => at,
        }
    }

    /// Takes a row in; false for a second mark or role.
    fn add(&mut self, word: &[u8], [t, p, n, c]: [i64; 4]) -> bool {
        let (t, p) = (t as usize, p as usize);
        match word {
            b"size" => {
                self.transitions = vec![Transition::default(); t];
                self.marks = vec![None; p];
            }
            b"mark" => return self.marks[p].replace(n).is_none(),
            b"pay" => self.pays.push((p, n)),
            b"turn" => return self.transitions[t].role.replace((false, n)).is_none(),
            b"auto" => return self.transitions[t].role.replace((true, n)).is_none(),
            b"in" => self.transitions[t].ins.push((p, n)),
            b"out" => self.transitions[t].outs.push((p, n)),
            b"read" => self.transitions[t].reads.push((p, n)),
            b"stop" => self.transitions[t].stops.push((p, n)),
            b"cap" => self.transitions[t].caps.push((p, n, c)),
            _ => self.transitions[t].void = true,
        }
        true
    }
}

pub fn read(sheet: &[u8]) -> Result<Sheet, Fault> {
    if sheet.len() > BYTES {
        return fault(1, 0);
    }
    let mut got = Sheet::default();
    let mut rest = sheet;
    for line in 1.. {
        if rest.is_empty() && line > 2 {
            break;
        }
        let Some(end) = rest.iter().position(|&b| b == 10) else {
            return fault(1, line);
        };
        let text = &rest[..end];
        rest = &rest[end + 1..];
        if line == 1 {
            if text != HEADER {
                return fault(1, 1);
            }
            continue;
        }
        let Some((word, row)) = form(text) else {
            return fault(1, line);
        };
        if (word == b"size") != (line == 2) {
            return fault(1, line);
        }
        if !got.within(word, row) {
            return fault(2, line);
        }
        if !got.add(word, row) {
            return fault(3, line);
        }
        if line > 2 {
            let kind = FORMS.iter().position(|f| f.0 == word).unwrap();
            got.rows.push((kind, row));
        }
    }
    if got.transitions.iter().any(|t| t.role.is_none()) {
        return fault(3, 0);
    }
    Ok(got)
}
