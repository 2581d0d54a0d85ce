//! Random sheets with a seed, of many shapes, and random settings.

use crate::draft::{self, Arc, Draft};
use crate::reference::Settings;

/// splitmix64.
pub struct Random(pub u64);

impl Random {
    pub fn below(&mut self, n: usize) -> usize {
        self.0 = self.0.wrapping_add(0x9E37_79B9_7F4A_7C15);
        let mut x = self.0;
        x = (x ^ x >> 30).wrapping_mul(0xBF58_476D_1CE4_E5B9);
        x = (x ^ x >> 27).wrapping_mul(0x94D0_49BB_1331_11EB);
        ((x ^ x >> 31) % n as u64) as usize
    }

    /// True once in `n` times.
    pub fn once_in(&mut self, n: usize) -> bool {
        self.below(n) == 0
    }

    pub fn of<T: Clone>(&mut self, from: &[T]) -> T {
        from[self.below(from.len())].clone()
    }
}

pub const ENTRIES: [u64; 14] = [1, 2, 3, 4, 5, 7, 8, 12, 16, 63, 64, 100, 1_023, 1_024];

pub fn settings(r: &mut Random) -> Settings {
    let goals = r.once_in(3);
    Settings {
        budget: 0,
        entries: r.of(&ENTRIES),
        driver: r.below(3) as u64,
        filters: r.below(4) as u64,
        chain: match r.below(4) {
            0 => vec![],
            1 => vec![0, 1, 2],
            _ => (0..1 + r.below(8)).map(|_| r.below(if goals { 5 } else { 3 }) as u8).collect(),
        },
    }
}

/// A sheet of one of the shapes below, perhaps disturbed.
pub fn sheet(r: &mut Random) -> Draft {
    let mut d = match r.below(20) {
        0..=6 => graph(r),
        7..=12 => board(r),
        13 => chaos(r),
        14 => game(r),
        15 => cascade(r),
        16 => deep(r),
        17 => wide(r),
        _ => pair(r),
    };
    if r.once_in(3) {
        disturb(r, &mut d);
    }
    if r.once_in(5) {
        rewards(r, &mut d);
    }
    if r.once_in(4) {
        spread(r, &mut d);
    }
    d
}

fn side(r: &mut Random) -> i64 {
    r.of(&[1, -1])
}

/// Positions as places, moves between them, mostly forwards; the first is
/// the start. Two tokens in one case out of three.
fn graph(r: &mut Random) -> Draft {
    let mut d = Draft::default();
    let n = 3 + r.below(12);
    let at = d.places(n, false);
    d.marks[0] = true;
    let mixed = r.once_in(20);
    let mut turn_of = vec![];
    for i in 0..n {
        turn_of.push(if r.once_in(3) { side(r) } else { [1, -1][i % 2] });
    }
    for i in 0..n - 1 {
        let moves = if i == 0 { 1 + r.below(4) } else { r.below(4) };
        for _ in 0..moves {
            let back = r.once_in(40);
            let j = if back { r.below(n) } else { i + 1 + r.below((n - i - 1).min(5)) };
            let s = if mixed && r.once_in(5) { -turn_of[i] } else { turn_of[i] };
            d.turn(s, &[at[i]], &[at[j]]);
        }
    }
    for _ in 0..1 + r.below(5) {
        let p = r.below(n);
        d.pay(p, r.of(&[-2, -1, -1, 0, 1, 1, 2, 3]));
    }
    if r.once_in(4) {
        // An automatic step from one position to another.
        let (i, j) = (1 + r.below(n - 1), r.below(n));
        d.auto(&[at[i]], &[at[j]]);
    }
    d
}

/// Two sides in turn fill or change cells; patterns of cells win.
fn board(r: &mut Random) -> Draft {
    let mut d = Draft::default();
    let n = 2 + r.below(4);
    let free = d.places(n, true);
    let marks = [d.places(n, false), d.places(n, false)];
    let turn = [d.place(true), d.place(false)];
    let win = d.places(2 + r.below(2), false);
    for (i, &w) in win.iter().enumerate() {
        let x = r.of(&[1, 1, 1, 2, 3]);
        d.pay(w, [x, -x, side(r)][i]);
    }
    for s in 0..2 {
        for c in 0..n {
            let t = d.turn([1, -1][s], &[turn[s], free[c]], &[turn[1 - s], marks[s][c]]);
            if r.once_in(8) {
                let of = r.below(2);
                let (kind, p) = (r.of(&[Arc::Read, Arc::Stop]), r.of(&marks[of]));
                d.arc(kind, t, p);
            }
        }
        if r.once_in(6) {
            // A move that takes a mark off.
            let c = r.below(n);
            d.turn([1, -1][s], &[turn[s], marks[1 - s][c]], &[turn[1 - s]]);
        }
    }
    for _ in 0..r.below(7) {
        let s = r.below(2);
        // Mostly before the other side's turn, as a win is.
        let ins: Vec<usize> = match r.below(8) {
            0 => vec![],
            1 => vec![turn[s]],
            _ => vec![turn[1 - s]],
        };
        let w = if r.once_in(5) { r.of(&win) } else { win[s] };
        let t = d.auto(&ins, &[w]);
        if ins.is_empty() {
            d.arc(Arc::Stop, t, w);
        }
        for _ in 0..1 + r.below(3) {
            let kind = if r.once_in(7) { Arc::In } else { Arc::Read };
            let of = if r.once_in(8) { 1 - s } else { s };
            let p = r.of(&marks[of]);
            d.arc(kind, t, p);
        }
        if r.once_in(4) {
            let p = r.of(&free);
            d.arc(Arc::Stop, t, p);
        }
    }
    if r.once_in(2) {
        odd_goals(r, &mut d, &[&free[..], &marks[0], &marks[1]].concat());
    }
    d
}

/// Odd rows at the goals and at the moves that feed them.
fn odd_goals(r: &mut Random, d: &mut Draft, cells: &[usize]) {
    for t in 0..d.roles.len() {
        let p = r.of(cells);
        if !d.roles[t].0 {
            match r.below(12) {
                0 => d.arcs.push((Arc::Out, t, p, 0)),
                1 => d.arcs.push((Arc::In, t, p, 0)),
                _ => {}
            }
            continue;
        }
        match r.below(9) {
            0 => d.arcs.push((Arc::Read, t, p, 0)),
            1 => d.arcs.push((Arc::In, t, p, 0)),
            2 => d.arc(Arc::Stop, t, p),
            3 => d.caps.push((t, p, r.of(&[0, 1]), r.of(&[0, 1]))),
            4 => d.voids.push(t),
            5 => {
                let rows: Vec<_> = d.arcs.iter().copied().filter(|x| x.1 == t).collect();
                d.arcs.push(r.of(&rows));
            }
            _ => {}
        }
    }
}

/// Rows with no plan.
fn chaos(r: &mut Random) -> Draft {
    let mut d = Draft::default();
    for _ in 0..1 + r.below(8) {
        let marked = r.once_in(2);
        d.place(marked);
    }
    for _ in 0..1 + r.below(10) {
        let s = if r.once_in(12) { 0 } else { 1 };
        let role = (r.once_in(4), s);
        d.roles.push(role);
    }
    let sides = r.below(3);
    for role in d.roles.iter_mut().filter(|x| x.1 != 0) {
        role.1 = [1, -1, side(r)][sides];
    }
    for t in 0..d.roles.len() {
        for _ in 0..1 + r.below(4) {
            add_row(r, &mut d, t);
        }
    }
    for _ in 0..r.below(4) {
        let p = r.below(d.marks.len());
        d.pay(p, r.below(7) as i64 - 3);
    }
    d
}

fn add_row(r: &mut Random, d: &mut Draft, t: usize) {
    let p = r.below(d.marks.len());
    let w = r.of(&[0, 1, 1, 1, 1, 1, 1, 2]);
    match r.below(10) {
        0..=3 => d.arcs.push((Arc::In, t, p, w)),
        4..=6 => d.arcs.push((Arc::Out, t, p, w)),
        7 => d.arcs.push((Arc::Read, t, p, w)),
        8 => d.arcs.push((Arc::Stop, t, p, w)),
        _ => d.caps.push((t, p, r.below(4) as i64 - 1, r.below(3) as i64)),
    }
}

fn game(r: &mut Random) -> Draft {
    match r.below(6) {
        0 => draft::row(2 + r.below(2), 2 + r.below(2), 2, r.once_in(2)),
        1 => draft::hex(2),
        2 => draft::domineering(1 + r.below(4), 2 + r.below(2)),
        3 => draft::nim(&[r.below(3), 1 + r.below(3)]),
        4 => draft::row(3, 3, 3, true),
        _ => draft::nim(&[1, r.below(3), r.below(3)]),
    }
}

/// Long settlings; some spill, some never stop.
fn cascade(r: &mut Random) -> Draft {
    if r.once_in(12) {
        let spills = r.once_in(2);
        return draft::counter(14, 9_990 + r.below(14), spills);
    }
    let (n, spills) = (r.below(60), r.once_in(6));
    counted(r, draft::counter(6, n, spills))
}

/// The n-th of random sheets: one in thirty has a long settling.
pub fn sheet_or_long(r: &mut Random, n: usize) -> Draft {
    if n % 30 == 29 {
        long_settling(r)
    } else {
        sheet(r)
    }
}

/// A settling of about the most firings that are allowed.
pub fn long_settling(r: &mut Random) -> Draft {
    let (firings, spills) = (r.of(&[9_999, 10_000, 10_000, 10_001]), r.once_in(3));
    let d = draft::counter(14, firings, spills);
    if r.once_in(3) {
        d
    } else {
        counted(r, d)
    }
}

/// Moves of the other side after a counter.
fn counted(r: &mut Random, mut d: Draft) -> Draft {
    let last = d.marks.len() - 1;
    let end = d.places(2, false);
    d.turn(-1, &[last], &[end[0]]);
    d.turn(-1, &[last], &[end[1]]);
    d.pay(end[0], 1);
    if r.once_in(3) {
        let back = d.auto(&[end[1]], &[end[0]]);
        d.arcs.push((Arc::Read, back, end[1], 1));
        if r.once_in(2) {
            d.auto(&[end[0]], &[end[1]]);
        }
    }
    d
}

/// Lines of about 64 moves, and circles.
fn deep(r: &mut Random) -> Draft {
    let mut d = draft::line(r.of(&[3, 62, 63, 64, 65, 66, 67]), side(r));
    let n = d.marks.len();
    for _ in 0..r.below(3) {
        let (i, j) = (r.below(n - 1), r.below(n));
        let s = d.roles[i].1;
        d.turn(s, &[i], &[j]);
    }
    if r.once_in(3) {
        let p = d.place(false);
        d.pay(p, r.of(&[1, -1, 2]));
    }
    if r.once_in(8) {
        let t = r.below(n - 1);
        d.roles[t].1 = 0;
    }
    d
}

/// About 64 moves at the start, later, or both, of one side or two.
fn wide(r: &mut Random) -> Draft {
    let later = !r.once_in(3);
    let mut d = draft::wide(r.of(&[60, 63, 64, 65, 66, 90]), later);
    if r.once_in(3) {
        let (a, p) = (r.below(3), d.marks.len() - 1 - r.below(3));
        d.turn(side(r), &[p], &[a]);
    }
    if r.once_in(3) {
        let end = d.place(false);
        d.turn(-1, &[0], &[end]);
        d.pay(end, side(r));
    }
    if r.once_in(5) {
        let last = d.roles.len() - 1;
        d.roles[last].1 *= -1;
    }
    d
}

/// Two graphs played at once, so that positions repeat by other orders.
fn pair(r: &mut Random) -> Draft {
    let mut d = Draft::default();
    let alternate = r.once_in(2);
    let turn = if alternate { vec![d.place(true), d.place(false)] } else { vec![] };
    for _ in 0..2 {
        let n = 3 + r.below(3);
        let at = d.places(n, false);
        d.marks[at[0]] = true;
        for i in 0..n - 1 {
            for _ in 0..1 + r.below(2) {
                let j = i + 1 + r.below(n - i - 1);
                for s in 0..2 {
                    if alternate {
                        d.turn([1, -1][s], &[turn[s], at[i]], &[turn[1 - s], at[j]]);
                    } else if s == 0 {
                        d.turn(1, &[at[i]], &[at[j]]);
                    }
                }
            }
        }
        for _ in 0..1 + r.below(2) {
            d.pay(at[0] + r.below(n), r.of(&[-2, -1, 1, 2]));
        }
    }
    d
}

/// Some more rows, other sides, `void`.
fn disturb(r: &mut Random, d: &mut Draft) {
    for _ in 0..1 + r.below(3) {
        let t = r.below(d.roles.len());
        match r.below(8) {
            0 => d.voids.push(t),
            1 => d.roles[t].1 = r.of(&[-1, 0, 1]),
            2 if !d.arcs.is_empty() => {
                let i = r.below(d.arcs.len());
                let again = d.arcs[i];
                d.arcs.push(again);
            }
            3 if !d.arcs.is_empty() => {
                let i = r.below(d.arcs.len());
                d.arcs[i].3 = r.of(&[0, 2]);
            }
            4 => {
                let p = r.below(d.marks.len());
                d.caps.push((t, p, r.of(&[-1, 0, 1, 2]), r.of(&[0, 1, 2])));
            }
            _ => add_row(r, d, t),
        }
    }
}

/// Repeated rewards, zero ones, many sums, more than 16 rows, or none.
fn rewards(r: &mut Random, d: &mut Draft) {
    let n = d.marks.len();
    match r.below(6) {
        0 => d.pays.clear(),
        1 => {
            // More than 16 sums.
            for i in 0..5 {
                d.pay(r.below(n), 1 << i);
            }
        }
        2 => {
            for _ in 0..10 + r.below(12) {
                let p = r.below(n);
                d.pay(p, r.below(3) as i64 - 1);
            }
        }
        3 => {
            for _ in 0..15 + r.below(3) {
                d.pay(r.below(n), 0);
            }
        }
        4 => {
            for i in 0..4 {
                d.pay(r.below(n), (1 << i) * 125_000 * side(r));
            }
        }
        _ => {
            let again = d.pays.clone();
            d.pays.extend(again);
        }
    }
}

/// The same net among more places and transitions, in another order.
fn spread(r: &mut Random, d: &mut Draft) {
    let mut order = |n: usize| -> (usize, Vec<usize>) {
        let most = r.of(&[n, n + 3, 65, 128, 129, 200, 256]).max(n);
        let mut at: Vec<usize> = (0..most).collect();
        for i in 0..n {
            at.swap(i, i + r.below(most - i));
        }
        at.truncate(n);
        (most, at)
    };
    let (places, p_at) = order(d.marks.len());
    let (transitions, t_at) = order(d.roles.len());
    let mut marks = vec![false; places];
    d.marks.iter().enumerate().for_each(|(p, &m)| marks[p_at[p]] = m);
    let mut roles = vec![(false, 1); transitions];
    d.voids.iter_mut().for_each(|t| *t = t_at[*t]);
    d.voids.extend((0..transitions).filter(|t| !t_at.contains(t)));
    d.roles.iter().enumerate().for_each(|(t, &x)| roles[t_at[t]] = x);
    (d.marks, d.roles) = (marks, roles);
    d.pays.iter_mut().for_each(|x| x.0 = p_at[x.0]);
    for x in &mut d.arcs {
        (x.1, x.2) = (t_at[x.1], p_at[x.2]);
    }
    for x in &mut d.caps {
        (x.0, x.1) = (t_at[x.0], p_at[x.1]);
    }
}

/// A sheet's bytes with a fault or two, or an odd but rightful line.
pub fn spoiled(r: &mut Random, text: &str) -> Vec<u8> {
    let mut lines: Vec<Vec<u8>> = text.split_inclusive('\n').map(|l| l.as_bytes().to_vec()).collect();
    for _ in 0..1 + r.below(2) {
        if lines.is_empty() {
            break;
        }
        let i = if r.once_in(3) { r.below(lines.len().min(3)) } else { r.below(lines.len()) };
        let line = lines[i].clone();
        match r.below(12) {
            0 => {
                let at = r.below(lines.len() + 1);
                lines.insert(at, line);
            }
            1 => {
                lines.remove(i);
            }
            2 => {
                let at = r.below(line.len());
                lines[i][at] = r.of(b"0129- \nx\r\t\0\xff");
            }
            3 => {
                let at = r.below(line.len());
                lines[i].remove(at);
            }
            4 => {
                let at = r.below(line.len());
                lines[i].insert(at, r.of(b"0-1 9"));
            }
            5 => lines.truncate(i),
            6 => {
                let j = r.below(lines.len());
                lines.swap(i, j);
            }
            7..=9 => {
                // Another number in one field.
                let mut fields: Vec<&[u8]> = line[..line.len() - 1].split(|&b| b == b' ').collect();
                let at = r.below(fields.len());
                fields[at] = r.of(&[
                    b"-1".as_slice(),
                    b"0",
                    b"1",
                    b"2",
                    b"64",
                    b"255",
                    b"256",
                    b"257",
                    b"1000000",
                    b"1000001",
                    b"-1000000",
                    b"-1000001",
                    b"-0",
                    b"00",
                    b"01",
                    b"-",
                    b"",
                    b"+1",
                    b"18446744073709551616",
                    b"18446744073709551617",
                    b"99999999999999999999999999999999999999999",
                ]);
                lines[i] = fields.join(&b' ');
                lines[i].push(b'\n');
            }
            10 => (0..64).for_each(|_| lines.push(line.clone())),
            _ => {
                lines.last_mut().unwrap().pop();
            }
        }
    }
    lines.concat()
}
