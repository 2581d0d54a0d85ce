//! A sheet being written, and the real games as sheets.

#[derive(Clone, Copy, PartialEq)]
pub enum Arc {
    In,
    Out,
    Read,
    Stop,
}

#[derive(Clone, Default)]
pub struct Draft {
    /// Per transition: its role and side.
    pub roles: Vec<(bool, i64)>,
    /// Per place: marked.
    pub marks: Vec<bool>,
    pub pays: Vec<(usize, i64)>,
    pub arcs: Vec<(Arc, usize, usize, i64)>,
    pub caps: Vec<(usize, usize, i64, i64)>,
    pub voids: Vec<usize>,
}

impl Draft {
    pub fn place(&mut self, marked: bool) -> usize {
        self.marks.push(marked);
        self.marks.len() - 1
    }

    pub fn places(&mut self, n: usize, marked: bool) -> Vec<usize> {
        (0..n).map(|_| self.place(marked)).collect()
    }

    pub fn pay(&mut self, p: usize, r: i64) {
        self.pays.push((p, r));
    }

    pub fn arc(&mut self, kind: Arc, t: usize, p: usize) {
        self.arcs.push((kind, t, p, 1));
    }

    fn transition(&mut self, auto: bool, side: i64, ins: &[usize], outs: &[usize]) -> usize {
        self.roles.push((auto, side));
        let t = self.roles.len() - 1;
        ins.iter().for_each(|&p| self.arc(Arc::In, t, p));
        outs.iter().for_each(|&p| self.arc(Arc::Out, t, p));
        t
    }

    /// A move that takes from `ins` and puts to `outs`.
    pub fn turn(&mut self, side: i64, ins: &[usize], outs: &[usize]) -> usize {
        self.transition(false, side, ins, outs)
    }

    pub fn auto(&mut self, ins: &[usize], outs: &[usize]) -> usize {
        self.transition(true, 1, ins, outs)
    }

    pub fn text(&self) -> String {
        let mut s = format!("row at place n cap\nsize {} {} - -\n", self.roles.len(), self.marks.len());
        for (p, _) in self.marks.iter().enumerate().filter(|x| *x.1) {
            s += &format!("mark - {p} 1 -\n");
        }
        for (p, r) in &self.pays {
            s += &format!("pay - {p} {r} -\n");
        }
        for (t, (auto, side)) in self.roles.iter().enumerate() {
            s += &format!("{} {t} - {side} -\n", if *auto { "auto" } else { "turn" });
        }
        for &(kind, t, p, w) in &self.arcs {
            let word = match kind {
                Arc::In => "in",
                Arc::Out => "out",
                Arc::Read => "read",
                Arc::Stop => "stop",
            };
            s += &format!("{word} {t} {p} {w} -\n");
        }
        for (t, p, d, c) in &self.caps {
            s += &format!("cap {t} {p} {d} {c}\n");
        }
        for t in &self.voids {
            s += &format!("void {t} - - -\n");
        }
        s
    }
}

/// `k` in a row on `rows` by `columns`; with gravity a piece falls to the
/// lowest free cell of its column. Side 1 begins; a win pays 1 or -1.
pub fn row(rows: usize, columns: usize, k: usize, gravity: bool) -> Draft {
    let mut d = Draft::default();
    let cells = rows * columns;
    let free: Vec<usize> = (0..cells).map(|c| d.place(!gravity || c < columns)).collect();
    let marks = [d.places(cells, false), d.places(cells, false)];
    let turn = [d.place(true), d.place(false)];
    let win = d.places(2, false);
    d.pay(win[0], 1);
    d.pay(win[1], -1);
    for s in 0..2 {
        for c in 0..cells {
            let t = d.turn([1, -1][s], &[turn[s], free[c]], &[turn[1 - s], marks[s][c]]);
            if gravity && c + columns < cells {
                d.arc(Arc::Out, t, free[c + columns]);
            }
        }
    }
    for s in 0..2 {
        for c in 0..cells {
            for (down, right) in [(0, 1), (1, 0), (1, 1), (1, -1)] {
                let at =
                    |i: i64| (c as i64 / columns as i64 + i * down, c as i64 % columns as i64 + i * right);
                let (r, q) = at(k as i64 - 1);
                if r >= rows as i64 || q < 0 || q >= columns as i64 {
                    continue;
                }
                let t = d.auto(&[turn[1 - s]], &[win[s]]);
                for i in 0..k as i64 {
                    let (r, q) = at(i);
                    d.arc(Arc::Read, t, marks[s][r as usize * columns + q as usize]);
                }
            }
        }
    }
    d
}

/// Hex on `n` by `n`: side 1 joins left to right, side -1 top to bottom.
/// After each move automatic transitions spread from the first edge.
pub fn hex(n: usize) -> Draft {
    let mut d = Draft::default();
    let free = d.places(n * n, true);
    let marks = [d.places(n * n, false), d.places(n * n, false)];
    let joined = [d.places(n * n, false), d.places(n * n, false)];
    let turn = [d.place(true), d.place(false)];
    let win = d.places(2, false);
    d.pay(win[0], 1);
    d.pay(win[1], -1);
    for s in 0..2 {
        for c in 0..n * n {
            d.turn([1, -1][s], &[turn[s], free[c]], &[turn[1 - s], marks[s][c]]);
        }
    }
    for s in 0..2 {
        for c in 0..n * n {
            let (r, q) = (c / n, c % n);
            let along = [q, r][s];
            let mut join = |from: Option<usize>| {
                let t = d.auto(&[], &[joined[s][c]]);
                from.into_iter().for_each(|b| d.arc(Arc::Read, t, joined[s][b]));
                d.arc(Arc::Read, t, marks[s][c]);
                d.arc(Arc::Stop, t, joined[s][c]);
            };
            if along == 0 {
                join(None);
            }
            for (dr, dq) in [(0, 1), (1, 0), (0, -1), (-1, 0), (1, -1), (-1, 1)] {
                let (r, q) = (r as i64 + dr, q as i64 + dq);
                let on = |x: i64| (0..n as i64).contains(&x);
                if on(r) && on(q) {
                    join(Some(r as usize * n + q as usize));
                }
            }
            if along == n - 1 {
                let t = d.auto(&[turn[1 - s]], &[win[s]]);
                d.arc(Arc::Read, t, joined[s][c]);
            }
        }
    }
    d
}

/// Domineering: side 1 covers two cells of a column, side -1 two of a row;
/// who cannot move loses.
pub fn domineering(rows: usize, columns: usize) -> Draft {
    let mut d = Draft::default();
    let cells = d.places(rows * columns, true);
    let turn = [d.place(true), d.place(false)];
    d.pay(turn[0], -1);
    d.pay(turn[1], 1);
    for r in 0..rows - 1 {
        for c in 0..columns {
            let at = r * columns + c;
            d.turn(1, &[turn[0], cells[at], cells[at + columns]], &[turn[1]]);
        }
    }
    for r in 0..rows {
        for c in 0..columns - 1 {
            let at = r * columns + c;
            d.turn(-1, &[turn[1], cells[at], cells[at + 1]], &[turn[0]]);
        }
    }
    d
}

/// Nim: heap i with j stones left is a place; who cannot move loses.
pub fn nim(heaps: &[usize]) -> Draft {
    let mut d = Draft::default();
    let at: Vec<Vec<usize>> = heaps.iter().map(|&h| (0..=h).map(|j| d.place(j == h)).collect()).collect();
    let turn = [d.place(true), d.place(false)];
    d.pay(turn[0], -1);
    d.pay(turn[1], 1);
    for s in 0..2 {
        for heap in &at {
            for j in 1..heap.len() {
                for k in 0..j {
                    d.turn([1, -1][s], &[turn[s], heap[j]], &[turn[1 - s], heap[k]]);
                }
            }
        }
    }
    d
}

/// A binary counter that one move starts and that is quiet after `firings`
/// automatic firings; then, if asked, one that spills.
pub fn counter(bits: usize, firings: usize, spills: bool) -> Draft {
    let mut d = Draft::default();
    let from = (1 << bits) - 1 - firings;
    let bit: Vec<usize> = (0..bits).map(|i| d.place(from >> i & 1 == 1)).collect();
    let (start, go) = (d.place(true), d.place(false));
    d.pay(go, 1);
    d.turn(1, &[start], &[go]);
    for i in 0..bits {
        let t = d.auto(&bit[..i], &[bit[i]]);
        d.arc(Arc::Read, t, go);
        d.arc(Arc::Stop, t, bit[i]);
    }
    if spills {
        let t = d.auto(&[], &[go]);
        d.arc(Arc::Read, t, go);
        bit.iter().for_each(|&p| d.arc(Arc::Read, t, p));
    }
    d
}

/// A line of moves, one at a time, the sides in turn; the end pays `r`.
pub fn line(moves: usize, r: i64) -> Draft {
    let mut d = Draft::default();
    let at: Vec<usize> = (0..=moves).map(|i| d.place(i == 0)).collect();
    d.pay(at[moves], r);
    for i in 0..moves {
        d.turn(if i % 2 == 0 { 1 } else { -1 }, &[at[i]], &[at[i + 1]]);
    }
    d
}

/// `n` moves of one side to as many ends, the last of which pays 1: at the
/// start, or after a first move of the other side.
pub fn wide(n: usize, later: bool) -> Draft {
    let mut d = Draft::default();
    let mut at = d.place(true);
    if later {
        let next = d.place(false);
        d.turn(-1, &[at], &[next]);
        at = next;
    }
    for _ in 0..n {
        let end = d.place(false);
        d.turn(1, &[at], &[end]);
    }
    d.pay(d.marks.len() - 1, 1);
    d
}

/// A line of moves of side 1, and before them a move from its start to its
/// end. No end is reached where a reward is paid.
pub fn detour(moves: usize) -> Draft {
    let mut d = Draft::default();
    let at: Vec<usize> = (0..=moves).map(|i| d.place(i == 0)).collect();
    let never = d.places(2, false);
    d.pay(never[0], 1);
    d.pay(never[1], -1);
    d.turn(1, &[at[0]], &[at[moves]]);
    for i in 0..moves {
        d.turn(1, &[at[i]], &[at[i + 1]]);
    }
    d
}

/// A move of side 1, and then the choice of side -1 between a line of moves
/// and a move that wins: the line reaches `down` moves below the first move.
pub fn dropped(down: usize) -> Draft {
    let mut d = Draft::default();
    let at: Vec<usize> = (0..=down + 1).map(|i| d.place(i == 0)).collect();
    let (won, never) = (d.place(false), d.place(false));
    d.pay(won, -1);
    d.pay(never, 1);
    for i in 0..=down {
        d.turn(if i % 2 == 0 { 1 } else { -1 }, &[at[i]], &[at[i + 1]]);
    }
    d.turn(-1, &[at[1]], &[won]);
    d
}

/// Tokens on a circle of `n` places, every fourth at the start: transition t
/// moves the one on place t on, if the next place is free.
pub fn ring(n: usize) -> Draft {
    let mut d = Draft::default();
    let at: Vec<usize> = (0..n).map(|p| d.place(p % 4 == 0)).collect();
    d.pay(n - 1, 1);
    d.pay(0, -1);
    for p in 0..n {
        let next = at[(p + 1) % n];
        let t = d.turn(1, &[at[p]], &[next]);
        d.arc(Arc::Stop, t, next);
        d.arc(Arc::Read, t, at[p]);
    }
    d
}

/// The games by name: "row 3 3 3", "drop 4 4 3", "hex 3", "domineering 4 4",
/// "nim 1 2 3", "counter 14 9999 0", "line 64 1", "detour 65", "dropped 64",
/// "wide 64 0", "ring 256".
pub fn named(words: &[&str]) -> Option<Draft> {
    let n: Vec<i64> = words[1..].iter().map(|w| w.parse().ok()).collect::<Option<_>>()?;
    let u: Vec<usize> = n.iter().map(|&x| x as usize).collect();
    Some(match (words[0], &u[..]) {
        ("row", &[r, c, k]) => row(r, c, k, false),
        ("drop", &[r, c, k]) => row(r, c, k, true),
        ("hex", &[n]) => hex(n),
        ("domineering", &[r, c]) => domineering(r, c),
        ("nim", heaps) => nim(heaps),
        ("counter", &[bits, firings, spills]) => counter(bits, firings, spills == 1),
        ("line", &[moves, _]) => line(moves, n[1]),
        ("detour", &[moves]) => detour(moves),
        ("dropped", &[down]) => dropped(down),
        ("ring", &[n]) => ring(n),
        ("wide", &[n, later]) => wide(n, later == 1),
        _ => return None,
    })
}
