//! A plain twin of the proved matcher, without proofs, to measure it by. It keeps fewer tables than the proved code (docs/SPEED.md).

use crate::shape::{Shape, Window};

/// The records of a shape.
pub fn records(shape: &Shape) -> Vec<Node> {
    let mut all = Vec::new();
    write_shape(shape, &mut all);
    all
}

fn push(all: &mut Vec<Node>, kind: Kind, number: u8, parts: usize) {
    all.push(Node {
        kind,
        number,
        parts: parts as u8,
    });
}

fn write_shape(shape: &Shape, all: &mut Vec<Node>) {
    match shape {
        Shape::Symbol(j) => push(all, Kind::Symbol, *j, 0),
        Shape::Any(ps) => {
            push(all, Kind::Any, 0, ps.len());
            ps.iter().for_each(|p| write_shape(p, all));
        }
        Shape::Concat(ps) => {
            push(all, Kind::Concat, 0, ps.len());
            ps.iter().for_each(|p| write_shape(p, all));
        }
        Shape::Exact(k, p) => {
            push(all, Kind::Exact, *k, 1);
            write_shape(p, all);
        }
        Shape::Atleast(k, p) => {
            push(all, Kind::Atleast, *k, 1);
            write_shape(p, all);
        }
        Shape::Atmost(k, p) => {
            push(all, Kind::Atmost, *k, 1);
            write_shape(p, all);
        }
        Shape::In(l, o) => {
            push(all, Kind::In, *l, 1);
            write_window(o, all);
        }
    }
}

fn write_window(window: &Window, all: &mut Vec<Node>) {
    match window {
        Window::Precisely(k, p) => {
            push(all, Kind::Precisely, *k, 1);
            write_shape(p, all);
        }
        Window::Noless(k, p) => {
            push(all, Kind::Noless, *k, 1);
            write_shape(p, all);
        }
        Window::Nomore(k, p) => {
            push(all, Kind::Nomore, *k, 1);
            write_shape(p, all);
        }
        Window::And(ps) => {
            push(all, Kind::And, 0, ps.len());
            ps.iter().for_each(|p| write_window(p, all));
        }
        Window::Or(ps) => {
            push(all, Kind::Or, 0, ps.len());
            ps.iter().for_each(|p| write_window(p, all));
        }
        Window::Inorder(ps) => {
            push(all, Kind::Inorder, 0, ps.len());
            ps.iter().for_each(|p| write_shape(p, all));
        }
    }
}

#[derive(Clone, Copy)]
pub struct Ends {
    bits: [u64; 4],
}
impl Ends {
    pub fn empty() -> Ends {
        Ends { bits: [0; 4] }
    }
    pub fn contains(&self, b: usize) -> bool {
        (self.bits[b / 64] >> (b % 64)) & 1 == 1
    }
    pub fn insert(&mut self, b: usize) {
        self.bits[b / 64] |= 1 << (b % 64);
    }
    pub fn remove(&mut self, b: usize) {
        if self.contains(b) {
            self.bits[b / 64] ^= 1 << (b % 64);
        }
    }
    pub fn union_with(&mut self, o: &Ends) {
        for w in 0..4 {
            self.bits[w] |= o.bits[w];
        }
    }
    pub fn keep(&mut self, o: &Ends) {
        for w in 0..4 {
            self.bits[w] &= o.bits[w];
        }
    }
    pub fn len(&self) -> usize {
        let mut t = 0;
        for w in 0..4 {
            t += self.bits[w].count_ones() as usize;
        }
        t
    }
    pub fn next_from(&self, b: usize) -> usize {
        if b >= 256 {
            return 256;
        }
        let rest = self.bits[b / 64] >> (b % 64);
        if rest != 0 {
            return b + rest.trailing_zeros() as usize;
        }
        for w in b / 64 + 1..4 {
            if self.bits[w] != 0 {
                return 64 * w + self.bits[w].trailing_zeros() as usize;
            }
        }
        256
    }
    pub fn is_empty(&self) -> bool {
        self.next_from(0) == 256
    }
}
#[derive(Clone, Copy)]
pub struct Table {
    rows: [Ends; 256],
}
impl Table {
    pub fn empty() -> Table {
        Table {
            rows: [Ends::empty(); 256],
        }
    }
    pub fn insert(&mut self, a: usize, b: usize) {
        self.rows[a].insert(b)
    }
    pub fn union_with(&mut self, o: &Table) {
        for a in 0..256 {
            self.rows[a].union_with(&o.rows[a]);
        }
    }
    pub fn rising(&self) -> Table {
        let mut t = *self;
        for a in 0..256 {
            t.rows[a].remove(a);
        }
        t
    }
    pub fn after(&self, starts: &Ends) -> Ends {
        let mut all = Ends::empty();
        let mut c = starts.next_from(0);
        while c < 256 {
            all.union_with(&self.rows[c]);
            c = starts.next_from(c + 1);
        }
        all
    }
    pub fn then(&self, later: &Table) -> Table {
        let mut t = Table::empty();
        for a in 0..256 {
            t.rows[a] = later.after(&self.rows[a]);
        }
        t
    }
    pub fn still(n: usize) -> Table {
        let mut t = Table::empty();
        for a in 0..n + 1 {
            t.insert(a, a);
        }
        t
    }
    pub fn power(&self, e: u8, n: usize) -> Table {
        let mut out = Table::still(n);
        let mut base = *self;
        let mut e = e;
        while e > 0 {
            if e % 2 == 1 {
                out = out.then(&base);
            }
            e /= 2;
            if e > 0 {
                base = base.then(&base);
            }
        }
        out
    }
    pub fn closure(&self, n: usize) -> Table {
        let mut t = Table::empty();
        for a in (0..n + 1).rev() {
            let mut row = t.after(&self.rows[a]);
            row.insert(a);
            t.rows[a] = row;
        }
        t
    }
    pub fn reached(&self) -> Ends {
        let mut all = Ends::empty();
        for a in 0..256 {
            all.union_with(&self.rows[a]);
        }
        all
    }
    pub fn resting(&self, n: usize) -> Ends {
        let mut all = Ends::empty();
        for a in 0..n + 1 {
            if self.rows[a].is_empty() {
                all.insert(a);
            }
        }
        all
    }
    pub fn inside(&self, a: usize, b: usize, upto: &Ends) -> usize {
        let mut t = 0;
        for x in a..b {
            let mut r = self.rows[x];
            r.keep(upto);
            t += r.len();
        }
        t
    }
}
#[derive(Clone, Copy, PartialEq, Debug)]
pub enum Kind {
    Symbol,
    Any,
    Concat,
    Exact,
    Atleast,
    Atmost,
    In,
    Precisely,
    Noless,
    Nomore,
    And,
    Or,
    Inorder,
}
#[derive(Clone, Copy)]
pub struct Node {
    pub kind: Kind,
    pub number: u8,
    pub parts: u8,
}
pub struct Steps {
    pub words: [u32; 255],
    pub count: usize,
}
/// The steps with these words, four bytes each, the lowest first.
fn steps(bytes: &[u8]) -> Steps {
    let mut steps = Steps {
        words: [0; 255],
        count: 0,
    };
    for word in bytes.chunks_exact(4) {
        steps.words[steps.count] = u32::from_le_bytes([word[0], word[1], word[2], word[3]]);
        steps.count += 1;
    }
    steps
}
#[derive(Clone, Copy)]
pub enum View {
    From(usize),
    Own,
}
pub struct Kept {
    next: [usize; 64],
    own: [Option<Table>; 64],
    later: [Option<Table>; 64],
    stops: [Ends; 64],
}

fn symbol(steps: &Steps, number: u8, view: View, to: usize) -> Table {
    let mut t = Table::empty();
    let lo = match view {
        View::From(s) => s,
        View::Own => 0,
    };
    for a in lo..to {
        if (steps.words[a] >> number) & 1 == 1 {
            t.insert(a, a + 1);
        }
    }
    t
}
fn part(r: &[Node], st: &Steps, k: &Kept, i: usize, view: View, to: usize, levels: u8, out: &mut Table) {
    match (view, &k.own[i]) {
        (View::Own, Some(own)) => *out = *own,
        _ => seen(r, st, k, i, view, to, levels, out),
    }
}
fn seen(r: &[Node], st: &Steps, k: &Kept, i: usize, view: View, to: usize, levels: u8, out: &mut Table) {
    let node = r[i];
    match node.kind {
        Kind::Symbol => *out = symbol(st, node.number, view, to),
        Kind::Any => {
            *out = Table::empty();
            let mut p = i + 1;
            for _ in 0..node.parts {
                let mut t = Table::empty();
                part(r, st, k, p, view, to, levels - 1, &mut t);
                out.union_with(&t);
                p = k.next[p];
            }
        }
        Kind::Concat => {
            part(r, st, k, i + 1, view, to, levels - 1, out);
            let mut p = k.next[i + 1];
            for _ in 1..node.parts {
                let mut t = Table::empty();
                part(r, st, k, p, View::Own, st.count, levels - 1, &mut t);
                *out = out.then(&t);
                p = k.next[p];
            }
        }
        Kind::Exact | Kind::Atleast | Kind::Atmost => {
            let mut opening = Table::empty();
            part(r, st, k, i + 1, view, to, levels - 1, &mut opening);
            if let Some(later) = &k.later[i] {
                *out = repeat(&opening, later, &k.stops[i], node.kind, node.number, view, to);
            }
        }
        Kind::In => {
            let len = node.number as usize;
            let starts = match view {
                View::From(s) => starts(r, st, k, i + 1, s, len, to, levels - 1),
                View::Own => {
                    let mut all = Ends::empty();
                    if len <= to {
                        for a in 0..to - len + 1 {
                            if starts(r, st, k, i + 1, a, len, a + len, levels - 1).contains(a) {
                                all.insert(a);
                            }
                        }
                    }
                    all
                }
            };
            *out = Table::empty();
            let mut a = starts.next_from(0);
            while a < 256 {
                out.insert(a, a + len);
                a = starts.next_from(a + 1);
            }
        }
        _ => *out = Table::empty(),
    }
}
fn repeat(opening: &Table, later: &Table, stops: &Ends, kind: Kind, number: u8, view: View, to: usize) -> Table {
    let first = opening.rising();
    let (reached, lo) = match view {
        View::From(s) => (first.reached(), s),
        View::Own => (Ends::empty(), 0),
    };
    let null = kind == Kind::Atmost || number == 0;
    let mut t = Table::empty();
    for a in lo..to + 1 {
        if !reached.contains(a) {
            let mut row = later.after(&first.rows[a]);
            if null {
                row.insert(a);
            }
            row.keep(stops);
            t.rows[a] = row;
        }
    }
    t
}
fn later(own: &Table, kind: Kind, number: u8, n: usize) -> Table {
    if number == 0 && kind != Kind::Atleast {
        return Table::empty();
    }
    let step = own.rising();
    let e = number.saturating_sub(1);
    match kind {
        Kind::Exact => step.power(e, n),
        Kind::Atleast => step.power(e, n).then(&step.closure(n)),
        _ => {
            let mut s = step;
            s.union_with(&Table::still(n));
            s.power(e, n)
        }
    }
}
fn starts(r: &[Node], st: &Steps, k: &Kept, i: usize, s: usize, len: usize, to: usize, levels: u8) -> Ends {
    let node = r[i];
    if s + len > to {
        return Ends::empty();
    }
    match node.kind {
        Kind::Precisely | Kind::Noless | Kind::Nomore => {
            let mut t = Table::empty();
            seen(r, st, k, i + 1, View::From(s), to, levels - 1, &mut t);
            let t = t.rising();
            let mut upto = Ends::empty();
            for b in s..s + len {
                upto.insert(b);
            }
            let mut all = Ends::empty();
            for a in s..to - len + 1 {
                upto.insert(a + len);
                let m = t.inside(a, a + len, &upto);
                let q = node.number as usize;
                let ok = match node.kind {
                    Kind::Precisely => m == q,
                    Kind::Noless => m >= q,
                    _ => m <= q,
                };
                if ok {
                    all.insert(a);
                }
            }
            all
        }
        Kind::And | Kind::Or => {
            let mut p = i + 1;
            let mut all = starts(r, st, k, p, s, len, to, levels - 1);
            for _ in 1..node.parts {
                p = k.next[p];
                let x = starts(r, st, k, p, s, len, to, levels - 1);
                if node.kind == Kind::And {
                    all.keep(&x)
                } else {
                    all.union_with(&x)
                }
            }
            all
        }
        Kind::Inorder => {
            let mut cur = [0usize; 256];
            for a in 0..256 {
                cur[a] = a;
            }
            let mut p = i + 1;
            for _ in 0..node.parts {
                let mut t = Table::empty();
                seen(r, st, k, p, View::From(s), to, levels - 1, &mut t);
                let mut first = [256usize; 257];
                for x in (s..to + 1).rev() {
                    first[x] = t.rows[x].next_from(0).min(first[x + 1]);
                }
                for a in 0..256 {
                    cur[a] = first[cur[a]];
                }
                p = k.next[p];
            }
            let mut all = Ends::empty();
            for a in s..to - len + 1 {
                if cur[a] <= a + len {
                    all.insert(a);
                }
            }
            all
        }
        _ => Ends::empty(),
    }
}
fn is_kept(kind: Kind, part: u8) -> bool {
    match kind {
        Kind::Exact | Kind::Atleast | Kind::Atmost => true,
        Kind::Concat => part > 0,
        _ => false,
    }
}
#[inline(never)]
fn survey(r: &[Node], st: &Steps) -> Table {
    let n = st.count;
    let mut k = Kept {
        next: [0; 64],
        own: [None; 64],
        later: [None; 64],
        stops: [Ends::empty(); 64],
    };
    for i in (0..r.len()).rev() {
        let mut p = i + 1;
        for j in 0..r[i].parts {
            if is_kept(r[i].kind, j) {
                let mut t = Table::empty();
                seen(r, st, &k, p, View::Own, n, 16, &mut t);
                k.own[p] = Some(t);
            }
            p = k.next[p];
        }
        k.next[i] = p;
        if matches!(r[i].kind, Kind::Exact | Kind::Atleast | Kind::Atmost) {
            let mut own = Table::empty();
            part(r, st, &k, i + 1, View::Own, n, 16, &mut own);
            k.later[i] = Some(later(&own, r[i].kind, r[i].number, n));
            k.stops[i] = own.rising().resting(n);
        }
    }
    let mut t = Table::empty();
    seen(r, st, &k, 0, View::From(0), n, 16, &mut t);
    t
}
pub fn list(r: &[Node], st: &Steps, out: &mut [(u8, u8)]) -> usize {
    let t = survey(r, st).rising();
    let mut m = 0;
    for a in 0..st.count {
        m += t.rows[a].len();
    }
    if m > out.len() {
        return m;
    }
    let mut j = 0;
    for a in 0..st.count {
        let mut b = t.rows[a].next_from(0);
        while b < 256 {
            out[j] = (a as u8, b as u8);
            j += 1;
            b = t.rows[a].next_from(b + 1);
        }
    }
    j
}

/// A listing as the C interface has it: words from bytes, and the stretches copied from a sheet of its own, two bytes each.
pub fn listed(r: &[Node], words: &[u8], out: &mut [u8]) -> usize {
    let mut found = [(0, 0); 32640];
    let count = list(r, &steps(words), &mut found);
    for (to, (a, b)) in out.chunks_exact_mut(2).zip(&found[..count.min(32640)]) {
        to[0] = *a;
        to[1] = *b;
    }
    count
}
