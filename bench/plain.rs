//! The service in plain Rust, written apart from the crates, from docs/: it shares no code with them.
//!
//!   plain [--budget N] [--time] < FILE
//!
//! reads a sheet file and prints what sheetreport is to print: `V n R m F f`, then `found TRIES SETTING`, `none TRIES`
//! or `spent TRIES`; or `refused NUMBER file RECORD PLACE`. With --time it prints the milliseconds of reduction and
//! search and the tries per second to standard error.
//!
//!   plain --script < SCRIPT
//!
//! makes the calls of a script on a session and prints what sessionscript is to print.

use std::collections::HashMap;
use std::fmt::{self, Display};
use std::io::Read;
use std::time::Instant;

const MOST_SWITCHES: usize = 256;
const MOST_RULES: usize = 1_024;
const MOST_PAIRED: usize = 2_048;
const MOST_TAKEN: usize = 64;

/// A refusal.
#[derive(Clone, Copy, Debug)]
struct Fault {
    number: u8,
    layer: &'static str,
    record: usize,
    place: usize,
}

impl Display for Fault {
    fn fmt(&self, f: &mut fmt::Formatter) -> fmt::Result {
        write!(f, "refused {} {} {} {}", self.number, self.layer, self.record, self.place)
    }
}

/// A clause as switches with the value that keeps the literal; a parity rule as switches, and whether an odd number is on.
#[derive(Clone, Debug)]
enum Rule {
    Clause(Vec<(usize, bool)>),
    Parity(Vec<usize>, bool),
}

/// A kind as it comes from outside, with the number of the side.
#[derive(Clone, Copy)]
enum RawKind {
    Clause,
    Parity(u8),
}

/// What is wrong with the entries of a rule, as the number of the refusal and the index of the entry.
fn entries_fault(n: usize, parity: bool, entries: &[i16]) -> Option<(u8, usize)> {
    for (i, &e) in entries.iter().enumerate() {
        let switch = e.unsigned_abs();
        if e == 0 || switch as usize > n || (parity && e < 0) {
            return Some((5, i));
        }
        if entries[..i].iter().any(|o| o.unsigned_abs() == switch) {
            return Some((6, i));
        }
    }
    None
}

fn lawful_rule(parity: bool, odd: bool, entries: &[i16]) -> Rule {
    let switch = |e: &i16| e.unsigned_abs() as usize;
    if parity {
        Rule::Parity(entries.iter().map(switch).collect(), odd)
    } else {
        Rule::Clause(entries.iter().map(|e| (switch(e), *e > 0)).collect())
    }
}

fn most_width(parity: bool) -> usize {
    if parity { 16 } else { 8 }
}

/// A number of switches and a list of rules.
#[derive(Clone, Debug, Default)]
struct Sheet {
    n: usize,
    rules: Vec<Rule>,
}

fn word(b: &[u8], at: usize) -> u16 {
    u16::from_le_bytes([b[at], b[at + 1]])
}

/// A sheet file that is being read.
struct File<'a> {
    bytes: &'a [u8],
    third: bool,
    n: usize,
    rules: Vec<Rule>,
    place: usize,
}

impl File<'_> {
    fn fault(&self, number: u8, place: usize) -> Fault {
        Fault { number, layer: "file", record: self.rules.len(), place }
    }

    fn has(&self, size: usize) -> bool {
        self.bytes.len() >= self.place + size
    }

    fn read_end(&self) -> Result<(), Fault> {
        if !self.has(4) {
            return Err(self.fault(3, self.place));
        }
        if word(self.bytes, self.place + 2) as usize != self.rules.len() {
            return Err(self.fault(7, self.place + 2));
        }
        if self.has(5) {
            return Err(self.fault(7, self.place + 4));
        }
        Ok(())
    }

    /// Where the entries of a third-year record begin, and how many there are.
    fn third_shape(&self, parity: bool) -> Result<(usize, usize), Fault> {
        if !self.has(3) {
            return Err(self.fault(3, self.place));
        }
        let width = self.bytes[self.place + 2] as usize;
        if width < 1 || width > most_width(parity) {
            return Err(self.fault(4, self.place + 2));
        }
        let first = if parity { 4 } else { 3 };
        if !self.has(first + 2 * width) {
            return Err(self.fault(3, self.place));
        }
        if parity && self.bytes[self.place + 3] > 1 {
            return Err(self.fault(5, self.place + 3));
        }
        Ok((first, width))
    }

    /// The same of a first-year record, whose unused slots come last.
    fn first_shape(&self) -> Result<(usize, usize), Fault> {
        if !self.has(18) {
            return Err(self.fault(3, self.place));
        }
        let slot = |i: usize| self.place + 2 + 2 * i;
        let empty = |i: &usize| word(self.bytes, slot(*i)) == 0;
        if empty(&0) {
            return Err(self.fault(4, slot(0)));
        }
        let width = (0..8).find(empty).unwrap_or(8);
        if let Some(i) = (width..8).find(|i| !empty(i)) {
            return Err(self.fault(4, slot(i)));
        }
        Ok((2, width))
    }

    fn read_rule(&mut self, parity: bool) -> Result<(), Fault> {
        if self.rules.len() == MOST_RULES {
            return Err(self.fault(7, self.place));
        }
        let (first, width) = if self.third { self.third_shape(parity)? } else { self.first_shape()? };
        let from = self.place + first;
        let entries: Vec<i16> = (0..width).map(|i| word(self.bytes, from + 2 * i) as i16).collect();
        if let Some((number, i)) = entries_fault(self.n, parity, &entries) {
            return Err(self.fault(number, from + 2 * i));
        }
        let odd = parity && self.bytes[self.place + 3] == 1;
        self.rules.push(lawful_rule(parity, odd, &entries));
        self.place += if self.third { first + 2 * width } else { 18 };
        Ok(())
    }
}

/// The sheet of a file, or its first fault.
fn read(bytes: &[u8]) -> Result<Sheet, Fault> {
    let third = bytes.get(1) == Some(&0x33);
    let mut file = File { bytes, third, n: 0, rules: Vec::new(), place: 4 };
    let mark = if third { b"F3" } else { b"F1" };
    if bytes.len() < 4 || &bytes[..2] != mark {
        return Err(file.fault(1, 0));
    }
    file.n = word(bytes, 2) as usize;
    if file.n < 1 || file.n > MOST_SWITCHES {
        return Err(file.fault(2, 2));
    }
    loop {
        match bytes.get(file.place..file.place + 2) {
            Some(b"EN") => {
                file.read_end()?;
                return Ok(Sheet { n: file.n, rules: file.rules });
            }
            Some(b"CL") => file.read_rule(false)?,
            Some(b"PA") if third => file.read_rule(true)?,
            _ => return Err(file.fault(3, file.place)),
        }
    }
}

/// The sheet with k added to each switch number.
fn placed(below: Sheet, k: usize) -> Result<Sheet, Fault> {
    if below.n + k > MOST_SWITCHES {
        return Err(Fault { number: 9, layer: "pile", record: 0, place: 0 });
    }
    let moved = |rule: Rule| match rule {
        Rule::Clause(ls) => Rule::Clause(ls.into_iter().map(|(v, on)| (v + k, on)).collect()),
        Rule::Parity(vs, odd) => Rule::Parity(vs.into_iter().map(|v| v + k).collect(), odd),
    };
    Ok(Sheet { n: below.n + k, rules: below.rules.into_iter().map(moved).collect() })
}

/// The rules of the first sheet followed by those of the second.
fn paired(first: Sheet, second: Sheet) -> Result<Sheet, Fault> {
    if first.rules.len() + second.rules.len() > MOST_PAIRED {
        return Err(Fault { number: 10, layer: "pile", record: 0, place: 0 });
    }
    let n = first.n.max(second.n);
    Ok(Sheet { n, rules: first.rules.into_iter().chain(second.rules).collect() })
}

type Bits = [u64; 5];

fn has(b: &Bits, v: usize) -> bool {
    b[v / 64] >> (v % 64) & 1 == 1
}

fn flip(b: &mut Bits, v: usize) {
    b[v / 64] ^= 1 << (v % 64);
}

/// A set of switches of which an odd or an even number is on, and its highest switch.
#[derive(Clone)]
struct Row {
    dependent: usize,
    members: Bits,
    odd: bool,
}

impl Row {
    fn add(&mut self, other: &Bits, odd: bool) {
        for (a, b) in self.members.iter_mut().zip(other) {
            *a ^= b;
        }
        self.odd ^= odd;
    }
}

/// The parity rules that clauses of up to five literals amount to.
fn recover(rules: &[Rule]) -> Vec<(Vec<usize>, bool)> {
    let mut seen: HashMap<Vec<usize>, u32> = HashMap::new();
    for rule in rules {
        if let Rule::Clause(ls) = rule {
            if ls.len() <= 5 {
                let mut sorted = ls.clone();
                sorted.sort();
                let pattern: u32 = sorted.iter().enumerate().map(|(i, l)| (!l.1 as u32) << i).sum();
                *seen.entry(sorted.iter().map(|l| l.0).collect()).or_default() |= 1 << pattern;
            }
        }
    }
    let mut out = Vec::new();
    for (vs, patterns) in seen {
        for odd in [false, true] {
            // a setting breaks the rule where the number of its switches on has the other parity
            let mut all = (0..1u32 << vs.len()).filter(|p| (p.count_ones() % 2 == 1) != odd);
            if all.all(|p| patterns >> p & 1 == 1) {
                out.push((vs.clone(), odd));
            }
        }
    }
    out
}

fn parity_rules(rules: &[Rule]) -> Vec<(Vec<usize>, bool)> {
    let named = rules.iter().filter_map(|r| match r {
        Rule::Parity(vs, odd) => Some((vs.clone(), *odd)),
        Rule::Clause(_) => None,
    });
    named.chain(recover(rules)).collect()
}

/// The reduced system of the parity rules, or None where they contradict each other.
fn reduce(rules: &[Rule]) -> Option<Vec<Row>> {
    let mut rows: Vec<Row> = Vec::new();
    for (vs, odd) in parity_rules(rules) {
        let mut new = Row { dependent: 0, members: [0; 5], odd };
        for v in vs {
            flip(&mut new.members, v);
        }
        for row in &rows {
            if has(&new.members, row.dependent) {
                new.add(&row.members, row.odd);
            }
        }
        match (1..=MOST_SWITCHES).rev().find(|&v| has(&new.members, v)) {
            None if new.odd => return None,
            None => {}
            Some(highest) => {
                new.dependent = highest;
                for row in rows.iter_mut() {
                    if has(&row.members, highest) {
                        row.add(&new.members, new.odd);
                    }
                }
                rows.push(new);
            }
        }
    }
    Some(rows)
}

#[derive(Clone, Copy, PartialEq)]
enum Value {
    Unset,
    Off,
    On,
}

enum Look {
    Quiet,
    Dead,
    Forces(u16, bool),
}

/// How a search ends.
#[derive(Clone, Copy, PartialEq)]
enum End {
    Found,
    None,
    Spent,
}

struct Search {
    n: usize,
    clauses: Vec<([(u16, bool); 8], usize)>,
    rows: Vec<(Vec<u16>, bool)>,
    free: Vec<u16>,
    values: [Value; 257],
    levels: [u16; 257],
    tries: Vec<(u16, bool)>,
    dead: bool,
}

fn searched_clause(rule: &Rule) -> Option<([(u16, bool); 8], usize)> {
    let Rule::Clause(ls) = rule else { return None };
    let mut array = [(0, false); 8];
    for (i, l) in ls.iter().enumerate() {
        array[i] = (l.0 as u16, l.1);
    }
    Some((array, ls.len()))
}

impl Search {
    /// Begins by forcing from nothing set.
    fn new(n: usize, rules: &[Rule], rows: &[Row]) -> Search {
        let switches = 1..=n as u16;
        let members = |row: &Row| switches.clone().rev().filter(|&v| has(&row.members, v as usize)).collect();
        let mut search = Search {
            n,
            clauses: rules.iter().filter_map(searched_clause).collect(),
            rows: rows.iter().map(|row| (members(row), row.odd)).collect(),
            free: switches.clone().filter(|&v| rows.iter().all(|row| row.dependent != v as usize)).collect(),
            values: [Value::Unset; 257],
            levels: [0; 257],
            tries: Vec::new(),
            dead: false,
        };
        search.dead = search.force();
        search
    }

    fn look_clause(&self, i: usize) -> Look {
        let (ls, w) = &self.clauses[i];
        let mut unset = None;
        for &(v, on) in &ls[..*w] {
            match self.values[v as usize] {
                Value::Unset => {
                    if unset.is_some() {
                        return Look::Quiet;
                    }
                    unset = Some((v, on));
                }
                x => {
                    if (x == Value::On) == on {
                        return Look::Quiet;
                    }
                }
            }
        }
        match unset {
            None => Look::Dead,
            Some((v, on)) => Look::Forces(v, on),
        }
    }

    fn look_row(&self, i: usize) -> Look {
        let (vs, odd) = &self.rows[i];
        let mut odd = *odd;
        let mut unset = None;
        for &v in vs {
            match self.values[v as usize] {
                Value::Unset => {
                    if unset.is_some() {
                        return Look::Quiet;
                    }
                    unset = Some(v);
                }
                Value::On => odd = !odd,
                Value::Off => {}
            }
        }
        match unset {
            None if odd => Look::Dead,
            None => Look::Quiet,
            Some(v) => Look::Forces(v, odd),
        }
    }

    fn set(&mut self, v: u16, on: bool) {
        self.values[v as usize] = if on { Value::On } else { Value::Off };
        self.levels[v as usize] = self.tries.len() as u16;
    }

    /// Whether forcing by the rows ends dead.
    fn force_rows(&mut self) -> bool {
        let (mut i, mut quiet) = (0, 0);
        while quiet < self.rows.len() {
            if i == self.rows.len() {
                i = 0;
            }
            match self.look_row(i) {
                Look::Dead => return true,
                Look::Quiet => quiet += 1,
                Look::Forces(v, on) => {
                    self.set(v, on);
                    quiet = 1;
                }
            }
            i += 1;
        }
        false
    }

    /// Rows until they are quiet, then the next clause, rows again after each clause that forced.
    fn force(&mut self) -> bool {
        if self.force_rows() {
            return true;
        }
        let (mut i, mut quiet) = (0, 0);
        while quiet < self.clauses.len() {
            if i == self.clauses.len() {
                i = 0;
            }
            match self.look_clause(i) {
                Look::Dead => return true,
                Look::Quiet => quiet += 1,
                Look::Forces(v, on) => {
                    self.set(v, on);
                    quiet = 1;
                    if self.force_rows() {
                        return true;
                    }
                }
            }
            i += 1;
        }
        false
    }

    /// Turns the try at the index from off to on; all that was set since is undone.
    fn turn(&mut self, at: usize) {
        self.tries.truncate(at + 1);
        for v in 1..=self.n {
            if self.levels[v] > at as u16 {
                self.values[v] = Value::Unset;
            }
        }
        self.tries[at].1 = true;
        self.set(self.tries[at].0, true);
    }

    /// Goes on for at most so many tries; tells how it stands then, and the tries made.
    fn go_on(&mut self, budget: u64) -> (End, u64) {
        let mut made = 0;
        loop {
            let turned = self.tries.iter().rposition(|t| !t.1);
            let next = self.free.iter().copied().find(|&v| self.values[v as usize] == Value::Unset);
            match (self.dead, turned, next) {
                (true, None, _) => return (End::None, made),
                (false, _, None) => return (End::Found, made),
                _ if made == budget => return (End::Spent, made),
                (true, Some(at), _) => self.turn(at),
                (false, _, Some(v)) => {
                    self.tries.push((v, false));
                    self.set(v, false);
                }
            }
            made += 1;
            self.dead = self.force();
        }
    }

    fn setting(&self) -> Vec<bool> {
        (1..=self.n).map(|v| self.values[v] == Value::On).collect()
    }
}

enum Standing {
    Fresh,
    Underway(Search),
    Found(Vec<bool>),
    None,
}

/// How a settle ended, with the setting where it found one, and the tries it made.
struct Settled {
    end: End,
    setting: Vec<bool>,
    tries: u64,
}

impl Display for Settled {
    fn fmt(&self, f: &mut fmt::Formatter) -> fmt::Result {
        match self.end {
            End::Spent => write!(f, "spent {}", self.tries),
            End::None => write!(f, "none {}", self.tries),
            End::Found => {
                let digits: String = self.setting.iter().map(|&on| if on { '1' } else { '0' }).collect();
                write!(f, "found {} {digits}", self.tries)
            }
        }
    }
}

/// The rules standing are those of the sheet and then those taken.
struct Session {
    n: usize,
    rules: Vec<Rule>,
    taken: usize,
    standing: Standing,
}

fn session_fault(number: u8, place: usize) -> Fault {
    Fault { number, layer: "session", record: 0, place }
}

impl Session {
    fn open(sheet: Sheet) -> Session {
        Session { n: sheet.n, rules: sheet.rules, taken: 0, standing: Standing::Fresh }
    }

    fn take(&mut self, kind: RawKind, entries: &[i16]) -> Result<(), Fault> {
        let (parity, side) = match kind {
            RawKind::Clause => (false, 0),
            RawKind::Parity(side) => (true, side),
        };
        if entries.is_empty() || entries.len() > most_width(parity) {
            return Err(session_fault(4, 0));
        }
        if side > 1 {
            return Err(session_fault(5, 0));
        }
        if let Some((number, i)) = entries_fault(self.n, parity, entries) {
            return Err(session_fault(number, i));
        }
        if self.taken == MOST_TAKEN {
            return Err(session_fault(13, 0));
        }
        self.rules.push(lawful_rule(parity, side == 1, entries));
        self.taken += 1;
        self.standing = Standing::Fresh;
        Ok(())
    }

    fn freedom(&self) -> Option<usize> {
        reduce(&self.rules).map(|rows| self.n - rows.len())
    }

    fn begin(&mut self, budget: u64) -> Settled {
        match reduce(&self.rules) {
            None => {
                self.standing = Standing::None;
                Settled { end: End::None, setting: Vec::new(), tries: 0 }
            }
            Some(rows) => self.go_on(Search::new(self.n, &self.rules, &rows), budget),
        }
    }

    fn go_on(&mut self, mut search: Search, budget: u64) -> Settled {
        let (end, tries) = search.go_on(budget);
        let setting = search.setting();
        self.standing = match end {
            End::Spent => Standing::Underway(search),
            End::Found => Standing::Found(setting.clone()),
            End::None => Standing::None,
        };
        Settled { end, setting, tries }
    }

    fn settle(&mut self, budget: u64) -> Settled {
        match std::mem::replace(&mut self.standing, Standing::Fresh) {
            Standing::Fresh => self.begin(budget),
            Standing::Underway(search) => self.go_on(search, budget),
            Standing::Found(setting) => {
                self.standing = Standing::Found(setting.clone());
                Settled { end: End::Found, setting, tries: 0 }
            }
            Standing::None => {
                self.standing = Standing::None;
                Settled { end: End::None, setting: Vec::new(), tries: 0 }
            }
        }
    }

    fn copy(&self, buffer: &mut [u8]) -> Result<(), Fault> {
        if buffer.len() < self.n {
            return Err(session_fault(8, 0));
        }
        let Standing::Found(setting) = &self.standing else {
            return Err(session_fault(14, 0));
        };
        for (byte, on) in buffer.iter_mut().zip(setting) {
            *byte = *on as u8;
        }
        Ok(())
    }
}

fn freedom_text(freedom: Option<usize>) -> String {
    freedom.map_or("-".to_string(), |f| f.to_string())
}

enum Call {
    Take(RawKind, Vec<i16>),
    Freedom,
    Settle(u32),
    Copy(usize),
}

/// A script: its sheet's shape (0 to 3), the number that a placing adds, two files, and calls.
struct Script<'a> {
    shape: u8,
    by: usize,
    first: &'a [u8],
    second: &'a [u8],
    calls: Vec<Call>,
}

/// Cuts so many bytes off the front.
fn cut<'a>(rest: &mut &'a [u8], size: usize) -> Option<&'a [u8]> {
    if rest.len() < size {
        return None;
    }
    let (front, back) = rest.split_at(size);
    *rest = back;
    Some(front)
}

fn read_take(rest: &mut &[u8], kind: RawKind) -> Option<Call> {
    let count = cut(rest, 1)?[0] as usize;
    let bytes = cut(rest, 2 * count)?;
    Some(Call::Take(kind, (0..count).map(|i| word(bytes, 2 * i) as i16).collect()))
}

fn read_call(rest: &mut &[u8]) -> Option<Call> {
    match cut(rest, 1)?[0] {
        b'C' => read_take(rest, RawKind::Clause),
        b'P' => {
            let side = cut(rest, 1)?[0];
            read_take(rest, RawKind::Parity(side))
        }
        b'F' => Some(Call::Freedom),
        b'S' => Some(Call::Settle(u32::from_le_bytes(cut(rest, 4)?.try_into().unwrap()))),
        b'B' => Some(Call::Copy(word(cut(rest, 2)?, 0) as usize)),
        _ => None,
    }
}

/// None where the bytes do not follow the format.
fn read_script(bytes: &[u8]) -> Option<Script<'_>> {
    let mut rest = bytes;
    let head = cut(&mut rest, 11)?;
    if &head[..2] != b"SC" || head[2] > 3 {
        return None;
    }
    let first = cut(&mut rest, word(head, 5) as usize)?;
    let second = cut(&mut rest, word(head, 7) as usize)?;
    let calls = (0..word(head, 9)).map(|_| read_call(&mut rest)).collect::<Option<Vec<Call>>>()?;
    let script = Script { shape: head[2], by: word(head, 3) as usize, first, second, calls };
    rest.is_empty().then_some(script)
}

/// The sheet that was made; or the blank one, and the refusal is printed.
fn made(sheet: Result<Sheet, Fault>) -> Sheet {
    sheet.unwrap_or_else(|fault| {
        println!("{fault}");
        Sheet::default()
    })
}

fn script_sheet(script: &Script) -> Sheet {
    let mut sheet = made(read(script.first));
    if script.shape > 0 {
        sheet = made(placed(sheet, script.by));
    }
    if script.shape > 1 {
        sheet = made(paired(sheet, made(read(script.second))));
    }
    if script.shape > 2 {
        sheet = made(paired(sheet, read(script.first).unwrap_or_default()));
    }
    sheet
}

fn print_verdict(word: &str, verdict: Result<(), Fault>) {
    match verdict {
        Ok(()) => println!("{word}"),
        Err(fault) => println!("{fault}"),
    }
}

fn make_call(session: &mut Session, call: &Call) {
    match call {
        Call::Take(kind, entries) => print_verdict("took", session.take(*kind, entries)),
        Call::Freedom => println!("free {}", freedom_text(session.freedom())),
        Call::Settle(budget) => println!("{}", session.settle(*budget as u64)),
        Call::Copy(length) => {
            let mut buffer = vec![0; *length];
            print_verdict("copied", session.copy(&mut buffer));
            let values: String = buffer.iter().map(|b| format!(" {b}")).collect();
            println!("buffer{values}");
        }
    }
}

fn answer_script(bytes: &[u8]) {
    let Some(script) = read_script(bytes) else {
        println!("not a script");
        return;
    };
    let sheet = script_sheet(&script);
    println!("sheet {} {}", sheet.n, sheet.rules.len());
    let mut session = Session::open(sheet);
    for call in &script.calls {
        make_call(&mut session, call);
    }
}

fn report(bytes: &[u8], budget: u64, timed: bool) {
    let sheet = match read(bytes) {
        Ok(sheet) => sheet,
        Err(fault) => return println!("{fault}"),
    };
    let (n, m) = (sheet.n, sheet.rules.len());
    let mut session = Session::open(sheet);
    let start = Instant::now();
    let freedom = session.freedom();
    let reduced = start.elapsed();
    println!("V {n} R {m} F {}", freedom_text(freedom));
    let start = Instant::now();
    let settled = session.settle(budget);
    let searched = (start.elapsed().saturating_sub(reduced)).as_secs_f64();
    println!("{settled}");
    if timed {
        let speed = settled.tries as f64 / searched;
        eprintln!("reduction {:.2} ms, search {:.1} ms, {speed:.0} tries/s", reduced.as_secs_f64() * 1e3, searched * 1e3);
    }
}

fn main() {
    let args: Vec<String> = std::env::args().collect();
    let (mut budget, mut timed, mut script) = (1_000_000, false, false);
    let mut i = 1;
    while i < args.len() {
        match args[i].as_str() {
            "--budget" => {
                budget = args[i + 1].parse().unwrap();
                i += 1;
            }
            "--time" => timed = true,
            "--script" => script = true,
            other => panic!("unknown argument {other}"),
        }
        i += 1;
    }
    let mut bytes = Vec::new();
    if script {
        std::io::stdin().read_to_end(&mut bytes).unwrap();
        answer_script(&bytes);
    } else {
        std::io::stdin().take(36_873).read_to_end(&mut bytes).unwrap();
        report(&bytes, budget, timed);
    }
}
