//! A reference for the chart and its questions, written from docs/RULES.md alone.
//!
//! It shares no code with the crates. It is slow and plain on purpose, so that the replies of the
//! proved program can be held against its own: whether a gate is open is asked minute by minute,
//! and each question fills all 64 rows of 64 places. It checks itself, and panics where a check
//! fails: every answer must be a journey by the definition; a sweep over all minutes, with every
//! entry and not only the first or the last, must find the same best; and on a chart of at most 12
//! reaches no route of up to 6 legs may be better.
//!
//! It reads cases from standard input, a line each. Blank lines and lines that begin with '#' are
//! skipped. Else a line is words parted by single spaces, and every number fits 16 bits.
//!
//! A sheet and its book:
//!
//! - `sheet NAME..` starts a new sheet: an empty book, an empty chart, no notices, and room for
//!   4096 cells and 63 legs. The line is printed.
//! - `timed PASSAGE`, `window GATE BEGIN END`, `tide PHASE PERIOD LENGTH PASSAGE` are records of
//!   the book: the timed gates from 0, then the tide gates, side by side. Nothing is printed. All
//!   records of a sheet come before its first call.
//!
//! Calls, each printed as the line itself, ': ' and the reply:
//!
//! - `lay FROM TO GATE`: `reach N`
//! - `post GATE BEGIN END`: `posted`
//! - `lift GATE BEGIN END`: `lifted`
//! - `foremost FROM TO READY`, `fewest FROM TO READY`, `latest FROM TO DUE`:
//!   `DEPARTURE ARRIVAL REACHES` and the legs, each as ` (REACH ENTRY EXIT)`
//! - any of them, when it is declined: `declined NUMBER`
//!
//! And these:
//!
//! - `room CELLS LEGS` sets how long the lent lists are from here on in the sheet. The line is
//!   printed.
//! - `times N CALL..` carries out a lay, post or lift N times. The line and the last reply are
//!   printed.
//! - `chain N GATE` lays N reaches, from place i to i + 1 for each i from 0 to N - 1, all behind
//!   the gate. The line and the last reply are printed.
//! - `scatter SEED N PLACES GATES` lays N reaches made by the sequence x -> (75 x + 74) mod 65537,
//!   which starts from SEED and is moved on before each use: for each reach, in this order, from
//!   is the next mod PLACES, to the next mod PLACES, gate the next mod GATES. The line and the last
//!   reply are printed.
//!
//! The cases are kept as crates/examples/stdin, and the output of this program for them as
//! crates/examples/stdout. To build and run it, from the top of the checkout:
//!
//! ```text
//! mkdir -p target && rustc -O --edition 2021 -o target/reference reference/main.rs && target/reference < crates/examples/stdin
//! ```

use std::collections::HashMap;
use std::fmt;
use std::io::{self, Read, Write};

/// The last instant of the fortnight.
const LAST: u32 = 20_160;
const PLACES: usize = 64;
/// The rows of the search: no question wants more than 63 reaches.
const ROWS: usize = 64;
/// The most gates of one book, and of two side by side.
const MAX_BOOK_GATES: u32 = 256;
const MAX_LAYER_GATES: u32 = 1_024;
const MAX_REACHES: usize = 256;
const MAX_NOTICES: usize = 32;
/// The least lengths of the lent lists.
const CELLS: u32 = 4_096;
const LEGS: u32 = 63;

/// On charts of at most so many reaches all short routes are tried.
const SMALL_CHART: usize = 12;
const SHORT_ROUTE: u32 = 6;

// ---- The book: two books side by side, under notices ----

struct Window {
    gate: u32,
    begin: u32,
    end: u32,
}

struct Tide {
    phase: u32,
    period: u32,
    length: u32,
    passage: u32,
}

#[derive(PartialEq)]
struct Notice {
    gate: u32,
    begin: u32,
    end: u32,
}

#[derive(Default)]
struct Book {
    /// The passage times of the timed gates.
    passages: Vec<u32>,
    windows: Vec<Window>,
    tides: Vec<Tide>,
    notices: Vec<Notice>,
}

fn passage_is_faulty(passage: u32) -> bool {
    passage == 0 || passage > LAST
}

impl Book {
    fn timed_gates(&self) -> u32 {
        (self.passages.len() as u32).min(MAX_BOOK_GATES)
    }

    fn tide_gates(&self) -> u32 {
        (self.tides.len() as u32).min(MAX_BOOK_GATES)
    }

    /// The number of gates of the two books together.
    fn gates(&self) -> u32 {
        (self.timed_gates() + self.tide_gates()).min(MAX_LAYER_GATES)
    }

    /// The window book: the exit of a boat that enters at s, or None where the gate is shut.
    fn timed_exit(&self, gate: u32, s: u32) -> Option<u32> {
        if gate >= self.timed_gates() {
            return None;
        }
        let passage = self.passages[gate as usize];
        if passage_is_faulty(passage) {
            return None;
        }
        for window in &self.windows {
            let faulty =
                window.gate >= self.timed_gates() || window.begin > window.end || window.end > LAST;
            if !faulty && window.gate == gate && window.begin <= s && s + passage <= window.end {
                return Some(s + passage);
            }
        }
        None
    }

    /// The tide book, likewise.
    fn tide_exit(&self, gate: u32, s: u32) -> Option<u32> {
        if gate >= self.tide_gates() {
            return None;
        }
        let tide = &self.tides[gate as usize];
        let faulty = passage_is_faulty(tide.passage)
            || tide.period == 0
            || tide.length > tide.period
            || tide.phase > LAST;
        if faulty {
            return None;
        }
        let open = s >= tide.phase
            && (s - tide.phase) % tide.period + tide.passage <= tide.length
            && s + tide.passage <= LAST;
        open.then_some(s + tide.passage)
    }

    /// The two books side by side.
    fn layer_exit(&self, gate: u32, s: u32) -> Option<u32> {
        if gate >= self.gates() {
            None
        } else if gate < self.timed_gates() {
            self.timed_exit(gate, s)
        } else {
            self.tide_exit(gate - self.timed_gates(), s)
        }
    }

    /// The two books side by side, under the notices.
    fn exit(&self, gate: u32, s: u32) -> Option<u32> {
        let e = self.layer_exit(gate, s)?;
        for notice in &self.notices {
            let clear = e <= notice.begin || notice.end <= s;
            if notice.gate == gate && !clear {
                return None;
            }
        }
        Some(e)
    }

    fn post(&mut self, notice: Notice) -> Reply {
        if notice.gate >= self.gates() {
            Reply::Declined(7)
        } else if notice.begin >= notice.end || notice.end > LAST {
            Reply::Declined(8)
        } else if self.notices.contains(&notice) {
            Reply::Declined(9)
        } else if self.notices.len() >= MAX_NOTICES {
            Reply::Declined(10)
        } else {
            self.notices.push(notice);
            Reply::Posted
        }
    }

    fn lift(&mut self, notice: Notice) -> Reply {
        match self.notices.iter().position(|n| *n == notice) {
            None => Reply::Declined(11),
            Some(at) => {
                self.notices.remove(at);
                Reply::Lifted
            }
        }
    }
}

/// A passage: the entry and its exit.
type Passage = (u32, u32);

/// All exits of a book, written out anew for each question, with the answers of `first` and `last`
/// that have been asked for so far.
struct Times {
    /// For each gate, and each instant from 0 to 20160.
    exits: Vec<Vec<Option<u32>>>,
    firsts: HashMap<(u32, u32), Option<Passage>>,
    lasts: HashMap<(u32, u32), Option<Passage>>,
}

impl Times {
    fn new(book: &Book) -> Times {
        let of_gate = |gate| (0..=LAST).map(|s| book.exit(gate, s)).collect();
        Times {
            exits: (0..book.gates()).map(of_gate).collect(),
            firsts: HashMap::new(),
            lasts: HashMap::new(),
        }
    }

    /// The least open instant at or after t, with its exit.
    fn first(&mut self, gate: u32, t: u32) -> Option<Passage> {
        let exits = &self.exits[gate as usize];
        *self.firsts.entry((gate, t)).or_insert_with(|| {
            for s in 0..=LAST {
                if let Some(e) = exits[s as usize] {
                    if s >= t {
                        return Some((s, e));
                    }
                }
            }
            None
        })
    }

    /// The greatest open instant whose exit is at or before t, with that exit.
    fn last(&mut self, gate: u32, t: u32) -> Option<Passage> {
        let exits = &self.exits[gate as usize];
        *self.lasts.entry((gate, t)).or_insert_with(|| {
            for s in (0..=LAST).rev() {
                if let Some(e) = exits[s as usize] {
                    if e <= t {
                        return Some((s, e));
                    }
                }
            }
            None
        })
    }
}

// ---- The chart and its questions ----

struct Reach {
    from: u32,
    to: u32,
    gate: u32,
}

#[derive(Clone, Copy, Debug)]
struct Leg {
    reach: usize,
    entry: u32,
    exit: u32,
}

#[derive(Clone, Copy, Debug, PartialEq)]
enum Ask {
    Foremost,
    Fewest,
    Latest,
}

/// A question: the instant is the ready instant, or for `latest` the due instant.
#[derive(Clone, Copy, Debug)]
struct Question {
    ask: Ask,
    from: u32,
    to: u32,
    instant: u32,
}

#[derive(Debug)]
struct Journey {
    departure: u32,
    arrival: u32,
    legs: Vec<Leg>,
}

enum Reply {
    Reach(usize),
    Posted,
    Lifted,
    Journey(Journey),
    Declined(u32),
}

impl fmt::Display for Reply {
    fn fmt(&self, f: &mut fmt::Formatter) -> fmt::Result {
        match self {
            Reply::Reach(number) => write!(f, "reach {number}"),
            Reply::Posted => write!(f, "posted"),
            Reply::Lifted => write!(f, "lifted"),
            Reply::Declined(number) => write!(f, "declined {number}"),
            Reply::Journey(journey) => {
                let reaches = journey.legs.len();
                write!(f, "{} {} {reaches}", journey.departure, journey.arrival)?;
                for leg in &journey.legs {
                    write!(f, " ({} {} {})", leg.reach, leg.entry, leg.exit)?;
                }
                Ok(())
            }
        }
    }
}

/// A row has a label, or a number of legs, for each place, and None where there is no way.
type Row = [Option<u32>; PLACES];

#[derive(Default)]
struct Sheet {
    book: Book,
    reaches: Vec<Reach>,
    cells: u32,
    legs: u32,
    /// Whether a call has been made, so that no more records may come.
    called: bool,
}

impl Sheet {
    fn new() -> Sheet {
        Sheet {
            cells: CELLS,
            legs: LEGS,
            ..Sheet::default()
        }
    }

    fn lay(&mut self, reach: Reach) -> Reply {
        if reach.from as usize >= PLACES || reach.to as usize >= PLACES {
            Reply::Declined(3)
        } else if reach.gate >= self.book.gates() {
            Reply::Declined(7)
        } else if self.reaches.len() >= MAX_REACHES {
            Reply::Declined(6)
        } else {
            self.reaches.push(reach);
            Reply::Reach(self.reaches.len() - 1)
        }
    }

    fn ask(&self, question: Question) -> Reply {
        if self.cells < CELLS {
            return Reply::Declined(1);
        }
        if self.legs < LEGS {
            return Reply::Declined(2);
        }
        if question.from as usize >= PLACES || question.to as usize >= PLACES {
            return Reply::Declined(3);
        }
        if question.instant > LAST {
            return Reply::Declined(4);
        }
        let mut times = Times::new(&self.book);
        let found = match question.ask {
            Ask::Latest => self.seek_back(&mut times, question),
            _ => self.seek(&mut times, question),
        };
        if let Some(journey) = &found {
            self.check_journey(question, journey);
        }
        self.check_best(&mut times, question, &found);
        match found {
            Some(journey) => Reply::Journey(journey),
            None => Reply::Declined(5),
        }
    }

    /// The answer of `foremost` or `fewest`.
    fn seek(&self, times: &mut Times, question: Question) -> Option<Journey> {
        let rows = self.earliest_arrivals(times, question.from, question.instant);
        let there = question.to as usize;
        let has_answer = |row: &Row| match question.ask {
            Ask::Fewest => row[there].is_some(),
            _ => row[there] == rows[ROWS - 1][there],
        };
        rows[ROWS - 1][there]?;
        let reaches = rows.iter().position(has_answer)?;

        // Read the route back from the second place.
        let mut route = Vec::new();
        let mut place = there;
        for k in (1..=reaches).rev() {
            let brings = |reach: &Reach| {
                reach.to as usize == place
                    && rows[k - 1][reach.from as usize]
                        .and_then(|t| times.first(reach.gate, t))
                        .is_some_and(|(_, exit)| rows[k][place] == Some(exit))
            };
            let number = self.reaches.iter().position(brings);
            let number = number.unwrap_or_else(|| panic!("no reach brings a label: {question:?}"));
            route.push(number);
            place = self.reaches[number].from as usize;
        }
        route.reverse();

        // Each leg enters at `first` of the instant the boat is there.
        let mut now = question.instant;
        let mut legs = Vec::new();
        for reach in route {
            let passage = times.first(self.reaches[reach].gate, now);
            let (entry, exit) = passage.unwrap_or_else(|| panic!("route is shut: {question:?}"));
            legs.push(Leg { reach, entry, exit });
            now = exit;
        }
        Some(Journey {
            departure: legs.first().map_or(question.instant, |leg| leg.entry),
            arrival: now,
            legs,
        })
    }

    /// The answer of `latest`.
    fn seek_back(&self, times: &mut Times, question: Question) -> Option<Journey> {
        let rows = self.latest_departures(times, question.to, question.instant);
        let here = question.from as usize;
        rows[ROWS - 1][here]?;
        let has_answer = |row: &Row| row[here] == rows[ROWS - 1][here];
        let reaches = rows.iter().position(has_answer)?;

        // Read the route back from its far end, the first place.
        let mut route = Vec::new();
        let mut place = here;
        for k in (1..=reaches).rev() {
            let brings = |reach: &Reach| {
                reach.from as usize == place
                    && rows[k - 1][reach.to as usize]
                        .and_then(|t| times.last(reach.gate, t))
                        .is_some_and(|(entry, _)| rows[k][place] == Some(entry))
            };
            let number = self.reaches.iter().position(brings);
            let number = number.unwrap_or_else(|| panic!("no reach brings a label: {question:?}"));
            route.push(number);
            place = self.reaches[number].to as usize;
        }

        // Each leg enters at `last` of the next leg's entry.
        let mut due = question.instant;
        let mut legs = Vec::new();
        for reach in route.into_iter().rev() {
            let passage = times.last(self.reaches[reach].gate, due);
            let (entry, exit) = passage.unwrap_or_else(|| panic!("route is shut: {question:?}"));
            legs.push(Leg { reach, entry, exit });
            due = entry;
        }
        legs.reverse();
        Some(Journey {
            departure: due,
            arrival: legs.last().map_or(question.instant, |leg| leg.exit),
            legs,
        })
    }

    /// Row k has the earliest arrival at each place with at most k reaches from the start.
    fn earliest_arrivals(&self, times: &mut Times, start: u32, ready: u32) -> Vec<Row> {
        let mut row = [None; PLACES];
        row[start as usize] = Some(ready);
        let mut rows = vec![row];
        for k in 1..ROWS {
            let before = rows[k - 1];
            let mut row = before;
            for reach in &self.reaches {
                let Some(t) = before[reach.from as usize] else {
                    continue;
                };
                let Some((_, exit)) = times.first(reach.gate, t) else {
                    continue;
                };
                let label = &mut row[reach.to as usize];
                if label.is_none_or(|old| exit < old) {
                    *label = Some(exit);
                }
            }
            rows.push(row);
        }
        rows
    }

    /// Row k has the latest departure from each place with at most k reaches to the goal.
    fn latest_departures(&self, times: &mut Times, goal: u32, due: u32) -> Vec<Row> {
        let mut row = [None; PLACES];
        row[goal as usize] = Some(due);
        let mut rows = vec![row];
        for k in 1..ROWS {
            let before = rows[k - 1];
            let mut row = before;
            for reach in &self.reaches {
                let Some(t) = before[reach.to as usize] else {
                    continue;
                };
                let Some((entry, _)) = times.last(reach.gate, t) else {
                    continue;
                };
                let label = &mut row[reach.from as usize];
                if label.is_none_or(|old| entry > old) {
                    *label = Some(entry);
                }
            }
            rows.push(row);
        }
        rows
    }
}

// ---- The reference checks itself ----

/// What a journey is measured by: its arrival, or for `latest` its departure; and its number of
/// reaches.
type Worth = (u32, u32);

fn better(ask: Ask, one: Worth, two: Worth) -> bool {
    match ask {
        Ask::Foremost => one.0 < two.0 || (one.0 == two.0 && one.1 < two.1),
        Ask::Fewest => one.1 < two.1 || (one.1 == two.1 && one.0 < two.0),
        Ask::Latest => one.0 > two.0 || (one.0 == two.0 && one.1 < two.1),
    }
}

/// The fewer legs of two, where None is no way at all.
fn fewer(a: Option<u32>, b: Option<u32>) -> Option<u32> {
    match (a, b) {
        (Some(a), Some(b)) => Some(a.min(b)),
        _ => a.or(b),
    }
}

impl Sheet {
    /// Panics unless the legs are a journey by the definition, and one that the question allows.
    fn check_journey(&self, question: Question, journey: &Journey) {
        let require = |holds: bool, what: &str| {
            assert!(holds, "{what}: {question:?} {journey:?}");
        };
        let legs = &journey.legs;
        require(legs.len() <= LEGS as usize, "too many legs");
        let mut place = question.from;
        for (i, leg) in legs.iter().enumerate() {
            require(leg.reach < self.reaches.len(), "a reach is not laid");
            let reach = &self.reaches[leg.reach];
            require(reach.from == place, "a leg starts elsewhere");
            let exit = self.book.exit(reach.gate, leg.entry);
            require(exit == Some(leg.exit), "a gate is not open so");
            if i > 0 {
                require(legs[i - 1].exit <= leg.entry, "a leg enters too early");
            }
            place = reach.to;
        }
        require(place == question.to, "the journey ends elsewhere");
        match (legs.first(), legs.last()) {
            (Some(first), Some(last)) => {
                require(journey.departure == first.entry, "wrong departure");
                require(journey.arrival == last.exit, "wrong arrival");
            }
            _ => {
                require(journey.departure == question.instant, "wrong departure");
                require(journey.arrival == question.instant, "wrong arrival");
            }
        }
        match question.ask {
            Ask::Latest => require(journey.arrival <= question.instant, "not in by the due"),
            _ => require(journey.departure >= question.instant, "not ready"),
        }
    }

    /// Panics if another journey is better than the one found, or if there is one and none was
    /// found.
    fn check_best(&self, times: &mut Times, question: Question, found: &Option<Journey>) {
        let found = found.as_ref().map(|journey| match question.ask {
            Ask::Latest => (journey.departure, journey.legs.len() as u32),
            _ => (journey.arrival, journey.legs.len() as u32),
        });
        let swept = self.sweep(times, question);
        assert!(
            swept == found,
            "the sweep differs: {question:?} {found:?} {swept:?}"
        );
        if self.reaches.len() <= SMALL_CHART {
            let start = match question.ask {
                Ask::Latest => question.to,
                _ => question.from,
            };
            let mut best = None;
            self.try_routes(times, question, start, (question.instant, 0), &mut best);
            if let Some(best) = best {
                assert!(
                    found.is_some_and(|found| !better(question.ask, best, found)),
                    "a route is better: {question:?} {found:?} {best:?}"
                );
            }
        }
    }

    /// Tries every route of few legs. Each gate is entered at `first`; for `latest` the routes are
    /// followed against the reaches, and each gate is entered at `last`. `so_far` is where that
    /// has led: the instant at this place, and the number of legs.
    fn try_routes(
        &self,
        times: &mut Times,
        question: Question,
        place: u32,
        so_far: Worth,
        best: &mut Option<Worth>,
    ) {
        let ask = question.ask;
        let goal = match ask {
            Ask::Latest => question.from,
            _ => question.to,
        };
        if place == goal && best.is_none_or(|best| better(ask, so_far, best)) {
            *best = Some(so_far);
        }
        let (instant, legs) = so_far;
        if legs == SHORT_ROUTE.min(self.reaches.len() as u32) {
            return;
        }
        for reach in &self.reaches {
            let (near, far) = match ask {
                Ask::Latest => (reach.to, reach.from),
                _ => (reach.from, reach.to),
            };
            if near != place {
                continue;
            }
            let on = match ask {
                Ask::Latest => times.last(reach.gate, instant).map(|(entry, _)| entry),
                _ => times.first(reach.gate, instant).map(|(_, exit)| exit),
            };
            if let Some(on) = on {
                self.try_routes(times, question, far, (on, legs + 1), best);
            }
        }
    }

    /// The best there is, by a sweep over the minutes that enters every gate at every instant at
    /// which it is open. It doesn't rest on `first`, `last` or on nobody overtaking.
    fn sweep(&self, times: &Times, question: Question) -> Option<Worth> {
        let from = question.from as usize;
        let to = question.to as usize;
        let mut instants = 0..=LAST as usize;
        let (legs, place, instant) = match question.ask {
            Ask::Foremost => {
                let legs = self.sweep_on(times, question);
                let earliest = instants.find(|&t| legs[t][to].is_some());
                (legs, to, earliest?)
            }
            Ask::Fewest => {
                let legs = self.sweep_on(times, question);
                let least = legs[LAST as usize][to]?;
                let earliest = instants.find(|&t| legs[t][to] == Some(least));
                (legs, to, earliest?)
            }
            Ask::Latest => {
                let legs = self.sweep_back(times, question);
                let latest = instants.rfind(|&t| legs[t][from].is_some());
                (legs, from, latest?)
            }
        };
        Some((instant as u32, legs[instant][place]?))
    }

    /// For each instant and place, the fewest legs of a journey that is ready, and there by then.
    fn sweep_on(&self, times: &Times, question: Question) -> Vec<Row> {
        let ready = question.instant as usize;
        let mut legs = vec![[None; PLACES]; LAST as usize + 1];
        legs[ready][question.from as usize] = Some(0);
        for t in ready..=LAST as usize {
            if t > ready {
                let before = legs[t - 1];
                for (now, old) in legs[t].iter_mut().zip(before) {
                    *now = fewer(*now, old);
                }
            }
            for reach in &self.reaches {
                let so_far = legs[t][reach.from as usize];
                let exit = times.exits[reach.gate as usize][t];
                if let (Some(so_far), Some(exit)) = (so_far, exit) {
                    let there = &mut legs[exit as usize][reach.to as usize];
                    *there = fewer(*there, Some(so_far + 1));
                }
            }
        }
        legs
    }

    /// For each instant and place, the fewest legs of a journey from there, then or later, that is
    /// in by the due instant.
    fn sweep_back(&self, times: &Times, question: Question) -> Vec<Row> {
        let due = question.instant as usize;
        let mut legs = vec![[None; PLACES]; LAST as usize + 1];
        legs[due][question.to as usize] = Some(0);
        for t in (0..=due).rev() {
            if t < due {
                legs[t] = legs[t + 1];
            }
            for reach in &self.reaches {
                let Some(exit) = times.exits[reach.gate as usize][t] else {
                    continue;
                };
                if let Some(to_go) = legs[exit as usize][reach.to as usize] {
                    let here = &mut legs[t][reach.from as usize];
                    *here = fewer(*here, Some(to_go + 1));
                }
            }
        }
        legs
    }
}

// ---- Reading the cases ----

/// The numbers of a line; panics unless there are just N of them, each of 16 bits.
fn numbers<const N: usize>(words: &[&str]) -> [u32; N] {
    assert!(words.len() == N, "{N} numbers are wanted, not {words:?}");
    let mut all = [0; N];
    for (number, word) in all.iter_mut().zip(words) {
        let parsed: Result<u16, _> = word.parse();
        *number = parsed.unwrap_or_else(|_| panic!("not a number of 16 bits: {word:?}")) as u32;
    }
    all
}

impl Sheet {
    /// A call that changes the chart or the notices.
    fn change(&mut self, words: &[&str]) -> Reply {
        let [a, b, c] = numbers(&words[1..]);
        match words[0] {
            "lay" => self.lay(Reach {
                from: a,
                to: b,
                gate: c,
            }),
            "post" => self.book.post(Notice {
                gate: a,
                begin: b,
                end: c,
            }),
            "lift" => self.book.lift(Notice {
                gate: a,
                begin: b,
                end: c,
            }),
            other => panic!("not a lay, post or lift: {other:?}"),
        }
    }

    fn question(&self, ask: Ask, words: &[&str]) -> Reply {
        let [from, to, instant] = numbers(words);
        self.ask(Question {
            ask,
            from,
            to,
            instant,
        })
    }

    fn times(&mut self, words: &[&str]) -> Reply {
        let [n] = numbers(&words[..1]);
        let mut last = None;
        for _ in 0..n {
            last = Some(self.change(&words[1..]));
        }
        last.expect("at least once")
    }

    fn chain(&mut self, words: &[&str]) -> Reply {
        let [n, gate] = numbers(words);
        let mut last = None;
        for i in 0..n {
            last = Some(self.lay(Reach {
                from: i,
                to: i + 1,
                gate,
            }));
        }
        last.expect("at least one reach")
    }

    fn scatter(&mut self, words: &[&str]) -> Reply {
        let [seed, n, places, gates] = numbers(words);
        let mut x = seed;
        let mut next = || {
            x = (75 * x + 74) % 65_537;
            x
        };
        let mut last = None;
        for _ in 0..n {
            let from = next() % places;
            let to = next() % places;
            let gate = next() % gates;
            last = Some(self.lay(Reach { from, to, gate }));
        }
        last.expect("at least one reach")
    }

    fn record(&mut self, words: &[&str]) {
        assert!(!self.called, "a record after the first call: {words:?}");
        match words[0] {
            "timed" => {
                let [passage] = numbers(&words[1..]);
                self.book.passages.push(passage);
            }
            "window" => {
                let [gate, begin, end] = numbers(&words[1..]);
                self.book.windows.push(Window { gate, begin, end });
            }
            "tide" => {
                let [phase, period, length, passage] = numbers(&words[1..]);
                self.book.tides.push(Tide {
                    phase,
                    period,
                    length,
                    passage,
                });
            }
            other => panic!("not a record: {other:?}"),
        }
    }

    fn call(&mut self, words: &[&str]) -> Reply {
        self.called = true;
        match words[0] {
            "foremost" => self.question(Ask::Foremost, &words[1..]),
            "fewest" => self.question(Ask::Fewest, &words[1..]),
            "latest" => self.question(Ask::Latest, &words[1..]),
            "times" => self.times(&words[1..]),
            "chain" => self.chain(&words[1..]),
            "scatter" => self.scatter(&words[1..]),
            _ => self.change(words),
        }
    }
}

fn main() -> io::Result<()> {
    let mut cases = String::new();
    io::stdin().read_to_string(&mut cases)?;
    let mut out = io::BufWriter::new(io::stdout().lock());
    let mut sheet = Sheet::new();
    for line in cases.lines() {
        if line.trim().is_empty() || line.starts_with('#') {
            continue;
        }
        let words: Vec<&str> = line.split(' ').collect();
        match words[0] {
            "sheet" => {
                sheet = Sheet::new();
                writeln!(out, "{line}")?;
            }
            "room" => {
                [sheet.cells, sheet.legs] = numbers(&words[1..]);
                writeln!(out, "{line}")?;
            }
            "timed" | "window" | "tide" => sheet.record(&words),
            _ => writeln!(out, "{line}: {}", sheet.call(&words))?,
        }
    }
    out.flush()
}
