//! archive N [SEED]: the archive's six calls beside the model and the Rust's functions. N lists and
//! N / 4 damaged ones of each call and of sort, N / 8 placements on which the Rust's rule for the LRU root
//! differs, lists past the limits, 2 N applies, generations in N volumes and N / 4 damaged ones, and N / 20
//! histories.
//! Each list and volume is held as it stands and in another order, with one outcome. Every number is the
//! model's, every answer and every generation the Rust's on the list in order, every next volume, every
//! sorted form and every count of keys visited the model's, in outputs of every length and with guards
//! around them. Prints counts and disagreements; a number that is met too seldom is a failure too, and so
//! are too few lists on which the rules for the LRU root differ, and two neighbouring numbers that no one
//! list meets.

use lists::apply::apply;
use lists::asked::{self, Asked};
use lists::call_list::{DISCARD, PLACE, RELEASE};
use lists::candidate::{nth, nth_whole_in_all, Candidate, Room};
use lists::changes::{applied, Applied};
use lists::edges::{apply_edges, base, edges, list_edges};
use lists::fields::split;
use lists::generate::{self, Size};
use lists::generation_edges::generation_edges;
use lists::generations::{generations, Generations, TOGETHER};
use lists::history::{History, Tally};
use lists::lent::{Calls, Due};
use lists::model::{verdict, APPLY, GENERATIONS, SORT, SUMS};
use lists::order::{doubled, without_requests};
use lists::rng::Rng;
use lists::sort::sort;
use lists::spoil::{damage, numbers, spoil};
use lists::vectors::hex;
use lists::{limits, past_limits};
use oracle::compare::{accepted, disagreement, root_differs, shrink};
use oracle::generations as rust_generations;
use oracle::run;
use std::collections::BTreeMap;
use std::process::ExitCode;

/// The archive's six calls.
const ARCHIVE: Calls = Calls {
    place: zerglaz::ffi::place,
    release: zerglaz::ffi::release,
    discard: zerglaz::ffi::discard,
    apply: zerglaz::ffi::apply,
    sort: zerglaz::ffi::sort,
    generations: zerglaz::ffi::generations,
};
/// The calls by name.
const NAMES: [(u8, &str); 6] = [
    (PLACE, "place"),
    (RELEASE, "release"),
    (DISCARD, "discard"),
    (APPLY, "apply"),
    (SORT, "sort"),
    (GENERATIONS, "generations"),
];
/// The calls that read a list and nothing else.
const ON_LISTS: [u8; 4] = [PLACE, RELEASE, DISCARD, SORT];
/// How often each number of each call is met at least.
const LEAST: u64 = 200;
/// How many seeds are tried for a list that meets two numbers.
const TRIES: u64 = 10_000;
/// How many disagreements are shown, and how long a list is whose bytes are.
const SHOWN: u64 = 20;
const LONG: usize = 65_536;
/// The seed where none is given.
const SEED: u64 = 20_261_115;

/// What was counted.
struct Counts {
    /// The other orders.
    rng: Rng,
    /// Lists and applies by call and number.
    met: BTreeMap<(u8, u32), u64>,
    /// Lists and volumes that stood in two orders.
    orders: u64,
    /// Lists whose answer is the Rust's, and lists that cannot be given to it: refused 2 or 22.
    answered: u64,
    not_given: u64,
    /// Lists whose answer is the Rust's but for the LRU root.
    but_for_root: u64,
    /// Generations that are the Rust's, and volumes with buckets that are left out: refused 2, 3 or 22.
    looked_up: u64,
    left_out: u64,
    /// Disagreements.
    wrong: u64,
}

fn main() -> ExitCode {
    oracle::quiet_panics();
    let mut args = std::env::args().skip(1).map(|a| a.parse::<u64>());
    let Some(Ok(lists)) = args.next() else {
        eprintln!("archive N [SEED]");
        return ExitCode::FAILURE;
    };
    let seed = args.next().and_then(Result::ok).unwrap_or(SEED);
    let mut counts = Counts {
        rng: Rng::new(seed),
        met: BTreeMap::new(),
        orders: 0,
        answered: 0,
        not_given: 0,
        but_for_root: 0,
        looked_up: 0,
        left_out: 0,
        wrong: 0,
    };
    for call in ON_LISTS {
        counts.lists(call, lists, seed);
        counts.at_the_limits(call, seed);
    }
    counts.applies(2 * lists, seed);
    counts.generations(lists, seed);
    counts.generations_at_the_limits(seed);
    let apart: u64 = ON_LISTS
        .map(|call| counts.neighbours(call, seed))
        .iter()
        .sum();
    let seldom = counts.print() + apart;
    counts.histories(lists / 20, seed);
    println!("held in two orders: {}", counts.orders);
    println!(
        "answers of the Rust: {}, of these but for the LRU root: {}; lists that cannot be given to it, refused 2 or 22: {}",
        counts.answered, counts.but_for_root, counts.not_given
    );
    println!(
        "generations of the Rust: {}; volumes with buckets left out, since refused 2, 3 or 22: {}",
        counts.looked_up, counts.left_out
    );
    println!("disagreements: {}", counts.wrong);
    let seldom = seldom + u64::from(counts.but_for_root < LEAST);
    ExitCode::from(u8::from(counts.wrong + seldom > 0))
}

impl Counts {
    /// Hold a call's edges, its lists and its damaged lists.
    fn lists(&mut self, call: u8, lists: u64, seed: u64) {
        for list in edges_of(call) {
            self.list(&lent(call, list, Room::Exact));
        }
        for i in 0..lists {
            self.list(&nth(call, i, seed));
        }
        let whole = if call == PLACE { lists / 8 } else { 0 };
        for i in 0..whole {
            self.list(&nth_whole_in_all(i, seed));
        }
        let mut rng = Rng::new(seed);
        for i in 0..lists / 4 {
            let list = damage(&mut rng, &nth(call, 2 * i, !seed).list);
            self.list(&lent(call, list, Room::Over(50)));
        }
    }

    /// Hold a call's lists at the limits, and its lists and volumes past them.
    fn at_the_limits(&mut self, call: u8, seed: u64) {
        let named = named(call, seed);
        for index in 0..limits::LISTS {
            let (list, what) = limits::list(seed, named, index);
            self.named(what, |counts| {
                counts.list(&lent(call, list.bytes(), Room::Over(9)));
            });
        }
        for index in 0..past_limits::LISTS {
            let (list, what) = past_limits::list(seed, named, index);
            let applied = Applied {
                volume: without_requests(&list),
                change: Vec::new(),
                room: Room::Over(9),
            };
            self.named(what, |counts| {
                counts.list(&lent(call, list, Room::Over(9)));
                counts.apply(&applied);
            });
        }
    }

    /// Hold something, and print what it was where it disagrees.
    fn named(&mut self, what: &str, hold: impl FnOnce(&mut Counts)) {
        let before = self.wrong;
        hold(self);
        if self.wrong > before {
            println!("  {what}");
        }
    }

    /// Hold a list that meets two neighbouring numbers at once, for each two; how many have none.
    fn neighbours(&mut self, call: u8, seed: u64) -> u64 {
        let mut none = 0;
        for pair in numbers(call).windows(2) {
            let mut tries = (0..TRIES).map(|i| both(call, pair[0], pair[1], seed.wrapping_add(i)));
            match tries.find_map(|found| found) {
                Some(candidate) => drop(self.list(&candidate)),
                None => {
                    none += 1;
                    println!("{}: no list meets {pair:?}", name(call));
                }
            }
        }
        none
    }

    /// Hold one call as its list stands and in another order, and the sorted form of both; count its
    /// number. Gives the answer where it is accepted.
    fn list(&mut self, candidate: &Candidate) -> Option<Vec<u8>> {
        let other = candidate.shuffled(&mut self.rng);
        let answer = match answer(candidate.call, &candidate.list) {
            Ok(answer) => answer,
            Err(why) => {
                let fails = |list: &[u8]| self::answer(candidate.call, list).is_err();
                self.report(&why, || smallest(&candidate.list, fails));
                return None;
            }
        };
        self.orders += 1;
        if candidate.call != SORT {
            self.answered += u64::from(answer.number == 0);
            self.not_given += u64::from(matches!(answer.number, 2 | 22));
            let differs = answer.number == 0 && root_differs(&candidate.list);
            self.but_for_root += u64::from(differs);
        }
        let mut number = None;
        for (c, order) in [(candidate, "as it stands"), (&other, "in another order")] {
            match hold(c, &answer) {
                Ok(held) => number = Some(held),
                Err(why) => self.report(&format!("{}, {order}: {why}", name(c.call)), || {
                    smallest(&c.list, |list| fails(&with(c, list)))
                }),
            }
        }
        let number = number?;
        *self.met.entry((candidate.call, number)).or_default() += 1;
        (number == 0).then_some(answer.bytes)
    }

    /// Hold the edges of apply and `count` applies.
    fn applies(&mut self, count: u64, seed: u64) {
        for (_, volume, change) in apply_edges() {
            self.apply(&Applied {
                volume,
                change,
                room: Room::Exact,
            });
        }
        for i in 0..count {
            let wanted = [0, 2, 3, 22, 2, 21][(i % 6) as usize];
            self.apply(&applied(seed.wrapping_add(i), Size::nth(i / 6), wanted));
        }
    }

    /// Hold one apply as its volume stands and in another order, and count its number.
    fn apply(&mut self, applied: &Applied) {
        let other = applied.shuffled(&mut self.rng);
        self.orders += 1;
        match hold_apply(applied) {
            Ok(number) => *self.met.entry((APPLY, number)).or_default() += 1,
            Err(why) => self.report(&format!("apply: {why}"), || shown(applied)),
        }
        if let Err(why) = hold_apply(&other) {
            let why = format!("apply, its volume in another order: {why}");
            self.report(&why, || shown(&other));
        }
    }

    /// Hold the edges of generations, `count` volumes with buckets, and a fourth as many damaged ones.
    fn generations(&mut self, count: u64, seed: u64) {
        for (_, asked) in generation_edges() {
            self.asked(&asked);
        }
        for i in 0..count {
            self.asked(&asked::nth(i, seed));
        }
        let mut rng = Rng::new(seed);
        for i in 0..count / 4 {
            let asked = asked::nth(2 * i, !seed);
            self.asked(&Asked {
                volume: damage(&mut rng, &asked.volume),
                ..asked
            });
        }
    }

    /// Hold generations of 1,024 buckets in the volumes at the limits, and in those past them.
    fn generations_at_the_limits(&mut self, seed: u64) {
        let at = (PLACE..=DISCARD).flat_map(|call| (0..limits::LISTS).map(move |i| (call, i)));
        let at = at.map(|(call, index)| {
            let (list, what) = limits::list(seed, call, index);
            (list.volume().bytes(), what)
        });
        let past = (0..past_limits::LISTS).map(|index| past_limits::volume(seed, DISCARD, index));
        for (volume, what) in at.chain(past) {
            let asked = Asked {
                volume,
                buckets: (0..TOGETHER as u32).map(|i| i * 64 + i % 64).collect(),
                room: Room::Over(9),
            };
            self.named(what, |counts| counts.asked(&asked));
        }
    }

    /// Hold generations in a volume as it stands and in another order, and count their number.
    fn asked(&mut self, asked: &Asked) {
        let other = asked.shuffled(&mut self.rng);
        let due = match rust_generations::due(&asked.volume, &asked.buckets) {
            Ok(due) => due,
            Err(why) => {
                let fails = |a: &Asked| rust_generations::due(&a.volume, &a.buckets).is_err();
                return self.report(&why, || shown_asked(asked, fails));
            }
        };
        self.orders += 1;
        self.looked_up += due.bytes.len() as u64;
        self.left_out += u64::from(due.number != 0);
        for (a, order) in [(asked, "as it stands"), (&other, "in another order")] {
            if let Err(why) = hold_generations(a, &due) {
                let why = format!("generations, the volume {order}: {why}");
                self.report(&why, || shown_asked(a, fails_generations));
                return;
            }
        }
        let number = match due.number {
            0 if asked.out() < asked.buckets.len() => 21,
            number => number,
        };
        *self.met.entry((GENERATIONS, number)).or_default() += 1;
    }

    /// Hold the generations of a history's offered buckets in the volume reached.
    fn offered(&mut self, history: &History) {
        let offered: Vec<u32> = history.offered().iter().map(|&b| b as u32).collect();
        for buckets in offered.chunks(TOGETHER) {
            self.asked(&Asked {
                volume: history.volume().bytes(),
                buckets: buckets.to_vec(),
                room: Room::Exact,
            });
        }
    }

    /// Hold histories, each step's apply with them, and demand 3 after each step.
    fn histories(&mut self, histories: u64, seed: u64) {
        let mut sum = Tally::default();
        for i in 0..histories {
            let mut history = History::new(seed.wrapping_add(i));
            let steps = if i % 10 == 0 { 400 } else { 60 };
            for _ in 0..steps {
                let made = history
                    .step(&mut |call, list| self.list(&lent(call, list.to_vec(), Room::Over(9))));
                if let Err(why) = made {
                    self.report(&why, || format!("history {i}"));
                    break;
                }
                self.offered(&history);
            }
            sum.add(&history.tally);
        }
        println!("{histories} histories: {sum:?}");
    }

    /// Count a disagreement, and show the first ones.
    fn report(&mut self, why: &str, what: impl FnOnce() -> String) {
        self.wrong += 1;
        if self.wrong <= SHOWN {
            println!("{why}\n  {}", what());
        }
    }

    /// Print how often each number was met; how many were met too seldom.
    fn print(&self) -> u64 {
        let mut seldom = 0;
        for (call, name) in NAMES {
            let met = |number: u32| self.met.get(&(call, number)).copied().unwrap_or(0);
            let all: u64 = self
                .met
                .range((call, 0)..=(call, u32::MAX))
                .map(|(_, n)| n)
                .sum();
            println!("{name}: {all} held");
            for &number in [0].iter().chain(numbers(call)) {
                let few = met(number) < LEAST;
                seldom += u64::from(few);
                let note = if few { ", too seldom" } else { "" };
                println!("  {number}: {}{note}", met(number));
            }
        }
        seldom
    }
}

/// A call's name.
fn name(call: u8) -> &'static str {
    let found = NAMES.iter().find(|(of, _)| *of == call);
    found.map_or("no call", |(_, name)| name)
}

/// The call that a list names: any where it is to be sorted.
fn named(call: u8, seed: u64) -> u8 {
    match call {
        SORT => (seed % 3) as u8 + 1,
        call => call,
    }
}

/// The edges of a call; those of sort are what lists of each call have in common.
fn edges_of(call: u8) -> Vec<Vec<u8>> {
    let edges = match call {
        SORT => (PLACE..=DISCARD)
            .flat_map(|call| list_edges(&base(call)))
            .collect(),
        call => edges(call),
    };
    edges.into_iter().map(|(_, list)| list).collect()
}

/// What is due for a list in an output and a scratch that are long enough.
struct Answer {
    number: u32,
    bytes: Vec<u8>,
}

/// The model's number, and the bytes where it is 0: the Rust's of a call, the model's of sort.
fn answer(call: u8, list: &[u8]) -> Result<Answer, String> {
    let number = verdict(call, list, SUMS, usize::MAX);
    let bytes = match (number, call) {
        (0, SORT) => sort(list, usize::MAX).1,
        (0, _) => rust_answer(list)?,
        _ => Vec::new(),
    };
    Ok(Answer { number, bytes })
}

/// The Rust's answer to a list that the model accepts, with the LRU root where its rule differs; it is
/// given the list in order.
fn rust_answer(list: &[u8]) -> Result<Vec<u8>, String> {
    let list = sort(list, usize::MAX).1;
    let outcome = run(&list);
    if let Some(why) = disagreement(&list, &outcome) {
        return Err(why);
    }
    accepted(&list, &outcome).ok_or_else(|| format!("the Rust gives {outcome:?}"))
}

/// Whether a call is held to its own answer in vain.
fn fails(c: &Candidate) -> bool {
    answer(c.call, &c.list).is_ok_and(|answer| hold(c, &answer).is_err())
}

/// Hold a call in its own scratch and output and, where the list is accepted, in outputs of every kind;
/// its answer goes through apply, and its list through sort. Gives its number.
fn hold(c: &Candidate, answer: &Answer) -> Result<u32, String> {
    let out = c.room.length(answer.bytes.len());
    let number = verdict(c.call, &c.list, c.scratch, out);
    let due = match number {
        0 => Due::accepted(&answer.bytes),
        _ => Due::refused(number),
    };
    if verdict(c.call, &c.list, SUMS, usize::MAX) != answer.number {
        return Err("the model gives another number".into());
    }
    ARCHIVE.hold(c.call, &c.list, c.scratch, out, due)?;
    if answer.number == 0 {
        ARCHIVE.hold_rooms(c.call, &c.list, &answer.bytes)?;
    }
    hold_sort(&c.list).map_err(|why| format!("its sorted form: {why}"))?;
    if answer.number == 0 && c.call != SORT {
        let applied = hold_apply(&Applied {
            volume: without_requests(&c.list),
            change: answer.bytes.clone(),
            room: Room::Exact,
        });
        applied.map_err(|why| format!("its apply: {why}"))?;
    }
    Ok(number)
}

/// Hold a list's sort to the model's, and the sorted form to being its own, with the fields of the list,
/// each as often.
fn hold_sort(list: &[u8]) -> Result<(), String> {
    let (number, sorted) = sort(list, usize::MAX);
    if number != 0 {
        return ARCHIVE.hold(SORT, list, 0, list.len(), Due::refused(number));
    }
    let due = Due::accepted(&sorted);
    ARCHIVE.hold(SORT, list, 0, sorted.len() + 9, due)?;
    let again = ARCHIVE.hold(SORT, &sorted, 0, sorted.len(), due);
    again.map_err(|why| format!("sorted again: {why}"))?;
    if fields(list) != fields(&sorted) {
        return Err("the sorted form has other fields".into());
    }
    Ok(())
}

/// The fields of a list, those of one tag and one body side by side.
fn fields(list: &[u8]) -> Vec<(u8, &[u8])> {
    let fields = split(list).unwrap_or_default();
    let mut fields: Vec<_> = fields.iter().map(|f| (f.tag, f.body)).collect();
    fields.sort_unstable();
    fields
}

/// Hold an apply in its own output and, where it is accepted, in outputs of every kind.
fn hold_apply(a: &Applied) -> Result<u32, String> {
    let (refused, next) = apply(&a.volume, &a.change, usize::MAX);
    let out = a.room.length(next.len());
    let (number, due) = match refused {
        0 if out < next.len() => (21, Due::refused(21)),
        0 => (0, Due::accepted(&next)),
        _ => (refused, Due::refused(refused)),
    };
    ARCHIVE.hold_apply(&a.volume, &a.change, out, due)?;
    if refused == 0 {
        ARCHIVE.hold_apply_rooms(&a.volume, &a.change, &next)?;
    }
    Ok(number)
}

/// Hold generations to what is due in their own output and, where they are accepted, in outputs of every
/// kind.
fn hold_generations(a: &Asked, due: &Generations) -> Result<(), String> {
    if generations(&a.volume, &a.buckets, usize::MAX) != *due {
        return Err("the model gives another answer".into());
    }
    let short = due.number == 0 && a.out() < due.bytes.len();
    let refused = Generations::refused(21);
    let in_own = if short { &refused } else { due };
    ARCHIVE.hold_generations(&a.volume, &a.buckets, a.out(), in_own)?;
    if due.number == 0 {
        ARCHIVE.hold_generations_rooms(&a.volume, &a.buckets, due)?;
    }
    Ok(())
}

/// Whether generations are held to the model's in vain.
fn fails_generations(a: &Asked) -> bool {
    hold_generations(a, &generations(&a.volume, &a.buckets, usize::MAX)).is_err()
}

/// The smallest volume and buckets found that fail; of a long volume its length.
fn shown_asked(asked: &Asked, fails: impl Fn(&Asked) -> bool) -> String {
    match asked.volume.len() {
        0..=LONG => {
            let small = rust_generations::smallest(asked, fails);
            format!("{} {:?}", hex(&small.volume), small.buckets)
        }
        long => format!("a volume of {long} bytes, {} buckets", asked.buckets.len()),
    }
}

/// The bytes of an apply, or how long they are where they are many.
fn shown(a: &Applied) -> String {
    let bytes = |list: &[u8]| match list.len() {
        0..=LONG => hex(list),
        long => format!("{long} bytes"),
    };
    format!("{} {}", bytes(&a.volume), bytes(&a.change))
}

/// The smallest list found that fails; of a long one its length.
fn smallest(list: &[u8], fails: impl Fn(&[u8]) -> bool) -> String {
    match list.len() {
        0..=LONG => hex(&shrink(list, fails)),
        long => format!("a list of {long} bytes"),
    }
}

/// A call with a scratch as long as it is asked.
fn lent(call: u8, list: Vec<u8>, room: Room) -> Candidate {
    Candidate {
        call,
        list,
        scratch: if call == RELEASE { SUMS } else { 0 },
        room,
    }
}

/// A list that is refused by `later`, and once `first` is spoilt too by `first`, if this seed gives one.
fn both(call: u8, first: u32, later: u32, seed: u64) -> Option<Candidate> {
    let mut rng = Rng::new(seed);
    let mut l = generate::list(&mut rng, named(call, seed), Size::Small);
    spoil(&mut rng, &mut l, later);
    let mut list = l.bytes();
    match later {
        2 => list = damage(&mut rng, &list),
        22 => list = doubled(&mut rng, &list),
        _ => (),
    }
    let out = if later == 21 { 0 } else { usize::MAX };
    if verdict(call, &list, SUMS, out) != later {
        return None;
    }
    spoil(&mut rng, &mut l, first);
    match first {
        1 => (),
        2 => list = damage(&mut rng, &list),
        22 => list = doubled(&mut rng, &list),
        _ => list = l.bytes(),
    }
    let scratch = if first == 1 { 0 } else { SUMS };
    (verdict(call, &list, scratch, out) == first).then(|| Candidate {
        scratch,
        ..lent(call, list, Room::Under(usize::MAX))
    })
}

/// A candidate with another list.
fn with(candidate: &Candidate, list: &[u8]) -> Candidate {
    Candidate {
        list: list.to_vec(),
        ..candidate.clone()
    }
}
