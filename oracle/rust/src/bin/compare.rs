//! compare N [SEED]: N lists for each call through the Rust's function and the model, N / 8 placements on
//! which the Rust's rule for the LRU root differs, N volumes with buckets whose generations are looked up,
//! and N / 20 histories of 60 steps. Each list is put in another order too, where the model must give the
//! same number and the same sorted form, which is what the Rust is given, and a volume the same
//! generations. Prints counts and each disagreement with the smallest list found.

use lists::asked::{self, Asked};
use lists::call_list::{CallList, PLACE};
use lists::candidate::{nth, nth_whole_in_all};
use lists::edges::edges;
use lists::generation_edges::generation_edges;
use lists::generations::{generations, Generations};
use lists::history::{History, Tally};
use lists::order::shuffled;
use lists::rng::Rng;
use lists::vectors::hex;
use oracle::compare::{
    accepted, disagreement, disagrees, left_out, number, number_of, root_differs, shrink,
    told_apart,
};
use oracle::generations::{due, smallest};
use oracle::{run, Outcome};
use std::collections::BTreeMap;
use std::process::ExitCode;

/// Lists by call, model's number and what the Rust did.
type Counts = BTreeMap<(u8, u32, String), u64>;

/// The seed where none is given.
const SEED: u64 = 20_261_114;

fn main() -> ExitCode {
    oracle::quiet_panics();
    let mut args = std::env::args().skip(1).map(|a| a.parse::<u64>());
    let lists = match args.next() {
        Some(Ok(n)) => n,
        _ => {
            eprintln!("compare N [SEED]");
            return ExitCode::FAILURE;
        }
    };
    let seed = args.next().and_then(Result::ok).unwrap_or(SEED);
    let mut wrong = 0;
    let mut counts = Counts::new();
    for call in 1..=3 {
        wrong += compare_lists(call, lists, seed, &mut counts);
    }
    print_counts(&counts);
    wrong += compare_generations(lists, seed);
    wrong += compare_histories(lists / 20, seed);
    println!("disagreements: {wrong}");
    ExitCode::from(u8::from(wrong > 0))
}

/// Compare the lists of one call, its edges first; the number of disagreements.
fn compare_lists(call: u8, lists: u64, seed: u64, counts: &mut Counts) -> u64 {
    let mut wrong = 0;
    let mut rng = Rng::new(seed);
    let edges = edges(call).into_iter().map(|(_, list)| list);
    let lists_of_call = (0..lists).map(|i| nth(call, i, seed).list);
    let whole = if call == PLACE { lists / 8 } else { 0 };
    let whole = (0..whole).map(|i| nth_whole_in_all(i, seed).list);
    for list in edges.chain(lists_of_call).chain(whole) {
        let outcome = run(&list);
        let what = match &outcome {
            Outcome::Accepted(_) if root_differs(&list) => "accepted, but for the LRU root".into(),
            Outcome::Accepted(_) => "accepted".to_string(),
            Outcome::Refused(text) => format!("refused as {}", number_of(text).unwrap_or(0)),
            Outcome::Panicked => "panicked".to_string(),
            Outcome::Unreadable => "unreadable".to_string(),
        };
        // A damaged list that is still read is counted under the call that it names.
        let named = CallList::read(&list).map_or(call, |l| l.head.call);
        *counts.entry((named, number(&list), what)).or_default() += 1;
        if let Some(why) = disagreement(&list, &outcome) {
            wrong += 1;
            report(wrong, &why, &list);
        }
        let other = shuffled(&mut rng, &list);
        if let Some(why) = told_apart(&list, &other) {
            wrong += 1;
            println!("{why}\n  {}\n  {}", hex(&list), hex(&other));
        }
    }
    wrong
}

/// Print a disagreement and the smallest list found for it, the first twenty of each part.
fn report(nth: u64, why: &str, list: &[u8]) {
    if nth > 20 {
        return;
    }
    let small = shrink(list, disagrees);
    println!("{why}\n  {}", hex(&small));
}

/// Print how many lists met which outcome.
fn print_counts(counts: &Counts) {
    println!("call number rust lists");
    let (mut compared, mut left) = (0, 0);
    for ((call, number, what), n) in counts {
        println!("{call} {number} {what}: {n}");
        if left_out(*number) {
            left += n;
        } else {
            compared += n;
        }
    }
    println!(
        "compared: {compared}, in as many other orders; left out, since refused 2, 3 or 22: {left}"
    );
}

/// Compare generations, those of the edges first; the number of disagreements.
fn compare_generations(lists: u64, seed: u64) -> u64 {
    let mut wrong = 0;
    let mut rng = Rng::new(seed);
    let mut counts: BTreeMap<u32, u64> = BTreeMap::new();
    let mut buckets = 0;
    let edges = generation_edges().into_iter().map(|(_, asked)| asked);
    for asked in edges.chain((0..lists).map(|i| asked::nth(i, seed))) {
        let other = asked.shuffled(&mut rng);
        match in_two_orders(&asked, &other) {
            Ok(answer) => {
                *counts.entry(answer.number).or_default() += 1;
                buckets += answer.bytes.len();
            }
            Err(why) => {
                wrong += 1;
                report_generations(wrong, &why, &asked);
            }
        }
    }
    print_generations(&counts, buckets);
    wrong
}

/// The answer of model and Rust, which is the model's in another order too.
fn in_two_orders(asked: &Asked, other: &Asked) -> Result<Generations, String> {
    let answer = due(&asked.volume, &asked.buckets)?;
    match generations(&other.volume, &other.buckets, usize::MAX) == answer {
        true => Ok(answer),
        false => Err("in another order the model gives another answer".into()),
    }
}

/// Print a disagreement on generations and the smallest volume and buckets found for it, the first twenty.
fn report_generations(nth: u64, why: &str, asked: &Asked) {
    if nth > 20 {
        return;
    }
    let small = smallest(asked, |asked| due(&asked.volume, &asked.buckets).is_err());
    println!("{why}\n  {} {:?}", hex(&small.volume), small.buckets);
}

/// Print how many volumes met which number, and how many generations were compared.
fn print_generations(counts: &BTreeMap<u32, u64>, buckets: usize) {
    for (number, n) in counts {
        println!("generations {number}: {n}");
    }
    let left: u64 = counts.range(1..).map(|(_, n)| n).sum();
    println!(
        "generations compared: {buckets}, of {} volumes, in as many other orders; left out, since refused 2, 3 or 22: {left}",
        counts.get(&0).unwrap_or(&0)
    );
}

/// Run histories; the number of steps that disagree or break demand 3.
fn compare_histories(histories: u64, seed: u64) -> u64 {
    let mut wrong = 0;
    let mut sum = Tally::default();
    let mut root = 0;
    for i in 0..histories {
        let mut history = History::new(seed.wrapping_add(i));
        let steps = if i % 10 == 0 { 400 } else { 60 };
        for _ in 0..steps {
            let mut last = Vec::new();
            let made = history.step(&mut |_, list| {
                last = list.to_vec();
                let outcome = run(list);
                if let Some(why) = disagreement(list, &outcome) {
                    wrong += 1;
                    report(wrong, &why, list);
                }
                root += u64::from(root_differs(list));
                // The added refusals refuse the step too.
                accepted(list, &outcome)
            });
            if let Err(why) = made {
                wrong += 1;
                report(wrong, &why, &last);
                break;
            }
        }
        sum.add(&history.tally);
    }
    println!("{histories} histories: {sum:?}; but for the LRU root: {root} steps");
    wrong
}
