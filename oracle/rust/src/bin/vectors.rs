//! vectors DIR: writes the files of `vectors/` to DIR, the Rust's answers among them, and prints
//! the counts by call and number.

use lists::asked::{asked, Asked};
use lists::call_list::{CallList, BUCKET_GENS, DISCARD, PLACE, RELEASE};
use lists::candidate::candidate;
use lists::cases::cases;
use lists::changes::{applied, at_the_limits};
use lists::edges::{apply_edges, base, edges, list_edges};
use lists::fields::split;
use lists::generate::Size;
use lists::generation_edges::{own_edges, volume_edges};
use lists::generations::{generations, Generations};
use lists::model::{verdict, SORT, SUMS};
use lists::order::shuffled;
use lists::order_edges::order_edges;
use lists::rng::Rng;
use lists::root_edges::root_edges;
use lists::sort::sort;
use lists::spoil::numbers;
use lists::vectors::{ApplyLimitVector, ApplyVector, GenerationsVector, Held, LimitVector, Vector};
use lists::{apply::apply, changes, limits};
use oracle::compare::{accepted, disagreement};
use oracle::generations::due;
use oracle::run;
use std::collections::{BTreeMap, BTreeSet};
use std::path::Path;

/// The seed of the stored vectors.
const SEED: u64 = 1;
/// The calls with their files.
const CALLS: [(u8, &str); 4] = [
    (PLACE, "place"),
    (RELEASE, "release"),
    (DISCARD, "discard"),
    (SORT, "sort"),
];

/// A list by name.
type Edge = (String, Vec<u8>);

/// Features of the vectors chosen so far, and the lists among them.
#[derive(Default)]
struct Chosen {
    features: BTreeMap<String, u32>,
    lists: BTreeSet<Vec<u8>>,
}

fn main() {
    oracle::quiet_panics();
    let dir = std::env::args().nth(1).expect("vectors DIR");
    let dir = Path::new(&dir);
    for (call, name) in CALLS {
        let vectors = match call {
            SORT => sort_vectors(),
            call => call_vectors(call, name),
        };
        let small = vectors
            .iter()
            .filter(|v| v.number == 0 && v.list.len() <= 400);
        println!(
            "{name}: {} vectors, {} accepted of at most 400 bytes",
            vectors.len(),
            small.count()
        );
        print_counts(vectors.iter().map(|v| v.number));
        let lines: Vec<String> = vectors.iter().map(Vector::to_string).collect();
        write(
            dir,
            &format!("{name}.txt"),
            "id scratch out number list answer",
            &lines,
        );
    }
    let applies = apply_vectors();
    println!("apply: {} vectors", applies.len());
    print_counts(applies.iter().map(|v| v.number));
    let lines: Vec<String> = applies.iter().map(ApplyVector::to_string).collect();
    write(dir, "apply.txt", "id out number volume change next", &lines);
    write_generations(dir);
    write_limits(dir);
}

/// Write a file: a comment with the names of its words, then its lines.
fn write(dir: &Path, name: &str, words: &str, lines: &[String]) {
    let text = format!("# {words}\n{}\n", lines.join("\n"));
    std::fs::write(dir.join(name), text).expect("the file is written");
}

/// Print how many vectors have each number.
fn print_counts(numbers: impl Iterator<Item = u32>) {
    let mut counts: BTreeMap<u32, u32> = BTreeMap::new();
    for n in numbers {
        *counts.entry(n).or_default() += 1;
    }
    println!("  {counts:?}");
}

/// The vectors of one call: the worked cases, accepted lists by size, refused ones by number; then the
/// edges of the order, lists in which something stands twice, and lists in another order; last the edges
/// of a placement's LRU root.
fn call_vectors(call: u8, name: &str) -> Vec<Vector> {
    let mut chosen = Chosen::default();
    let mut vectors = Vec::new();
    for (case, list) in cases().into_iter().filter(|(_, l)| l.head.call == call) {
        let v = vector(call, list.bytes(), SUMS, |answer| answer);
        vectors.push(named(v, case.to_string()));
    }
    let mut before = edges(call);
    let root = match call {
        PLACE => before.split_off(before.len() - root_edges(&base(call)).len()),
        _ => Vec::new(),
    };
    let order = before.split_off(before.len() - order_edges(&base(call)).len());
    add_edges(&mut vectors, &mut chosen, call, before);
    let accepted = [(Size::Small, 60), (Size::Medium, 24), (Size::Large, 3)];
    for (size, count) in accepted {
        add(&mut vectors, &mut chosen, name, (call, size, 0), count);
    }
    let each = if call == DISCARD { 12 } else { 5 };
    for (size, count) in [(Size::Small, each), (Size::Medium, 1)] {
        for &number in numbers(call).iter().filter(|&&number| number != 22) {
            add(&mut vectors, &mut chosen, name, (call, size, number), count);
        }
    }
    add_edges(&mut vectors, &mut chosen, call, order);
    for (size, count) in [(Size::Small, 12), (Size::Medium, 3)] {
        add(&mut vectors, &mut chosen, name, (call, size, 22), count);
    }
    let mixed = in_another_order(&vectors, call, name);
    vectors.extend(mixed);
    add_edges(&mut vectors, &mut chosen, call, root);
    vectors
}

/// The vectors of sort: the edges that lists of every call have, and lists by number.
fn sort_vectors() -> Vec<Vector> {
    let mut chosen = Chosen::default();
    let mut vectors = Vec::new();
    for (call, name) in [(PLACE, "place"), (RELEASE, "release"), (DISCARD, "discard")] {
        let edges = match call {
            RELEASE => list_edges(&base(call)),
            _ => order_edges(&base(call)),
        };
        let named = |(edge, list)| (format!("{name} {edge}"), list);
        let edges = edges.into_iter().map(named).collect();
        add_edges(&mut vectors, &mut chosen, SORT, edges);
    }
    let wanted = [
        (Size::Small, 0, 40),
        (Size::Medium, 0, 12),
        (Size::Large, 0, 2),
        (Size::Small, 2, 15),
        (Size::Small, 22, 15),
        (Size::Small, 3, 15),
        (Size::Small, 21, 8),
        (Size::Medium, 2, 2),
        (Size::Medium, 22, 4),
        (Size::Medium, 3, 2),
    ];
    for (size, number, count) in wanted {
        add(
            &mut vectors,
            &mut chosen,
            "sort",
            (SORT, size, number),
            count,
        );
    }
    vectors
}

/// Add the vectors of edges, each under its name.
fn add_edges(vectors: &mut Vec<Vector>, chosen: &mut Chosen, call: u8, edges: Vec<Edge>) {
    for (edge, list) in edges {
        let v = vector(call, list, SUMS, |answer| answer);
        chosen.lists.insert(v.list.clone());
        vectors.push(named(v, format!("edge-{}", slug(&edge))));
    }
}

/// Stored lists in another order, with their own answers: short accepted ones, some longer ones, and one
/// of each number whose test comes after the layout.
fn in_another_order(vectors: &[Vector], call: u8, name: &str) -> Vec<Vector> {
    let mut rng = Rng::new(SEED ^ u64::from(call) << 8);
    let chosen = |v: &&Vector| !v.id.starts_with("edge") && split(&v.list).is_some();
    let accepted = || vectors.iter().filter(chosen).filter(|v| v.number == 0);
    let short = accepted().filter(|v| v.list.len() <= 400).take(30);
    let longer = accepted().filter(|v| v.list.len() > 400).take(10);
    let refused = numbers(call).iter().filter(|&&number| number > 2);
    let refused = refused.filter_map(|&n| vectors.iter().filter(chosen).find(|v| v.number == n));
    let mut mixed = Vec::new();
    for v in short.chain(longer).chain(refused) {
        let other = (0..9).map(|_| shuffled(&mut rng, &v.list));
        let Some(list) = other.into_iter().find(|list| *list != v.list) else {
            continue;
        };
        let other = vector(call, list, v.scratch, |_| v.out);
        assert_eq!(
            (other.number, &other.answer),
            (v.number, &v.answer),
            "{}",
            v.id
        );
        let at = vectors.len() + mixed.len();
        mixed.push(named(
            other,
            format!("{name}-order-{:02}-{at:03}", v.number),
        ));
    }
    mixed
}

/// A name of letters, digits and hyphens.
fn slug(name: &str) -> String {
    let kept = |c: &char| c.is_ascii_alphanumeric() || *c == ' ' || *c == '-';
    name.chars()
        .filter(kept)
        .collect::<String>()
        .replace(' ', "-")
}

/// A vector with its name.
fn named(v: Vector, id: String) -> Vector {
    Vector { id, ..v }
}

/// Add `count` vectors that answer the number asked, first those with features not seen often.
fn add(
    vectors: &mut Vec<Vector>,
    chosen: &mut Chosen,
    name: &str,
    (call, size, number): (u8, Size, u32),
    count: usize,
) {
    let tries = if size == Size::Large { 40 } else { 3_000 };
    let mut spare = Vec::new();
    let mut left = count;
    for i in 0..tries {
        let c = candidate(SEED + i, call, size, number);
        if left == 0 {
            return;
        }
        if c.list.len() > 20_000 || chosen.lists.contains(&c.list) {
            continue;
        }
        let v = vector(call, c.list, c.scratch, |answer| c.room.length(answer));
        if v.number != number || (size == Size::Small && number == 0 && v.list.len() > 400) {
            continue;
        }
        if chosen.take(&v) {
            push(vectors, name, number, v);
            left -= 1;
        } else {
            spare.push(v);
        }
    }
    for v in spare.into_iter().take(left) {
        chosen.lists.insert(v.list.clone());
        push(vectors, name, number, v);
    }
}

/// Add a vector under the next name.
fn push(vectors: &mut Vec<Vector>, name: &str, number: u32, v: Vector) {
    let id = format!("{name}-{number:02}-{:03}", vectors.len());
    vectors.push(named(v, id));
}

/// The vector of a list: the model's number, and where it is 0 the Rust's answer, or the model's sorted
/// form.
fn vector(call: u8, list: Vec<u8>, scratch: usize, out: impl Fn(usize) -> usize) -> Vector {
    let scratch = if call == RELEASE { scratch } else { 0 };
    let outcome = run(&list);
    let unlimited = verdict(call, &list, scratch, usize::MAX);
    if let Some(why) = disagreement(&list, &outcome) {
        panic!("{why}");
    }
    let answer = match outcome {
        _ if call == SORT => sort(&list, usize::MAX).1,
        outcome if unlimited == 0 => accepted(&list, &outcome).unwrap_or_default(),
        _ => Vec::new(),
    };
    let out = match unlimited {
        0 => out(answer.len()),
        _ => 65_536,
    };
    let number = verdict(call, &list, scratch, out);
    Vector {
        id: String::new(),
        scratch,
        out,
        number,
        list,
        answer: if number == 0 { answer } else { Vec::new() },
    }
}

impl Chosen {
    /// Whether a vector has a feature seen fewer than three times; then it counts as chosen.
    fn take(&mut self, v: &Vector) -> bool {
        let features = features(v);
        let seen = |f: &String| self.features.get(f).copied().unwrap_or(0);
        if !features.iter().any(|f| seen(f) < 3) {
            return false;
        }
        for f in features {
            *self.features.entry(f).or_default() += 1;
        }
        self.lists.insert(v.list.clone());
        true
    }
}

/// What a vector's bytes show: fields and key types by count, and choices of tag 1 and requests.
fn features(v: &Vector) -> BTreeSet<String> {
    let mut counts: BTreeMap<String, u32> = BTreeMap::new();
    for (what, bytes) in [("list", &v.list), ("answer", &v.answer)] {
        for f in split(bytes).unwrap_or_default() {
            *counts.entry(format!("{what} {}", f.tag)).or_default() += 1;
            if f.tag < 64 && f.tag != 1 {
                let key_type = f.body.first().copied().unwrap_or(0);
                let key = format!("{what} {} type {key_type}", f.tag);
                *counts.entry(key).or_default() += 1;
            }
        }
    }
    let mut features: BTreeSet<String> = counts
        .iter()
        .map(|(f, n)| format!("{} {f} {}", v.number, n.min(&3)))
        .collect();
    if let Some(l) = CallList::read(&v.list) {
        let h = &l.head;
        features.insert(format!(
            "{} option {} roots {}",
            v.number, h.checksum, h.roots
        ));
        features.insert(format!(
            "{} bucket {} block {}",
            v.number, h.bucket, h.block
        ));
        for p in &l.places {
            features.insert(format!(
                "{} kind {} option {}",
                v.number, p.kind, h.checksum
            ));
        }
    }
    features
}

/// The applies: edges, changes that the Rust made, and random ones; then the edges of the order, volumes
/// in which something stands twice, and volumes in another order.
fn apply_vectors() -> Vec<ApplyVector> {
    let mut vectors = Vec::new();
    let mut before = apply_edges();
    let first = before
        .iter()
        .position(|(edge, _, _)| edge == "volume fields reversed");
    let order = before.split_off(first.expect("an edge of the order"));
    add_apply_edges(&mut vectors, before);
    for i in 0..60 {
        let call = (i % 3) as u8 + 1;
        let c = candidate(SEED + 5_000 + i, call, Size::Small, 0);
        let change = accepted(&c.list, &run(&c.list));
        if let (Some(l), Some(change)) = (CallList::read(&c.list), change) {
            let volume = l.volume().bytes();
            vectors.push(apply_vector(vectors.len(), volume, change, usize::MAX));
        }
    }
    let wanted = [
        (0, Size::Small, 40),
        (0, Size::Medium, 15),
        (2, Size::Small, 30),
        (3, Size::Small, 20),
        (21, Size::Small, 12),
    ];
    add_applies(&mut vectors, &wanted);
    add_apply_edges(&mut vectors, order);
    add_applies(
        &mut vectors,
        &[(22, Size::Small, 20), (22, Size::Medium, 4)],
    );
    let mixed = applies_in_another_order(&vectors);
    vectors.extend(mixed);
    vectors
}

/// Add the vectors of apply's edges, each under its name.
fn add_apply_edges(vectors: &mut Vec<ApplyVector>, edges: Vec<(String, Vec<u8>, Vec<u8>)>) {
    for (edge, volume, change) in edges {
        let v = apply_vector(vectors.len(), volume, change, usize::MAX);
        let id = format!("edge-{}", slug(&edge));
        vectors.push(ApplyVector { id, ..v });
    }
}

/// Add random applies by number and size.
fn add_applies(vectors: &mut Vec<ApplyVector>, wanted: &[(u32, Size, u64)]) {
    for &(number, size, count) in wanted {
        let mut left = count;
        for i in 0..2_000 {
            if left == 0 {
                break;
            }
            let a = applied(SEED + i, size, number);
            let next = apply(&a.volume, &a.change, usize::MAX).1.len();
            let v = apply_vector(vectors.len(), a.volume, a.change, a.room.length(next));
            if v.number == number {
                vectors.push(v);
                left -= 1;
            }
        }
    }
}

/// Stored applies with their volumes in another order, and their own answers.
fn applies_in_another_order(vectors: &[ApplyVector]) -> Vec<ApplyVector> {
    let mut rng = Rng::new(SEED ^ 4 << 8);
    let of = |number: u32, count: usize| {
        let whole = |v: &&ApplyVector| split(&v.volume).is_some();
        let random = vectors.iter().filter(|v| !v.id.starts_with("edge"));
        random
            .filter(move |v| v.number == number)
            .filter(whole)
            .take(count)
    };
    let mut mixed = Vec::new();
    for v in of(0, 60)
        .step_by(2)
        .chain(of(22, 3))
        .chain(of(3, 4))
        .chain(of(21, 3))
    {
        let other = (0..9).map(|_| shuffled(&mut rng, &v.volume));
        let Some(volume) = other.into_iter().find(|volume| *volume != v.volume) else {
            continue;
        };
        let other = apply_vector(0, volume, v.change.clone(), v.out);
        assert_eq!((other.number, &other.next), (v.number, &v.next), "{}", v.id);
        let at = vectors.len() + mixed.len();
        let id = format!("apply-order-{:02}-{at:03}", v.number);
        mixed.push(ApplyVector { id, ..other });
    }
    mixed
}

/// The vector of an apply; an output of unstated length is as long as the next volume.
fn apply_vector(at: usize, volume: Vec<u8>, change: Vec<u8>, out: usize) -> ApplyVector {
    let out = match out {
        usize::MAX => apply(&volume, &change, usize::MAX).1.len(),
        out => out,
    };
    let (number, next) = apply(&volume, &change, out);
    ApplyVector {
        id: format!("apply-{number:02}-{at:03}"),
        out,
        number,
        volume,
        change,
        next,
    }
}

/// Write generations.txt.
fn write_generations(dir: &Path) {
    let vectors = generations_vectors();
    let accepted = || vectors.iter().filter(|v| v.answer.number == 0);
    println!(
        "generations: {} vectors, {} accepted of at most 400 bytes",
        vectors.len(),
        accepted().filter(|v| v.volume.len() <= 400).count()
    );
    print_counts(vectors.iter().map(|v| v.answer.number));
    let lines: Vec<String> = vectors.iter().map(GenerationsVector::to_string).collect();
    let words = "id out number visited volume buckets answer";
    write(dir, "generations.txt", words, &lines);
}

/// The generations: edges, of those of a volume every second, then volumes with buckets by size and
/// number, and volumes in another order.
fn generations_vectors() -> Vec<GenerationsVector> {
    let mut vectors = Vec::new();
    let of_volumes = volume_edges().into_iter().step_by(2);
    for (edge, asked) in own_edges().into_iter().chain(of_volumes) {
        let id = format!("edge-generations-{}", slug(&edge));
        vectors.push(generations_vector(id, asked));
    }
    let wanted = [
        (Size::Small, 0, 50),
        (Size::Medium, 0, 8),
        (Size::Large, 0, 2),
        (Size::Small, 2, 12),
        (Size::Small, 22, 8),
        (Size::Small, 3, 12),
        (Size::Small, 21, 12),
        (Size::Medium, 22, 2),
        (Size::Medium, 3, 2),
        (Size::Medium, 21, 2),
    ];
    let mut features = BTreeMap::new();
    for (size, number, count) in wanted {
        add_generations(&mut vectors, &mut features, (size, number), count);
    }
    let mixed = generations_in_another_order(&vectors);
    vectors.extend(mixed);
    vectors
}

/// The vector of a volume and buckets: the answer of model and Rust.
fn generations_vector(id: String, asked: Asked) -> GenerationsVector {
    let out = asked.out();
    let answer = match due(&asked.volume, &asked.buckets) {
        Ok(_) => generations(&asked.volume, &asked.buckets, out),
        Err(why) => panic!("{id}: {why}"),
    };
    GenerationsVector {
        id,
        out,
        volume: asked.volume,
        buckets: asked.buckets,
        answer,
    }
}

/// Add vectors that answer the number asked and have a feature that was not seen often.
fn add_generations(
    vectors: &mut Vec<GenerationsVector>,
    features: &mut BTreeMap<String, u32>,
    (size, number): (Size, u32),
    count: usize,
) {
    let mut left = count;
    for i in 0..3_000 {
        if left == 0 {
            return;
        }
        let id = format!("generations-{number:02}-{:03}", vectors.len());
        let v = generations_vector(id, asked(SEED + i, size, number));
        let fits = v.answer.number == number && v.volume.len() <= 20_000;
        if !fits || !seldom(features, &v) {
            continue;
        }
        vectors.push(v);
        left -= 1;
    }
}

/// Whether a vector has a feature seen fewer than four times; then its features count as seen.
fn seldom(features: &mut BTreeMap<String, u32>, v: &GenerationsVector) -> bool {
    let shown = generations_features(v);
    let seen = |f: &String| features.get(f).copied().unwrap_or(0);
    if !shown.iter().any(|f| seen(f) < 4) {
        return false;
    }
    for f in shown {
        *features.entry(f).or_default() += 1;
    }
    true
}

/// What a vector shows: how many keys and buckets there are, keys visited, generations told, key types.
fn generations_features(v: &GenerationsVector) -> BTreeSet<String> {
    let Generations {
        number,
        bytes,
        visited,
    } = &v.answer;
    let told = bytes.iter().filter(|&&b| b != 0).count();
    let mut features = BTreeSet::from([
        format!("{number} buckets {}", v.buckets.len().min(9)),
        format!("{number} told {} of {}", told.min(5), bytes.len().min(5)),
    ]);
    if let Some(volume) = CallList::read(&v.volume) {
        let keys = volume.keys(BUCKET_GENS);
        let (all, visited) = (keys.len().min(6), visited.min(&6));
        features.insert(format!("{number} visited {visited} of {all}"));
        let types = keys.iter().map(|key| key.key_type);
        features.extend(types.map(|key_type| format!("{number} type {key_type}")));
    }
    features
}

/// Stored volumes of two generation keys or more in another order, with the same buckets and answers.
fn generations_in_another_order(vectors: &[GenerationsVector]) -> Vec<GenerationsVector> {
    let mut rng = Rng::new(SEED ^ 5 << 8);
    let keys = |v: &GenerationsVector| {
        let fields = split(&v.volume).unwrap_or_default();
        fields.iter().filter(|f| f.tag == BUCKET_GENS).count()
    };
    let of = |number: u32, count: usize| {
        let random = vectors.iter().filter(|v| !v.id.starts_with("edge"));
        random
            .filter(move |v| v.answer.number == number && keys(v) > 1)
            .take(count)
    };
    let mut mixed = Vec::new();
    for v in of(0, 24).chain(of(22, 2)).chain(of(3, 3)).chain(of(21, 3)) {
        let other = (0..9).map(|_| shuffled(&mut rng, &v.volume));
        let Some(volume) = other.into_iter().find(|volume| *volume != v.volume) else {
            continue;
        };
        let answer = generations(&volume, &v.buckets, v.out);
        assert_eq!(answer, v.answer, "{}", v.id);
        let at = vectors.len() + mixed.len();
        mixed.push(GenerationsVector {
            id: format!("generations-order-{:02}-{at:03}", answer.number),
            volume,
            ..v.clone()
        });
    }
    mixed
}

/// Write limits.txt and apply-limits.txt.
fn write_limits(dir: &Path) {
    let mut lines = Vec::new();
    for call in PLACE..=DISCARD {
        for index in 0..limits::LISTS {
            let (list, what) = limits::list(limits::SEED, call, index);
            let v = vector(call, list.bytes(), SUMS, |answer| answer);
            let line = LimitVector {
                call,
                index,
                number: v.number,
                list: Held::of(&v.list),
                answer: Held::of(&v.answer),
            };
            println!("limits {line} {what}");
            lines.push(line.to_string());
        }
    }
    let words = "call index number list-length list-digest answer-length answer-digest";
    write(dir, "limits.txt", words, &lines);
    let mut lines = Vec::new();
    for index in 0..changes::LIMITS {
        let (volume, change) = at_the_limits(limits::SEED, index);
        let (number, next) = apply(&volume, &change, usize::MAX);
        let line = ApplyLimitVector {
            index,
            number,
            volume: Held::of(&volume),
            change: Held::of(&change),
            next: Held::of(&next),
        };
        println!("apply limits {line}");
        lines.push(line.to_string());
    }
    let words = "index number volume-length volume-digest change-length change-digest next-length next-digest";
    write(dir, "apply-limits.txt", words, &lines);
}
