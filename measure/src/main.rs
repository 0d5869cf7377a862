//! Measures the gate on this machine, beside the second program and simdjson, and prints a table in Markdown. Each set is
//! judged by both programs first, and their boards are compared.
//!
//! measure [--time MILLISECONDS] [--seed N]

mod bar;
mod drawer;
mod odd;
mod time;

use std::process::exit;
use std::time::Duration;

use bar::Bar;
use knotsaddle::loops::show_in;
use knotsaddle::{judge, judge_in, make_in, reason_in, try_in, Board, Gate, WORKSPACE};
use odd::odd_sets;
use second::bench::chains::chains;
use second::bench::sets::{linked_set, long_id_set, scrambled, whole_set, LONG_IDS, SIZES, TASKS};
use second::compare::gate::sample::Set;
use second::loops::{is_loop, links_of, show_loop, Shown};
use second::table::MOST_RECORDS;
use time::{best, pass};

const SEED: u64 = 20_200_312;
const MILLISECONDS: u64 = 300;
const LARGEST: usize = 1_048_576;

fn main() {
    let (mut seed, mut milliseconds) = (SEED, MILLISECONDS);
    let mut words = std::env::args().skip(1);
    while let Some(word) = words.next() {
        let number = words.next().and_then(|word| word.parse().ok());
        match (word.as_str(), number) {
            ("--seed", Some(number)) => seed = number,
            ("--time", Some(number)) => milliseconds = number,
            _ => {
                eprintln!("measure: give --seed N or --time MILLISECONDS");
                exit(2);
            }
        }
    }
    let mut bench = Bench {
        span: Duration::from_millis(milliseconds),
        work: vec![0; WORKSPACE],
        out: vec![0; LARGEST],
    };
    println!("| Operation | Set | bytes | gate ms | grows | second ms | gate / second | simdjson ms | gate / simdjson |");
    println!("|---|---|---:|---:|---:|---:|---:|---:|---:|");
    bench.whole_sets(seed);
    bench.growing(
        "judge, no schedule data",
        &TASKS.map(|tasks| (format!("{tasks} tasks"), linked_set(tasks))),
    );
    for (tasks, length) in LONG_IDS {
        bench.growing(
            "judge, long IDs",
            &[(format!("{tasks} tasks, {length}-byte IDs"), long_id_set(tasks, length))],
        );
    }
    let plain = bench.by_byte(&whole_set(SIZES[2], seed));
    println!("\n| Odd set | bytes | gate ms | by bytes, to the plain set | second ms |");
    println!("|---|---:|---:|---:|---:|");
    for (name, set) in odd_sets() {
        bench.odd(name, &set, plain);
    }
    println!("\n| Change of Tasks | Set | bytes written | gate ms | second ms | gate / second |");
    println!("|---|---|---:|---:|---:|---:|");
    for size in SIZES {
        bench.drawers(&format!("plain, {} KB", size / 1000), &whole_set(size, seed));
    }
    println!("\n| 4,096 links | bytes | read ms | show ms | show / read | second ms | show / second |");
    println!("|---|---:|---:|---:|---:|---:|---:|");
    for (name, set) in chains(seed) {
        bench.chain(&name, &set);
    }
}

struct Bench {
    span: Duration,
    work: Vec<u32>,
    out: Vec<u8>,
}

/// A change of one letter or digit in a file.
struct Step {
    name: &'static str,
    file: usize,
    behind: &'static str,
}

const STEPS: [Step; 3] = [
    Step { name: "try Tasks", file: 9, behind: "\"Name\":\"" },
    Step { name: "try TaskRelationships", file: 14, behind: "\"LagDuration\":" },
    Step { name: "try Resources", file: 16, behind: "\"Name\":\"" },
];

impl Bench {
    /// Whole sets, plain and scrambled: reading, judging, trying, making.
    fn whole_sets(&mut self, seed: u64) {
        let plain = SIZES.map(|size| (format!("plain, {} KB", size / 1000), whole_set(size, seed)));
        // escapes make a set longer
        let mixed = SIZES.map(|size| {
            (
                format!("escapes, {} KB", size / 1000),
                scrambled(&whole_set(size / 100 * 94, seed), seed),
            )
        });
        for sets in [&plain, &mixed] {
            self.rows("pass over the memory", sets, |_, bundle, _| {
                Times { gate: 0.0, second: None, bar: None }.with_pass(bundle)
            });
            self.rows("read the files", sets, |bench, bundle, set| Times {
                gate: bench.time_reading(bundle),
                second: None,
                bar: bench.time_bar(set),
            });
            self.growing("judge", sets);
            self.rows("judge, owning", sets, |bench, bundle, set| Times {
                gate: best(bench.span, || judge(Gate::Schedule, bundle)),
                second: None,
                bar: bench.time_bar(set),
            });
            for step in &STEPS {
                self.rows(step.name, sets, |bench, bundle, set| bench.time_try(step, bundle, set));
            }
            self.rows("make Tasks", sets, |bench, bundle, set| {
                bench.time_make(&STEPS[0], bundle, set)
            });
        }
    }

    fn growing(&mut self, name: &str, sets: &[(String, Set)]) {
        self.rows(name, sets, |bench, bundle, set| {
            compare(
                &judge_in(Gate::Schedule, bundle, &mut bench.work).expect("not refused"),
                &second::gate::judge(bundle).board,
            );
            let span = bench.span;
            let work = &mut bench.work;
            Times {
                gate: best(span, || judge_in(Gate::Schedule, bundle, work)),
                second: Some(best(span, || second::gate::judge(bundle))),
                bar: bench.time_bar(set),
            }
        });
    }

    /// A row for each set; the growth is told from the set before.
    fn rows(
        &mut self,
        name: &str,
        sets: &[(String, Set)],
        measure: impl Fn(&mut Bench, &[u8], &Set) -> Times,
    ) {
        let mut before: Option<(usize, f64)> = None;
        for (title, set) in sets {
            let bundle = set.bundle();
            let times = measure(self, &bundle, set);
            let grows = before.map(|(bytes, ms)| {
                (times.gate / ms).ln() / (bundle.len() as f64 / bytes as f64).ln()
            });
            println!(
                "| {name} | {title} | {} | {:.3} | {} | {} | {} | {} | {} |",
                bundle.len(),
                times.gate,
                shown(grows, 2),
                shown(times.second, 3),
                shown(times.second.map(|ms| times.gate / ms), 2),
                shown(times.bar, 3),
                shown(times.bar.map(|ms| times.gate / ms), 2),
            );
            before = Some((bundle.len(), times.gate));
        }
    }

    /// Each file's own mark is asked for: each file is read once, and no rule is judged.
    fn time_reading(&mut self, bundle: &[u8]) -> f64 {
        let work = &mut self.work;
        best(self.span, || {
            for mark in 0..20 {
                let _ = std::hint::black_box(reason_in(Gate::Schedule, bundle, mark, work));
            }
        })
    }

    fn time_bar(&self, set: &Set) -> Option<f64> {
        let bar = Bar::new(set);
        bar.parse().map(|_| best(self.span, || bar.parse()))
    }

    fn time_try(&mut self, step: &Step, bundle: &[u8], set: &Set) -> Times {
        let new = changed(set, step);
        let board = judge_in(Gate::Schedule, bundle, &mut self.work).expect("not refused");
        let own = second::gate::judge(bundle).board;
        let span = self.span;
        let work = &mut self.work;
        let answer = try_in(bundle, &board, step.file, Some(&new), work).expect("not refused");
        compare(
            &answer.board,
            &second::gate::try_change(bundle, &own, step.file, Some(&new)).board,
        );
        Times {
            gate: best(span, || try_in(bundle, &board, step.file, Some(&new), work)),
            second: Some(best(span, || {
                second::gate::try_change(bundle, &own, step.file, Some(&new))
            })),
            bar: None,
        }
    }

    fn time_make(&mut self, step: &Step, bundle: &[u8], set: &Set) -> Times {
        let new = changed(set, step);
        let board = judge_in(Gate::Schedule, bundle, &mut self.work).expect("not refused");
        let own = second::gate::judge(bundle).board;
        let (span, out, work) = (self.span, &mut self.out, &mut self.work);
        let gate = best(span, || make_in(bundle, &board, step.file, Some(&new), out, work));
        let second = Some(best(span, || {
            second::gate::make_change(bundle, &own, step.file, Some(&new), out)
        }));
        Times { gate, second, bar: None }
    }

    fn by_byte(&mut self, set: &Set) -> f64 {
        let bundle = set.bundle();
        let work = &mut self.work;
        best(self.span, || judge_in(Gate::Schedule, &bundle, work)) / bundle.len() as f64
    }

    fn odd(&mut self, name: &str, set: &Set, plain: f64) {
        let bundle = set.bundle();
        compare(
            &judge_in(Gate::Schedule, &bundle, &mut self.work).expect("not refused"),
            &second::gate::judge(&bundle).board,
        );
        let by_byte = self.by_byte(set);
        let second = best(self.span, || second::gate::judge(&bundle));
        println!(
            "| {name} | {} | {:.3} | {:.2} | {second:.3} |",
            bundle.len(),
            by_byte * bundle.len() as f64,
            by_byte / plain
        );
    }

    /// A loop of links looked for, beside the reading of their file.
    fn chain(&mut self, name: &str, set: &Set) {
        let bundle = set.bundle();
        let (span, work) = (self.span, &mut self.work);
        let mut list = vec![0; MOST_RECORDS];
        compare_rings(&bundle, show_in(&bundle, &mut list, work).expect("not refused"));
        let read = best(span, || reason_in(Gate::Schedule, &bundle, 14, work).is_ok());
        let show = best(span, || show_in(&bundle, &mut list, work).is_ok());
        let second = best(span, || show_loop(&bundle, &mut list));
        println!(
            "| {name} | {} | {read:.3} | {show:.3} | {:.2} | {second:.3} | {:.2} |",
            bundle.len(),
            show / read,
            show / second
        );
    }
}

struct Times {
    gate: f64,
    second: Option<f64>,
    bar: Option<f64>,
}

impl Times {
    fn with_pass(self, bundle: &[u8]) -> Times {
        Times { gate: best(Duration::from_millis(20), || pass(bundle)), ..self }
    }
}

fn shown(number: Option<f64>, decimals: usize) -> String {
    number
        .filter(|number| number.is_finite())
        .map_or("-".to_string(), |number| format!("{number:.decimals$}"))
}

/// The file with one letter of its first name, or one digit of its first lag, changed.
fn changed(set: &Set, step: &Step) -> Vec<u8> {
    let mut file = set.files[step.file].clone().expect("a whole set has every file");
    let behind = step.behind.as_bytes();
    if let Some(at) = file.windows(behind.len()).position(|part| part == behind) {
        let byte = &mut file[at + behind.len()];
        match byte {
            b'0'..=b'8' => *byte += 1,
            b'A'..=b'Y' | b'a'..=b'y' => *byte += 1,
            _ => {}
        }
    }
    file
}

/// A figure counts only if the answer is right.
fn compare(board: &Board, own: &second::board::Board) {
    for (mark, right) in own.marks.iter().enumerate() {
        let ours = (board.kinds[mark] as usize, board.places[mark], board.companions[mark]);
        let theirs = (right.kind as usize, right.place as usize, right.companion as usize);
        if ours != theirs {
            eprintln!("measure: mark {mark} is {ours:?}, and the second program has {theirs:?}");
            exit(1);
        }
    }
}

/// A loop is shown exactly if the second program finds one, and it is one.
fn compare_rings(bundle: &[u8], ring: Option<&[u32]>) {
    let links = links_of(bundle).expect("not refused");
    let found = show_loop(bundle, &mut [0; MOST_RECORDS]) != Shown::Nothing;
    if ring.is_some() != found || !ring.map_or(true, |ring| is_loop(&links, ring)) {
        eprintln!("measure: what is shown is {ring:?}, and the second program finds a loop: {found}");
        exit(1);
    }
}
