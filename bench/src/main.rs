//! How long the product, the reference and a bare walk take for the same modules. README.md says how to run it.

mod messages;
mod modules;
mod slow;
mod walk;

use std::{
    env, fs,
    hint::black_box,
    path::Path,
    process::ExitCode,
    thread,
    time::{Duration, Instant},
};

use modules::Class;
use oracle::{
    decode::Decoder,
    layout::{self, MOST_BYTES, Module},
    product::{Product, ROOMY},
    type_check::type_check_module,
};

/// How long a round goes on, how many rounds there are at most, and how long all may take. The fastest counts: rounds are short,
/// so that some are not disturbed by other work of the machine.
const SPAN: Duration = Duration::from_millis(1);
const ROUNDS: usize = 60;
const ALL: Duration = Duration::from_millis(300);

/// The most work, by the model's measure, with which the reference is measured: some tenths of a second of its search for a cast.
const MOST_MEASURED: u64 = 30_000_000;

/// From here on what asking the product costs is nothing beside two turns.
const SLOW: Duration = Duration::from_millis(20);

/// The time of the fastest round.
fn least(mut round: impl FnMut() -> Duration) -> Duration {
    let start = Instant::now();
    let mut best = round();
    for _ in 1..ROUNDS {
        if start.elapsed() > ALL {
            break;
        }
        best = best.min(round());
    }
    best
}

/// Nanoseconds for one turn in the fastest round, each of as many turns as fill the span.
fn fastest(mut run: impl FnMut(u32) -> Duration) -> f64 {
    let mut turns = 1;
    while run(turns) < SPAN && turns < 1 << 20 {
        turns *= 2;
    }
    least(|| run(turns)).as_nanos() as f64 / f64::from(turns)
}

/// What a module costs, in nanoseconds.
#[derive(Clone, Copy, Default)]
struct Cost {
    bytes: f64,
    product: f64,
    /// Tests 1 to 3 of the product alone.
    layout: f64,
    /// The reference with and without a file in each place, and from the records of the file on; 0 if it is not asked.
    reference: f64,
    without_files: f64,
    decoded: f64,
    walk: f64,
}

/// The product's time for a module.
fn timed(product: &mut Product, bytes: &[u8]) -> f64 {
    timed_turns(|turns| product.repeat(bytes, turns))
}

/// The product's time for one of several turns. What asking costs is measured with two turns and taken off.
fn timed_turns(mut ask: impl FnMut(u32) -> Result<(), String>) -> f64 {
    let mut asked = |turns: u32| {
        let before = Instant::now();
        ask(turns).expect("a product that answers");
        before.elapsed()
    };
    let asking = least(|| asked(2));
    if asking > SLOW {
        return asking.as_nanos() as f64 / 2.0;
    }
    fastest(|turns| asked(turns + 2).saturating_sub(asking))
}

/// A file that is turned back after the whole walk: with a byte more, or, if that is one too many, with too long a last item.
fn spoiled(bytes: &[u8], module: &Module) -> Vec<u8> {
    if bytes.len() < MOST_BYTES {
        return [bytes, &[0]].concat();
    }
    let last = module.items.last().expect("an item");
    let mut out = bytes.to_vec();
    out[last.place..last.place + 4].copy_from_slice(&(last.length as u32 + 1).to_le_bytes());
    out
}

/// The reference's time for the check alone: trees are made before, and what it returns is freed after.
fn timed_reference(module: &Module, with_files: bool) -> f64 {
    let mut decoder = Decoder::new(module).expect("text");
    decoder.with_files = with_files;
    fastest(|turns| {
        let trees: Vec<_> = (0..turns).map(|_| decoder.module(module).expect("text")).collect();
        let mut kept = Vec::with_capacity(trees.len());
        let before = Instant::now();
        for tree in trees {
            kept.push(black_box(type_check_module(tree)));
        }
        before.elapsed()
    })
}

/// The reference's time from the records of the file on, freeing what it made.
fn timed_decoded(module: &Module) -> f64 {
    fastest(|turns| {
        let before = Instant::now();
        for _ in 0..turns {
            let decoder = Decoder::new(black_box(module)).expect("text");
            black_box(type_check_module(decoder.module(module).expect("text")));
        }
        before.elapsed()
    })
}

/// What the product and the bare walk cost, and the reference if it is asked.
fn cost(product: &mut Product, bytes: &[u8], is_asked: bool) -> Cost {
    let module = layout::read(bytes).expect("a good module");
    let spoiled = spoiled(bytes, &module);
    for (bytes, number) in [(bytes, 0), (&spoiled, 2)] {
        assert_eq!(product.check(bytes, ROOMY).expect("a product that answers").number, number);
    }
    let asked = |time: &dyn Fn() -> f64| if is_asked { time() } else { 0.0 };
    Cost {
        bytes: bytes.len() as f64,
        product: timed(product, bytes),
        layout: timed(product, &spoiled),
        reference: asked(&|| timed_reference(&module, true)),
        without_files: asked(&|| timed_reference(&module, false)),
        decoded: asked(&|| timed_decoded(&module)),
        walk: fastest(|turns| {
            let before = Instant::now();
            for _ in 0..turns {
                assert!(walk::is_good(black_box(bytes)));
            }
            before.elapsed()
        }),
    }
}

/// What the modules of a class cost together.
fn class_cost(product: &mut Product, class: &Class, is_asked: bool) -> Cost {
    let mut sum = Cost::default();
    for bytes in &class.modules {
        let one = cost(product, bytes, is_asked);
        sum.bytes += one.bytes;
        sum.product += one.product;
        sum.layout += one.layout;
        sum.reference += one.reference;
        sum.without_files += one.without_files;
        sum.decoded += one.decoded;
        sum.walk += one.walk;
    }
    sum
}

fn run(product: &Path, only: &str) -> Result<(), String> {
    let mut product = Product::start(product)?;
    println!(
        "| class | bytes | product ns | ns a byte | its layout tests ns | bare walk ns | reference ns | ratio | without files | with decoding |"
    );
    println!("|---|---|---|---|---|---|---|---|---|---|");
    for class in modules::classes().into_iter().filter(|class| class.name.starts_with(only)) {
        let is_asked = class.modules.iter().all(|bytes| modules::is_fit(bytes, MOST_MEASURED));
        let sum = class_cost(&mut product, &class, is_asked);
        let count = class.modules.len() as f64;
        let shown = |value: f64, digits| if is_asked { format!("{value:.digits$}") } else { "-".to_owned() };
        println!(
            "| {} | {:.0} | {:.0} | {} | {:.0} | {:.0} | {} | {} | {} | {} |",
            class.name,
            sum.bytes / count,
            sum.product / count,
            if sum.bytes > 0.0 { format!("{:.2}", sum.product / sum.bytes) } else { "-".to_owned() },
            sum.layout / count,
            sum.walk / count,
            shown(sum.reference / count, 0),
            shown(sum.reference / sum.product, 1),
            shown(sum.without_files / sum.product, 1),
            shown(sum.decoded / sum.product, 1),
        );
    }
    if product.tells() && "messages".starts_with(only) { run_messages(&mut product) } else { Ok(()) }
}

/// How long messages take; a program is not asked for them.
fn run_messages(product: &mut Product) -> Result<(), String> {
    println!("\n| messages of 2,000 errors | bytes of the module | bytes of the text | ns | bytes a second |");
    println!("|---|---|---|---|---|");
    for (name, question) in messages::questions(product)? {
        let due = question.due().told;
        assert_eq!(due.number, 0);
        assert_eq!(product.told(std::slice::from_ref(&question))?, [due]);
        let time = timed_turns(|turns| product.tell_again(&question, turns));
        let (module, text) = (question.module.len(), question.text);
        println!("| {name} | {module} | {text} | {time:.0} | {:.0} |", text as f64 / time * 1e9);
    }
    Ok(())
}

/// Writes the modules for `pair.c`, one to a file, the files of a class next to each other.
fn write(folder: &Path) -> Result<(), String> {
    for (number, class) in modules::classes().into_iter().enumerate() {
        let name = class.name.replace(' ', "_").replace(',', "");
        for (place, bytes) in class.modules.iter().enumerate() {
            let file = folder.join(format!("{number:03}-{name}-{place:03}"));
            fs::write(&file, bytes).map_err(|error| format!("{}: {error}", file.display()))?;
        }
    }
    Ok(())
}

fn main() -> ExitCode {
    let Some(product) = env::args().nth(1) else {
        eprintln!(
            "usage: bench PRODUCT [CLASS] | bench write FOLDER\nOnly classes whose names begin so, `messages` for the messages; PRODUCT is `linked` or a program that answers as oracle/src/product.rs says"
        );
        return ExitCode::from(2);
    };
    let second = env::args().nth(2).unwrap_or_default();
    let work = move || if product == "write" { write(Path::new(&second)) } else { run(Path::new(&product), &second) };
    // The reference recurses over types; its stack is as large as in the oracle.
    let worker = thread::Builder::new().stack_size(1 << 30).spawn(work);
    match worker.expect("a thread").join().expect("no panic") {
        Ok(()) => ExitCode::SUCCESS,
        Err(message) => {
            eprintln!("{message}");
            ExitCode::from(2)
        }
    }
}
