//! The product against the oracle: refusals, rows, slots, errors, messages and every lent word, on modules by the thousand.

mod messages;

use std::{fmt::Write, fs, path::Path, time::Duration};

use self::messages::Messages;
use crate::{
    answer::{Answer, ERROR_WIDTH, Error, refusal_text},
    attribute::Spoken,
    buffers, damage, generate, hand,
    layout::{self, MOST_BYTES, Module, Refusal},
    model, orders,
    pairs::Casts,
    product::{FILL, Loans, Product, REPORT, Said},
    reference::{self, MOST_WORK, Silence},
    relate,
    rows::ROW_WIDTH,
    shrink,
    stats::Stats,
    tell,
    tree::Random,
};

/// How long the reference may think about one module.
const LIMIT: Duration = Duration::from_secs(20);

/// What is true of a file: why tests 1 to 4 turn it back, or the answer.
pub struct Truth {
    pub outcome: Result<(Module, Answer), Refusal>,
    /// Why the reference did not speak, where the model answered alone.
    pub silence: Option<Silence>,
    /// For the words of how many of its types the reference was asked.
    pub words_asked: usize,
    /// The casts in the module, by the model.
    pub casts: Casts,
    /// The reference's texts of the errors, where it spoke.
    pub messages: Option<Vec<String>>,
}

/// What the reference and the model say of a file. Where both speak they must agree.
pub fn truth(bytes: &[u8]) -> Result<Truth, String> {
    let module = match layout::read(bytes) {
        Err(refusal) => {
            let casts = Casts::default();
            return Ok(Truth { outcome: Err(refusal), silence: None, words_asked: 0, casts, messages: None });
        }
        Ok(module) => module,
    };
    let outcome = model::check(&module);
    let spoken = if outcome.work > MOST_WORK { Err(Silence::TooLarge) } else { reference::check(&module, LIMIT) };
    let (silence, messages) = match spoken {
        Ok(spoken) => match difference(&module, &spoken, &outcome.answer) {
            Some(line) => return Err(line),
            None => (None, Some(spoken.messages)),
        },
        Err(Silence::Broken(why)) => return Err(format!("the reference is broken: {why}")),
        Err(silence) => (Some(silence), None),
    };
    let words_asked = relate::ask_words(&outcome.answer.rows)?;
    Ok(Truth { outcome: Ok((module, outcome.answer)), silence, words_asked, casts: outcome.casts, messages })
}

/// In what the reference and the model differ: the first line of their answers, or of their messages.
pub fn difference(module: &Module, spoken: &Spoken, model: &Answer) -> Option<String> {
    first_difference("reference", &spoken.answer.text(), "model", &model.text()).or_else(|| {
        let errors: Vec<[u32; ERROR_WIDTH]> = model.errors.iter().map(Error::words).collect();
        let own = tell::lines(module, &model.rows, &errors);
        let lines = spoken.messages.iter().zip(own);
        let mut differ = lines.filter(|(message, own)| format!("{message}\n").as_bytes() != own);
        let (message, own) = differ.next()?;
        Some(format!("message: reference {message:?}, own {:?}", String::from_utf8_lossy(&own)))
    })
}

/// The first line in which two texts differ.
pub fn first_difference(of_one: &str, one: &str, of_two: &str, two: &str) -> Option<String> {
    if one == two {
        return None;
    }
    let (mut left, mut right) = (one.lines(), two.lines());
    loop {
        match (left.next(), right.next()) {
            (a, b) if a != b => return Some(format!("{of_one} {a:?}, {of_two} {b:?}")),
            _ => {}
        }
    }
}

impl Truth {
    /// Why the module is turned back when so much is lent.
    pub fn refusal(&self, bytes: &[u8], loans: Loans) -> Option<Refusal> {
        let (module, answer) = match &self.outcome {
            Err(refusal) => return Some(*refusal),
            Ok(good) => good,
        };
        let number = if loans.output < bytes.len() || loans.work < 4 * module.names.len() {
            5
        } else if loans.rows / ROW_WIDTH < answer.rows.count() {
            6
        } else if loans.errors / ERROR_WIDTH < answer.errors.len() {
            7
        } else {
            return None;
        };
        Some(Refusal { number, place: 0 })
    }
}

/// What of the said is not so; otherwise the answer that the product gave, if it accepted the module.
fn judge(bytes: &[u8], truth: &Truth, loans: Loans, said: &Said) -> Result<Option<Answer>, String> {
    let refusal = truth.refusal(bytes, loans);
    let names = truth.outcome.as_ref().map_or(0, |(module, _)| module.names.len());
    let kept = |words: &[u32]| words.iter().all(|&word| word == FILL);
    let kept_bytes = |bytes: &[u8]| bytes.iter().all(|&byte| byte == FILL as u8);
    let demand = |fact: bool, what: &str| if fact { Ok(()) } else { Err(what.to_owned()) };
    let given = match said.number {
        0 => format!("rows {} errors {}\n", said.values[0], said.values[1]),
        number => refusal_text(Refusal { number, place: said.values[0] as usize }),
    };
    let (used_output, used_rows, used_errors) = match (&truth.outcome, refusal) {
        (_, Some(refusal)) if refusal.number <= 5 => (0, 0, 0),
        (_, Some(_)) => (bytes.len(), loans.rows, loans.errors),
        (Ok((_, answer)), None) => (bytes.len(), ROW_WIDTH * answer.rows.count(), ERROR_WIDTH * answer.errors.len()),
        (Err(_), None) => unreachable!("a refused module has a refusal"),
    };
    let expected = match (&truth.outcome, refusal) {
        (Ok((_, answer)), None) => answer.text().lines().next().unwrap().to_owned() + "\n",
        (_, refusal) => refusal_text(refusal.unwrap()),
    };
    if let Some(line) = first_difference("oracle", &expected, "product", &given) {
        return Err(line);
    }
    demand(kept_bytes(&said.output[used_output..]), "the output past its part is not as it was")?;
    demand(kept(&said.rows[used_rows..]), "row words past the rows are not as they were")?;
    demand(kept(&said.errors[used_errors..]), "error words past the errors are not as they were")?;
    let used_work = if refusal.is_some_and(|refusal| refusal.number <= 5) { 0 } else { 4 * names };
    demand(said.work[..used_work].iter().all(|&word| word == 0), "a working word is not 0")?;
    demand(kept(&said.work[used_work..]), "working words past those used are not as they were")?;
    if refusal.is_some() {
        demand(said.output[..used_output].iter().all(|&byte| byte == 0), "the output is not zeroed")?;
        demand(said.rows[..used_rows].iter().all(|&word| word == 0), "the rows are not zeroed")?;
        demand(said.errors[..used_errors].iter().all(|&word| word == 0), "the errors are not zeroed")?;
        return Ok(None);
    }
    let (_, answer) = truth.outcome.as_ref().unwrap();
    let said = buffers::answer(bytes, &said.output, &said.rows[..used_rows], &said.errors[..used_errors])?;
    match first_difference("oracle", &answer.text(), "product", &said.text()) {
        Some(line) => Err(line),
        None => Ok(Some(said)),
    }
}

/// Loans for a module: those of the report program, or about what it needs.
fn some_loans(bytes: &[u8], truth: &Truth, random: &mut Random) -> Loans {
    let Ok((module, answer)) = &truth.outcome else {
        return if random.chance(50) { REPORT } else { Loans { output: 0, rows: 0, errors: 0, work: 0 } };
    };
    if random.chance(40) {
        return Loans { output: REPORT.output + random.below(9), ..REPORT };
    }
    let mut about = |need: usize, width: usize, most: usize, too_few: usize| {
        let odd = random.below(width);
        let lent = if random.chance(too_few) {
            *random.pick(&[need.saturating_sub(1), need.saturating_sub(width + odd), odd])
        } else {
            *random.pick(&[need, need + odd, need + 3 * width + odd])
        };
        lent.min(most)
    };
    Loans {
        output: about(bytes.len(), 4, 65_600, 3),
        rows: about(ROW_WIDTH * answer.rows.count(), ROW_WIDTH, REPORT.rows, 12),
        errors: about(ERROR_WIDTH * answer.errors.len(), ERROR_WIDTH, REPORT.errors, 20),
        work: about(4 * module.names.len(), 4, REPORT.work, 3),
    }
}

/// The course of a comparison.
struct Compare<'a> {
    product: Product,
    /// Where files on which the two differ are written, smallest first.
    folder: &'a Path,
    stats: Stats,
    modules: usize,
    by_hand: usize,
    refused: [usize; 8],
    silent: [usize; 3],
    /// How many modules the reference judged, by their items: none, one, up to four, five and more.
    judged: [usize; 4],
    /// How many of them are files of no bytes.
    no_bytes: usize,
    /// For the words of how many types the reference was asked.
    words_asked: usize,
    casts: Casts,
    messages: Messages,
    orders: usize,
    differences: usize,
}

/// The most differences that are shrunk and written.
const MOST_WRITTEN: usize = 20;

impl Compare<'_> {
    /// Compares on one file; the product's answer, if it accepted the module as it should.
    fn one(&mut self, bytes: &[u8], label: &str, lending: Lending) -> Option<Answer> {
        self.modules += 1;
        let (loans, judged) = match asked(&mut self.product, bytes, lending) {
            Err(why) => (REPORT, Err(why)),
            Ok((truth, loans, judged)) => {
                self.count(bytes, &truth, loans);
                (loans, judged)
            }
        };
        match judged {
            Ok((answer, messages)) => {
                self.messages.add(&messages);
                answer
            }
            Err(why) => {
                self.differ(bytes, label, lending, &format!("{why} (lent {loans:?})"));
                None
            }
        }
    }

    fn count(&mut self, bytes: &[u8], truth: &Truth, loans: Loans) {
        let number = truth.refusal(bytes, loans).map_or(0, |refusal| refusal.number);
        self.refused[number as usize] += 1;
        self.words_asked += truth.words_asked;
        self.casts.add(truth.casts);
        match &truth.outcome {
            Ok((module, answer)) => self.stats.add_good(bytes, module, answer),
            Err(refusal) => self.stats.add_refused(bytes, *refusal),
        }
        match truth.silence {
            Some(Silence::Undecodable) => self.silent[0] += 1,
            Some(Silence::TooLarge) => self.silent[1] += 1,
            Some(_) => self.silent[2] += 1,
            None => {
                if let Ok((module, _)) = &truth.outcome {
                    self.judged[[0, 1, 2, 2, 2, 3][module.items.len().min(5)]] += 1;
                    self.no_bytes += usize::from(bytes.is_empty());
                }
            }
        }
    }

    /// Says that the two differ on a file, and writes a file as small as can be found on which they differ.
    fn differ(&mut self, bytes: &[u8], label: &str, lending: Lending, why: &str) {
        self.differences += 1;
        println!("{label}: {why}");
        if self.differences > MOST_WRITTEN {
            return;
        }
        let product = &mut self.product;
        let mut differs = |bytes: &[u8]| !matches!(asked(product, bytes, lending), Ok((_, _, Ok(_))));
        let small = shrink::smallest(bytes, &mut differs);
        let file = self.folder.join(format!("difference-{:02}", self.differences));
        let written = fs::create_dir_all(self.folder).and_then(|()| fs::write(&file, &small));
        let now = match asked(product, &small, lending) {
            Err(why) | Ok((_, _, Err(why))) => why,
            Ok(_) => "no difference any more".to_owned(),
        };
        println!(
            "  {} bytes: {now}; {}",
            small.len(),
            written.map_or_else(|e| e.to_string(), |()| file.display().to_string())
        );
    }

    /// Compares on a module and on another order of its items, and the product's two answers with each other.
    fn two_orders(&mut self, seed: u64) {
        let drawn = |i| generate::module("mixed", seed.wrapping_mul(1_009).wrapping_add(i));
        let other = |bytes: &Vec<u8>| orders::another_order(bytes, seed).filter(|other| other != bytes);
        let (bytes, other) = (0..).map(drawn).find_map(|bytes| other(&bytes).map(|other| (bytes, other))).unwrap();
        // The same loans for both orders: the seed and the needs are the same.
        let first = self.one(&bytes, &format!("order {seed}"), Lending::Drawn(seed));
        let second = self.one(&other, &format!("other order {seed}"), Lending::Drawn(seed));
        self.orders += 1;
        let why = match (&first, &second) {
            (Some(first), Some(second)) => orders::difference((&bytes, first), (&other, second)),
            (None, None) => None,
            _ => Some("only one order is accepted"),
        };
        if let Some(why) = why {
            self.differences += 1;
            println!("orders {seed}: {why}");
        }
    }

    fn text(&self) -> String {
        let [accepted, refused @ ..] = self.refused;
        let from_seed = self.modules - self.by_hand;
        let mut text = format!("modules by hand {}, from the seed {from_seed}", self.by_hand);
        let _ = writeln!(text, ", of these in two orders {}", 2 * self.orders);
        let numbers: Vec<String> = refused.iter().enumerate().map(|(i, count)| format!("{}: {count}", i + 1)).collect();
        let _ = writeln!(text, "accepted {accepted}, refused {}", numbers.join(", "));
        let [none, one, few, many] = self.judged;
        let _ = write!(text, "the reference judged {}: without items {none} ", none + one + few + many);
        let _ = writeln!(text, "(no bytes {}), with 1 item {one}, 2 to 4 {few}, 5 or more {many}", self.no_bytes);
        let _ = writeln!(text, "the reference was asked for the words of {} types", self.words_asked);
        let [undecodable, large, late] = self.silent;
        let _ = writeln!(text, "the model alone: no UTF-8 {undecodable}, too large {large}, timeout {late}");
        text += &self.casts.text();
        if self.product.tells() {
            text += &self.messages.text();
        }
        text += &self.stats.missing();
        let _ = writeln!(text, "differences {}", self.differences);
        text
    }
}

/// What is true of a file, the loans, and how the product's answer and its messages compare.
type Judged = (Truth, Loans, Result<(Option<Answer>, Messages), String>);

/// How much is lent.
#[derive(Clone, Copy)]
enum Lending {
    Fixed(Loans),
    /// Drawn from a seed.
    Drawn(u64),
}

fn asked(product: &mut Product, bytes: &[u8], lending: Lending) -> Result<Judged, String> {
    let truth = truth(bytes)?;
    let loans = match lending {
        Lending::Fixed(loans) => loans,
        Lending::Drawn(seed) => some_loans(bytes, &truth, &mut Random::new(seed)),
    };
    let seed = match lending {
        Lending::Fixed(_) => bytes.iter().map(|&byte| u64::from(byte)).sum(),
        Lending::Drawn(seed) => seed,
    };
    let judged = product.check(bytes, loans).and_then(|said| {
        let answer = judge(bytes, &truth, loans, &said)?;
        let messages = match &answer {
            Some(_) if product.tells() => messages::compare(product, bytes, &truth, &said, seed)?,
            _ => Messages::default(),
        };
        Ok((answer, messages))
    });
    Ok((truth, loans, judged))
}

/// A damaged copy of a module.
fn some_damaged(seed: u64) -> Vec<u8> {
    let class = if seed.is_multiple_of(3) { "mixed" } else { "tiny" };
    let bytes = generate::module(class, seed);
    let mut copy = if seed.is_multiple_of(2) { damage::damaged(&bytes, seed) } else { damage::spoiled(&bytes, seed) };
    copy.truncate(2 * MOST_BYTES);
    copy
}

/// Compares on the modules by hand and on `count` from a seed; how many differences there are, and a text of what was met.
pub fn compare(seed: u64, count: usize, program: &Path, folder: &Path) -> Result<(usize, String), String> {
    let mut compare = Compare {
        product: Product::start(program)?,
        folder,
        stats: Stats::default(),
        modules: 0,
        by_hand: 0,
        refused: [0; 8],
        silent: [0; 3],
        judged: [0; 4],
        no_bytes: 0,
        words_asked: 0,
        casts: Casts::default(),
        messages: Messages::default(),
        orders: 0,
        differences: 0,
    };
    for case in hand::cases() {
        compare.one(&case.bytes, &case.name, Lending::Fixed(case.loans));
    }
    compare.by_hand = compare.modules;
    let all = count.saturating_add(compare.by_hand);
    let mut i = 0;
    while compare.modules < all {
        let seed = seed.wrapping_mul(1_000_003).wrapping_add(i);
        match i % 10 {
            4..=7 => drop(compare.one(&some_damaged(seed), &format!("damaged {seed}"), Lending::Drawn(seed))),
            // Two modules, so not for the last one.
            8..=9 if all - compare.modules > 1 => compare.two_orders(seed),
            _ => drop(compare.one(&generate::module("mixed", seed), &format!("module {seed}"), Lending::Drawn(seed))),
        }
        i += 1;
        if i.is_multiple_of(10_000) {
            eprintln!("{} modules, {} differences", compare.modules, compare.differences);
        }
    }
    Ok((compare.differences, compare.text()))
}
