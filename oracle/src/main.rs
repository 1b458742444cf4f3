//! The oracle's commands; README.md describes them.

use std::{
    collections::BTreeMap,
    env, fs,
    io::Write,
    path::{Path, PathBuf},
    process::ExitCode,
    time::Duration,
};

use oracle::{
    answer::{Answer, Error, refusal_text},
    attribute::Spoken,
    buffers,
    compare::{self, difference},
    damage, generate,
    layout::{self, Module, Refusal},
    literals, message_cases, model,
    reference::{self, MOST_WORK, Silence},
    relate, relations, replay, shuffle,
    stats::Stats,
    tables,
    tell::Question,
};

const USAGE: &str = "usage:
  oracle check [--reference | --model] FILES..
  oracle report FILES..
  oracle messages FILES..
  oracle selfcheck FILES..
  oracle generate SEED COUNT DIR [--class NAME]
  oracle damage SEED COUNT DIR FILES..
  oracle shuffle SEED FILE OUT
  oracle stats FILES..
  oracle render INPUT OUTPUT ROWS ERRORS
  oracle tables SEED COUNT DIR
  oracle relate ROWS..
  oracle compare SEED COUNT PRODUCT DIR
  oracle relations SEED COUNT PRODUCT DIR
  oracle replay ACCEPTED REFUSED MESSAGES DATA NAMES
  oracle literals DIR
A folder among FILES stands for the files in it.";

/// How long the reference may think about one module.
const LIMIT: Duration = Duration::from_secs(20);

/// What the report program lends.
const LENT_ROWS: usize = 3_000;
const LENT_ERRORS: usize = 2_000;

type Done = Result<ExitCode, String>;

fn main() -> ExitCode {
    let arguments: Vec<String> = env::args().skip(1).collect();
    let words: Vec<&str> = arguments.iter().map(String::as_str).collect();
    let done = match words[..] {
        ["check", "--reference", ref files @ ..] if !files.is_empty() => check(files, Source::Reference),
        ["check", "--model", ref files @ ..] if !files.is_empty() => check(files, Source::Model),
        ["check", ref files @ ..] if !files.is_empty() => check(files, Source::Either),
        ["report", ref files @ ..] if !files.is_empty() => report(files),
        ["messages", ref files @ ..] if !files.is_empty() => messages(files),
        ["selfcheck", ref files @ ..] if !files.is_empty() => selfcheck(files),
        ["generate", seed, count, folder] => generated(seed, count, folder, "mixed"),
        ["generate", seed, count, folder, "--class", class] => generated(seed, count, folder, class),
        ["damage", seed, count, folder, ref files @ ..] if !files.is_empty() => damaged(seed, count, folder, files),
        ["shuffle", seed, file, out] => shuffled(seed, file, out),
        ["stats", ref files @ ..] if !files.is_empty() => stats(files),
        ["render", input, output, rows, errors] => render(input, output, rows, errors),
        ["tables", seed, count, folder] => tables(seed, count, folder),
        ["relate", ref files @ ..] if !files.is_empty() => related(files),
        ["compare", seed, count, program, folder] => compared(seed, count, program, folder),
        ["relations", seed, count, program, folder] => compared_relations(seed, count, program, folder),
        ["replay", accepted, refused, told, data, names] => replayed(accepted, refused, told, data, names),
        ["literals", folder] => literal_cases(folder),
        _ => Err(USAGE.to_owned()),
    };
    done.unwrap_or_else(|message| {
        eprintln!("{message}");
        ExitCode::from(2)
    })
}

fn read(path: impl AsRef<Path>) -> Result<Vec<u8>, String> {
    fs::read(&path).map_err(|e| format!("{}: {e}", path.as_ref().display()))
}

fn write(path: impl AsRef<Path>, bytes: &[u8]) -> Result<(), String> {
    fs::write(&path, bytes).map_err(|e| format!("{}: {e}", path.as_ref().display()))
}

fn number(text: &str) -> Result<u64, String> {
    text.parse().map_err(|_| format!("not a number: {text}"))
}

/// The files named, those of a folder in the order of their names.
fn expand(files: &[&str]) -> Result<Vec<PathBuf>, String> {
    let mut all = vec![];
    for file in files {
        let path = PathBuf::from(file);
        if path.is_dir() {
            let entries = fs::read_dir(&path).map_err(|e| format!("{file}: {e}"))?;
            let mut inside: Vec<PathBuf> = entries.flatten().map(|entry| entry.path()).collect();
            inside.sort();
            all.extend(inside);
        } else {
            all.push(path);
        }
    }
    Ok(all)
}

/// What the reference says, unless the model foresees that it would take too long.
fn spoken(module: &Module, work: u64) -> Result<Spoken, Silence> {
    if work > MOST_WORK { Err(Silence::TooLarge) } else { reference::check(module, LIMIT) }
}

/// Which checker answers.
#[derive(Clone, Copy, PartialEq, Eq)]
enum Source {
    /// The reference or, where it is silent, the model.
    Either,
    Reference,
    Model,
}

/// What is said of a file: why it is turned back, or the answer as `text` prints it.
fn said(path: &Path, source: Source, text: impl Fn(&Answer) -> String) -> Result<String, String> {
    let module = match layout::read(&read(path)?) {
        Err(refusal) => return Ok(refusal_text(refusal)),
        Ok(module) => module,
    };
    let outcome = model::check(&module);
    if source == Source::Model {
        return Ok(text(&outcome.answer));
    }
    match spoken(&module, outcome.work) {
        Ok(spoken) => Ok(text(&spoken.answer)),
        Err(Silence::Broken(why)) => Err(format!("{}: broken: {why}", path.display())),
        Err(silence) if source == Source::Reference => Ok(format!("{silence}\n")),
        Err(silence) => {
            eprintln!("{}: {silence}; the model answers", path.display());
            Ok(text(&outcome.answer))
        }
    }
}

/// Prints a text for each file, under the file's name if there are several.
fn for_each(files: &[&str], text: impl Fn(&Path) -> Result<String, String>) -> Done {
    let files = expand(files)?;
    for path in &files {
        if files.len() > 1 {
            println!("file {}", path.display());
        }
        print!("{}", text(path)?);
    }
    Ok(ExitCode::SUCCESS)
}

fn check(files: &[&str], source: Source) -> Done {
    for_each(files, |path| said(path, source, Answer::text))
}

fn report(files: &[&str]) -> Done {
    for_each(files, |path| said(path, Source::Either, |answer| answer.report(LENT_ROWS, LENT_ERRORS)))
}

/// What the program `messages` has to print of a file.
fn messages_of(bytes: &[u8]) -> Result<Vec<u8>, String> {
    let answer = match compare::truth(bytes)?.outcome {
        Ok((_, answer)) => answer,
        Err(refusal) => return Ok(refusal_text(refusal).into_bytes()),
    };
    let counts = (answer.rows.count(), answer.errors.len());
    if counts.0 > LENT_ROWS || counts.1 > LENT_ERRORS {
        return Ok(answer.report(LENT_ROWS, LENT_ERRORS).into_bytes());
    }
    let errors: Vec<u32> = answer.errors.iter().flat_map(Error::words).collect();
    let told = Question::new(bytes, &answer.rows.row_words(), counts.0, &errors, counts.1).due().told;
    match told.number {
        0 => Ok(told.text),
        number => Ok(refusal_text(Refusal { number, place: told.place }).into_bytes()),
    }
}

fn messages(files: &[&str]) -> Done {
    without_panic_messages();
    let mut out = std::io::stdout().lock();
    let files = expand(files)?;
    for path in &files {
        let text = messages_of(&read(path)?).map_err(|why| format!("{}: {why}", path.display()))?;
        let head = if files.len() > 1 { format!("file {}\n", path.display()) } else { String::new() };
        out.write_all(&[head.as_bytes(), &text].concat()).map_err(|e| e.to_string())?;
    }
    Ok(ExitCode::SUCCESS)
}

fn selfcheck(files: &[&str]) -> Done {
    let mut counts: BTreeMap<String, usize> = BTreeMap::new();
    let mut differ = 0;
    for path in expand(files)? {
        let word = match layout::read(&read(&path)?) {
            Err(_) => "refused".to_owned(),
            Ok(module) => {
                let outcome = model::check(&module);
                match spoken(&module, outcome.work) {
                    Ok(spoken) => match difference(&module, &spoken, &outcome.answer) {
                        None => "agree".to_owned(),
                        Some(line) => {
                            println!("{}: {line}", path.display());
                            differ += 1;
                            "differ".to_owned()
                        }
                    },
                    Err(Silence::Broken(why)) => {
                        println!("{}: broken: {why}", path.display());
                        differ += 1;
                        "broken".to_owned()
                    }
                    Err(silence) => silence.to_string(),
                }
            }
        };
        *counts.entry(word).or_default() += 1;
    }
    let counts: Vec<String> = counts.iter().map(|(word, count)| format!("{word} {count}")).collect();
    println!("{}", counts.join(", "));
    Ok(if differ == 0 { ExitCode::SUCCESS } else { ExitCode::FAILURE })
}

fn generated(seed: &str, count: &str, folder: &str, class: &str) -> Done {
    let (seed, count) = (number(seed)?, number(count)?);
    if class != "mixed" && !generate::CLASSES.iter().any(|one| one.0 == class) {
        return Err(format!("no class {class}"));
    }
    fs::create_dir_all(folder).map_err(|e| e.to_string())?;
    for i in 0..count {
        let bytes = generate::module(class, seed.wrapping_mul(1_000_003).wrapping_add(i));
        write(Path::new(folder).join(format!("{class}-{seed}-{i:06}")), &bytes)?;
    }
    Ok(ExitCode::SUCCESS)
}

fn damaged(seed: &str, count: &str, folder: &str, files: &[&str]) -> Done {
    let (seed, count) = (number(seed)?, number(count)?);
    let files = expand(files)?;
    fs::create_dir_all(folder).map_err(|e| e.to_string())?;
    for i in 0..count {
        let bytes = read(&files[i as usize % files.len()])?;
        let copy = damage::damaged(&bytes, seed.wrapping_mul(1_000_003).wrapping_add(i));
        write(Path::new(folder).join(format!("damaged-{seed}-{i:06}")), &copy)?;
    }
    Ok(ExitCode::SUCCESS)
}

fn shuffled(seed: &str, file: &str, out: &str) -> Done {
    let bytes = shuffle::shuffled(&read(file)?, number(seed)?).ok_or("the module is turned back")?;
    write(out, &bytes)?;
    Ok(ExitCode::SUCCESS)
}

fn stats(files: &[&str]) -> Done {
    let mut stats = Stats::default();
    for path in expand(files)? {
        stats.add(&read(path)?);
    }
    print!("{}", stats.text());
    Ok(ExitCode::SUCCESS)
}

fn render(input: &str, output: &str, rows: &str, errors: &str) -> Done {
    let (rows, errors) = (buffers::words(&read(rows)?)?, buffers::words(&read(errors)?)?);
    print!("{}", buffers::answer(&read(input)?, &read(output)?, &rows, &errors)?.text());
    Ok(ExitCode::SUCCESS)
}

fn tables(seed: &str, count: &str, folder: &str) -> Done {
    let (seed, count) = (number(seed)?, number(count)?);
    fs::create_dir_all(folder).map_err(|e| e.to_string())?;
    for i in 0..count {
        let words = tables::file_words(seed.wrapping_mul(1_000_003).wrapping_add(i));
        let bytes: Vec<u8> = words.into_iter().flat_map(u32::to_le_bytes).collect();
        write(Path::new(folder).join(format!("rows-{seed}-{i:06}")), &bytes)?;
    }
    Ok(ExitCode::SUCCESS)
}

/// The reference panics where a type has no words; those panics are expected.
fn without_panic_messages() {
    std::panic::set_hook(Box::new(|_| {}));
}

fn related(files: &[&str]) -> Done {
    without_panic_messages();
    for_each(files, |path| match buffers::rows(&buffers::words(&read(path)?)?) {
        None => Ok("refused 8 at 0\n".to_owned()),
        Some(rows) => {
            relate::related(&rows).map(|related| related.text()).map_err(|e| format!("{}: {e}", path.display()))
        }
    })
}

fn compared(seed: &str, count: &str, program: &str, folder: &str) -> Done {
    without_panic_messages();
    let (differences, text) =
        compare::compare(number(seed)?, number(count)? as usize, Path::new(program), Path::new(folder))?;
    print!("{text}");
    Ok(if differences == 0 { ExitCode::SUCCESS } else { ExitCode::FAILURE })
}

fn compared_relations(seed: &str, count: &str, program: &str, folder: &str) -> Done {
    without_panic_messages();
    let (differences, text) =
        relations::compare(number(seed)?, number(count)? as usize, Path::new(program), Path::new(folder))?;
    print!("{text}");
    Ok(if differences == 0 { ExitCode::SUCCESS } else { ExitCode::FAILURE })
}

/// Writes the cases of the replay and their names; prints what the program `replay` has to print.
fn replayed(accepted: &str, refused: &str, told: &str, data: &str, names: &str) -> Done {
    without_panic_messages();
    let checks = replay::replay(number(accepted)? as usize, number(refused)? as usize)?;
    let messages = message_cases::cases(number(told)? as usize)?;
    write(data, &[&checks.bytes[..], &messages.bytes].concat())?;
    let messages_named = messages.names.iter().map(|name| format!("messages: {name}"));
    let all: Vec<String> = checks.names.iter().cloned().chain(messages_named).collect();
    write(names, (all.join("\n") + "\n").as_bytes())?;
    let good = checks.accepted + messages.told[0];
    println!("good {good} refused {} differ 0", checks.refused() + messages.refused());
    eprintln!("checks: good {} refused {}; messages: {}", checks.accepted, checks.refused(), messages.counts());
    Ok(ExitCode::SUCCESS)
}

/// Writes what the program `literal_cases` is given and has to print.
fn literal_cases(folder: &str) -> Done {
    fs::create_dir_all(folder).map_err(|e| e.to_string())?;
    let cases = literals::cases();
    write(Path::new(folder).join("stdin"), &cases.input)?;
    write(Path::new(folder).join("stdout"), cases.output.as_bytes())?;
    println!("{} cases", cases.count);
    Ok(ExitCode::SUCCESS)
}
