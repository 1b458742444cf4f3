//! The checker under test: linked into this program, or a program that is asked over its standard input.
//!
//! A question is seven words, least byte first: the bytes of the module, the bytes lent for the output, the words lent for
//! rows, errors and work, the word that fills them all before (the output gets its lowest byte), how often to check;
//! then the module. The answer is three words: 0, rows, errors, or the number of the refusal, its place, 0; then, if it
//! was to check once, the output and the words of rows, errors and work.

use std::{
    io::{BufReader, BufWriter, Read, Write},
    path::{Path, PathBuf},
    process::{Child, ChildStdin, ChildStdout, Command, Stdio},
    sync::mpsc::{self, Receiver, Sender},
    thread,
    time::Duration,
};

use crate::{
    answer::ERROR_WIDTH,
    buffers::words,
    rows::ROW_WIDTH,
    tell::{Question as Tell, Told},
};

/// How much is lent: bytes of output, words of rows, errors and work.
#[derive(Clone, Copy, Debug, PartialEq, Eq, Hash)]
pub struct Loans {
    pub output: usize,
    pub rows: usize,
    pub errors: usize,
    pub work: usize,
}

/// What the report program lends.
pub const REPORT: Loans = Loans { output: 65_536, rows: 3_000 * ROW_WIDTH, errors: 2_000 * ERROR_WIDTH, work: 16_376 };

/// Room for 7,000 rows and 4,000 errors.
pub const ROOMY: Loans = Loans { output: 65_536, rows: 7_000 * ROW_WIDTH, errors: 4_000 * ERROR_WIDTH, work: 16_376 };

/// What stands in every lent word before a run.
pub const FILL: u32 = 0xa5a5_a5a5;

/// What the product left.
#[derive(Clone, Debug)]
pub struct Said {
    /// 0 if the module was accepted.
    pub number: u32,
    /// Rows and errors, or the place and 0.
    pub values: [u32; 2],
    pub output: Vec<u8>,
    pub rows: Vec<u32>,
    pub errors: Vec<u32>,
    pub work: Vec<u32>,
}

/// A question about a table of rows.
#[derive(Clone, Copy, Debug, PartialEq, Eq)]
pub enum Question {
    Assignable { target: u32, source: u32 },
    Castable { source: u32, target: u32 },
    WordSize { n: u32 },
}

/// What is said to a question: 0 or the number of the refusal, the value, and of castable the pairs tried.
#[derive(Clone, Copy, Debug, PartialEq, Eq)]
pub struct Reply {
    pub number: u32,
    pub value: u32,
    /// 0 of the other questions.
    pub pairs: u64,
}

/// How long the product may take for one module, or for the questions about one table.
const LIMIT: Duration = Duration::from_secs(20);

/// The product, in one of its two forms.
pub enum Product {
    Program(Program),
    #[cfg(linked)]
    Linked,
}

impl Product {
    /// The linked product, or the program at a path.
    pub fn start(path: &Path) -> Result<Self, String> {
        if path == Path::new("linked") {
            #[cfg(linked)]
            return Ok(Product::Linked);
            #[cfg(not(linked))]
            return Err("no product is linked: build with DELTA_NULL_LIB".to_owned());
        }
        Program::start(path).map(Product::Program)
    }

    /// What the product says of a module; an error if it ends or takes too long.
    pub fn check(&mut self, module: &[u8], loans: Loans) -> Result<Said, String> {
        match self {
            Product::Program(program) => program.check(module, loans),
            #[cfg(linked)]
            Product::Linked => linked::check(module, loans),
        }
    }

    /// What the product says to questions about the first `count` rows of these words; a program is not asked them.
    #[cfg_attr(not(linked), allow(unused_variables))]
    pub fn replies(&mut self, rows: &[u32], count: u32, questions: &[Question]) -> Result<Vec<Reply>, String> {
        match self {
            Product::Program(_) => Err("a program is asked about modules alone".to_owned()),
            #[cfg(linked)]
            Product::Linked => linked::replies(rows, count, questions),
        }
    }

    /// Whether the product is asked for messages; a program is not.
    pub fn tells(&self) -> bool {
        !matches!(self, Product::Program(_))
    }

    /// What the product tells to questions for messages.
    #[cfg_attr(not(linked), allow(unused_variables))]
    pub fn told(&mut self, questions: &[Tell]) -> Result<Vec<Told>, String> {
        match self {
            Product::Program(_) => Err("a program is not asked for messages".to_owned()),
            #[cfg(linked)]
            Product::Linked => linked::told(questions),
        }
    }

    /// Has the product tell the same several times.
    #[cfg_attr(not(linked), allow(unused_variables))]
    pub fn tell_again(&mut self, question: &Tell, turns: u32) -> Result<(), String> {
        match self {
            Product::Program(_) => Err("a program is not asked for messages".to_owned()),
            #[cfg(linked)]
            Product::Linked => {
                linked::tell_again(question, turns);
                Ok(())
            }
        }
    }

    /// Has the product check a module several times, at least two, with roomy loans.
    pub fn repeat(&mut self, module: &[u8], turns: u32) -> Result<(), String> {
        match self {
            Product::Program(program) => program.repeat(module, turns),
            #[cfg(linked)]
            Product::Linked => {
                linked::repeat(module, turns);
                Ok(())
            }
        }
    }
}

/// The product as a static library, as `rt lib` makes it: a slice is a pointer and a length.
#[cfg(linked)]
mod linked {
    use super::{FILL, LIMIT, Loans, Question, ROOMY, Reply, Said, Tell, Told};
    use std::{sync::mpsc, thread};

    unsafe extern "C" {
        /// 0 with the counts, or the number of the refusal with its place. What the answer has not is 0.
        fn delta_null_type_check_module(
            input: *const u8,
            input_len: usize,
            output: *mut u8,
            output_len: usize,
            rows: *mut u32,
            rows_len: usize,
            errors: *mut u32,
            errors_len: usize,
            work: *mut u32,
            work_len: usize,
            row_count: *mut u32,
            error_count: *mut usize,
            place: *mut usize,
        ) -> u32;

        /// 0 with the answer, 1 or 0, or the number of the refusal. So does `castable`, with the pairs tried.
        fn delta_null_assignable(
            rows: *const u32,
            rows_len: usize,
            count: u32,
            target: u32,
            source: u32,
            answer: *mut u32,
        ) -> u32;

        fn delta_null_castable(
            rows: *const u32,
            rows_len: usize,
            count: u32,
            source: u32,
            target: u32,
            answer: *mut u32,
            pairs: *mut u64,
        ) -> u32;

        /// 0 with the size, or the number of the refusal.
        fn delta_null_word_size(rows: *const u32, rows_len: usize, count: u32, n: u32, size: *mut u32) -> u32;

        /// 0 with the length of the text, or the number of the refusal with its place.
        fn delta_null_messages(
            input: *const u8,
            input_len: usize,
            rows: *const u32,
            rows_len: usize,
            row_count: u32,
            errors: *const u32,
            errors_len: usize,
            error_count: usize,
            built_in: *const u8,
            built_in_len: usize,
            work: *mut u32,
            work_len: usize,
            text: *mut u8,
            text_len: usize,
            length: *mut usize,
            place: *mut usize,
        ) -> u32;
    }

    /// Buffers as they are before a run.
    fn buffers(loans: Loans) -> Said {
        Said {
            number: 0,
            values: [0, 0],
            output: vec![FILL as u8; loans.output],
            rows: vec![FILL; loans.rows],
            errors: vec![FILL; loans.errors],
            work: vec![FILL; loans.work],
        }
    }

    fn run(module: &[u8], said: &mut Said) {
        let (mut row_count, mut error_count, mut place) = (0, 0, 0);
        // The slices are apart from each other, and the function keeps none of them.
        said.number = unsafe {
            delta_null_type_check_module(
                module.as_ptr(),
                module.len(),
                said.output.as_mut_ptr(),
                said.output.len(),
                said.rows.as_mut_ptr(),
                said.rows.len(),
                said.errors.as_mut_ptr(),
                said.errors.len(),
                said.work.as_mut_ptr(),
                said.work.len(),
                &mut row_count,
                &mut error_count,
                &mut place,
            )
        };
        said.values = match said.number {
            0 => [row_count, error_count as u32],
            _ => [place as u32, 0],
        };
    }

    /// On a thread of its own, with a limit of time.
    pub fn check(module: &[u8], loans: Loans) -> Result<Said, String> {
        let (send, receive) = mpsc::channel();
        let module = module.to_vec();
        thread::spawn(move || {
            let mut said = buffers(loans);
            run(&module, &mut said);
            let _ = send.send(said);
        });
        receive.recv_timeout(LIMIT).map_err(|_| "no answer in time".to_owned())
    }

    fn reply(rows: &[u32], count: u32, question: Question) -> Reply {
        let (words, length) = (rows.as_ptr(), rows.len());
        let mut reply = Reply { number: 0, value: FILL, pairs: 0 };
        // The slices are apart from each other, and the functions keep none of them.
        reply.number = unsafe {
            match question {
                Question::Assignable { target, source } => {
                    delta_null_assignable(words, length, count, target, source, &mut reply.value)
                }
                Question::Castable { source, target } => {
                    reply.pairs = u64::MAX;
                    delta_null_castable(words, length, count, source, target, &mut reply.value, &mut reply.pairs)
                }
                Question::WordSize { n } => delta_null_word_size(words, length, count, n, &mut reply.value),
            }
        };
        reply
    }

    /// On a thread of its own, with a limit of time. The rows must stay as they were.
    pub fn replies(rows: &[u32], count: u32, questions: &[Question]) -> Result<Vec<Reply>, String> {
        let (send, receive) = mpsc::channel();
        let (before, questions) = (rows.to_vec(), questions.to_vec());
        thread::spawn(move || {
            let rows = before.clone();
            let replies = questions.into_iter().map(|question| reply(&rows, count, question)).collect();
            let _ = send.send((rows == before).then_some(replies));
        });
        let replies = receive.recv_timeout(LIMIT).map_err(|_| "no answer in time".to_owned())?;
        replies.ok_or_else(|| "the rows are not as they were".to_owned())
    }

    /// What is lent for a question, before it is asked.
    fn lent(question: &Tell) -> Told {
        let (work, text) = (vec![FILL; question.work], vec![FILL as u8; question.text]);
        Told { number: FILL, length: FILL as usize, place: FILL as usize, work, text }
    }

    fn tell(question: &Tell, told: &mut Told) {
        // The slices are apart from each other, and the function keeps none of them.
        told.number = unsafe {
            delta_null_messages(
                question.module.as_ptr(),
                question.module.len(),
                question.rows.as_ptr(),
                question.rows.len(),
                question.row_count,
                question.errors.as_ptr(),
                question.errors.len(),
                question.error_count,
                question.built_in.as_ptr(),
                question.built_in.len(),
                told.work.as_mut_ptr(),
                told.work.len(),
                told.text.as_mut_ptr(),
                told.text.len(),
                &mut told.length,
                &mut told.place,
            )
        };
    }

    /// On a thread of its own, with a limit of time. What is only read must stay as it was.
    pub fn told(questions: &[Tell]) -> Result<Vec<Told>, String> {
        let (send, receive) = mpsc::channel();
        let before = questions.to_vec();
        thread::spawn(move || {
            let questions = before.clone();
            let mut all: Vec<Told> = questions.iter().map(lent).collect();
            questions.iter().zip(&mut all).for_each(|(question, told)| tell(question, told));
            let _ = send.send((questions == before).then_some(all));
        });
        let told = receive.recv_timeout(LIMIT).map_err(|_| "no messages in time".to_owned())?;
        told.ok_or_else(|| "what messages read is not as it was".to_owned())
    }

    pub fn tell_again(question: &Tell, turns: u32) {
        let mut told = lent(question);
        for _ in 0..turns {
            tell(std::hint::black_box(question), &mut told);
        }
    }

    pub fn repeat(module: &[u8], turns: u32) {
        let mut said = buffers(ROOMY);
        for _ in 0..turns {
            run(std::hint::black_box(module), &mut said);
        }
    }
}

/// A running program.
pub struct Program {
    path: PathBuf,
    child: Child,
    to: BufWriter<ChildStdin>,
    ask: Sender<Loans>,
    hear: Receiver<Result<Said, String>>,
}

impl Program {
    fn start(path: &Path) -> Result<Self, String> {
        let path = path.to_owned();
        let child = Command::new(&path).stdin(Stdio::piped()).stdout(Stdio::piped()).spawn();
        let mut child = child.map_err(|e| format!("{}: {e}", path.display()))?;
        let to = BufWriter::new(child.stdin.take().unwrap());
        let from = child.stdout.take().unwrap();
        let (ask, asked) = mpsc::channel();
        let (say, hear) = mpsc::channel();
        thread::spawn(move || listen(from, asked, say));
        Ok(Program { path, child, to, ask, hear })
    }

    /// If the program ends or takes too long it is started again.
    fn check(&mut self, module: &[u8], loans: Loans) -> Result<Said, String> {
        let said = self.asked(module, loans, 1).and_then(|()| {
            self.ask.send(loans).map_err(|e| e.to_string())?;
            self.hear.recv_timeout(LIMIT).map_err(|_| "no answer in time".to_owned())?
        });
        if said.is_err() {
            let _ = self.child.kill();
            let _ = self.child.wait();
            *self = Program::start(&self.path)?;
        }
        said
    }

    fn repeat(&mut self, module: &[u8], turns: u32) -> Result<(), String> {
        self.asked(module, ROOMY, turns)?;
        self.ask.send(Loans { output: 0, rows: 0, errors: 0, work: 0 }).map_err(|e| e.to_string())?;
        self.hear.recv().map_err(|e| e.to_string())?.map(|_| ())
    }

    fn asked(&mut self, module: &[u8], loans: Loans, turns: u32) -> Result<(), String> {
        let sizes = [module.len(), loans.output, loans.rows, loans.errors, loans.work].map(|size| size as u32);
        let head: Vec<u8> = sizes.into_iter().chain([FILL, turns]).flat_map(u32::to_le_bytes).collect();
        let sent = self.to.write_all(&head).and_then(|()| self.to.write_all(module)).and_then(|()| self.to.flush());
        sent.map_err(|e| e.to_string())
    }
}

impl Drop for Program {
    fn drop(&mut self) {
        let _ = self.child.kill();
        let _ = self.child.wait();
    }
}

/// Reads an answer for each question.
fn listen(from: ChildStdout, asked: Receiver<Loans>, say: Sender<Result<Said, String>>) {
    let mut from = BufReader::with_capacity(1 << 18, from);
    for loans in asked {
        let said = answer(&mut from, loans).map_err(|e| format!("the program ended: {e}"));
        if say.send(said).is_err() {
            return;
        }
    }
}

fn answer(from: &mut impl Read, loans: Loans) -> std::io::Result<Said> {
    let mut bytes = |count: usize| {
        let mut bytes = vec![0; count];
        from.read_exact(&mut bytes).map(|()| bytes)
    };
    let head = words(&bytes(12)?).unwrap();
    let output = bytes(loans.output)?;
    let mut some_words = |count: usize| bytes(4 * count).map(|bytes| words(&bytes).unwrap());
    Ok(Said {
        number: head[0],
        values: [head[1], head[2]],
        output,
        rows: some_words(loans.rows)?,
        errors: some_words(loans.errors)?,
        work: some_words(loans.work)?,
    })
}
