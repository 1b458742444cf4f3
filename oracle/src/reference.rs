//! The reference's answer to a module, on a thread with a large stack and with a limit of time.

use std::{fmt, sync::mpsc, thread, time::Duration};

use crate::{
    attribute::{self, Spoken},
    decode::Decoder,
    layout::Module,
    type_check::type_check_module,
};

/// Why the reference says nothing of a module.
#[derive(Clone, Debug, PartialEq, Eq)]
pub enum Silence {
    /// Some free bytes are no UTF-8.
    Undecodable,
    /// The model foresees more work than the reference should be given.
    TooLarge,
    /// It did not answer in time.
    Timeout,
    /// It panicked, or its output could not be read: a fault of the reference or of this program.
    Broken(String),
}

impl fmt::Display for Silence {
    fn fmt(&self, f: &mut fmt::Formatter<'_>) -> fmt::Result {
        match self {
            Silence::Undecodable => write!(f, "undecodable"),
            Silence::TooLarge => write!(f, "too large"),
            Silence::Timeout => write!(f, "timeout"),
            Silence::Broken(why) => write!(f, "broken: {why}"),
        }
    }
}

/// The most work, by the model's measure, that the reference is given.
pub const MOST_WORK: u64 = 5_000_000;

const STACK: usize = 1 << 30;

/// What the reference says of a module, if it answers in time.
pub fn check(module: &Module, limit: Duration) -> Result<Spoken, Silence> {
    let (send, receive) = mpsc::channel();
    let module = module.clone();
    let worker = thread::Builder::new().stack_size(STACK).spawn(move || {
        let _ = send.send(run(&module));
    });
    let worker = worker.map_err(|e| Silence::Broken(e.to_string()))?;
    match receive.recv_timeout(limit) {
        Ok(spoken) => {
            let _ = worker.join();
            spoken
        }
        Err(mpsc::RecvTimeoutError::Timeout) => Err(Silence::Timeout),
        Err(mpsc::RecvTimeoutError::Disconnected) => Err(Silence::Broken("the reference panicked".to_owned())),
    }
}

fn run(module: &Module) -> Result<Spoken, Silence> {
    let decoder = Decoder::new(module).map_err(|_| Silence::Undecodable)?;
    let tree = decoder.module(module).map_err(|_| Silence::Undecodable)?;
    let checked = type_check_module(tree);
    attribute::attribute(module, &decoder, checked).map_err(Silence::Broken)
}
