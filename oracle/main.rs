//! The oracle's program: reads inputs, asks the driver, writes the answers.
//!
//! oracle (--image | --job | --op) [--words] [FILE]     one input
//! oracle --batch (image | job | op)                    many, on standard input
//! oracle --job --time N [FILE]                         nanoseconds a call, of N calls

mod cover;
mod diagnostics;
mod options;
mod react_compiler_hir;
mod react_compiler_inference;
mod react_compiler_utils;
mod walk;

use react_compiler_inference::infer_mutation_aliasing_effects::driver::{self, Fail};
use std::io::{Read, Write};

const PANICKED: u32 = 0xFFFF_FFFF;
const BAD: u32 = 0xFFFF_FFFD;
const STACK: usize = 512 << 20;
const USAGE: &str = "usage: oracle (--image | --job | --op) [--words] [FILE]
       oracle --batch (image | job | op)
       oracle --job --time N [FILE]";

/// The three kinds of input.
#[derive(Clone, Copy, PartialEq)]
enum Kind {
    Image,
    Job,
    Op,
}

/// A kind by its name.
fn kind(name: &str) -> Option<Kind> {
    match name {
        "image" => Some(Kind::Image),
        "job" => Some(Kind::Job),
        "op" => Some(Kind::Op),
        _ => None,
    }
}

/// What the command line asks for.
struct Task {
    kind: Kind,
    batch: bool,
    words: bool,
    times: u32,
    file: Option<String>,
}

/// Reads the command line; None means that it is wrong.
fn task() -> Option<Task> {
    let mut args = std::env::args().skip(1);
    let (mut chosen, mut batch, mut words, mut times, mut file) = (None, false, false, 0, None);
    while let Some(arg) = args.next() {
        match arg.as_str() {
            "--batch" => {
                chosen = Some(kind(&args.next()?)?);
                batch = true;
            }
            "--words" => words = true,
            "--time" => times = args.next()?.parse().ok()?,
            flag if flag.starts_with("--") => chosen = Some(kind(&flag[2..])?),
            _ => file = Some(arg),
        }
    }
    Some(Task { kind: chosen?, batch, words, times, file })
}

/// Words as little-endian bytes.
fn bytes_of(words: &[u32]) -> Vec<u8> {
    words.iter().flat_map(|word| word.to_le_bytes()).collect()
}

/// Runs the driver on one input; a panic in it becomes an answer like any other.
fn ask<T>(call: impl FnOnce() -> Result<T, Fail>) -> Result<T, Fail> {
    let caught = std::panic::catch_unwind(std::panic::AssertUnwindSafe(call));
    cover::end_input();
    caught.unwrap_or_else(|payload| {
        let text = payload.downcast_ref::<String>().map(String::as_str);
        let text = text.or(payload.downcast_ref::<&str>().copied()).unwrap_or("no text");
        Err(Fail::Panic(format!("in the driver: {text}")))
    })
}

/// A failure as a line of text.
fn fail_text(fail: &Fail) -> String {
    match fail {
        Fail::Bad(what) => format!("BAD JOB {what}\n"),
        Fail::Panic(message) => format!("PANIC {message}\n"),
    }
}

/// A failure as an answer of one word.
fn fail_words(fail: &Fail) -> Vec<u32> {
    match fail {
        Fail::Bad(_) => vec![BAD],
        Fail::Panic(_) => vec![PANICKED],
    }
}

/// The binary answer: the listing of an image, the words of all else.
fn answer(kind: Kind, input: &[u8]) -> Vec<u8> {
    match kind {
        Kind::Image => {
            let text = ask(|| driver::image_listing(input));
            text.unwrap_or_else(|fail| fail_text(&fail)).into_bytes()
        }
        Kind::Job => {
            bytes_of(&ask(|| driver::job_words(input)).unwrap_or_else(|fail| fail_words(&fail)))
        }
        Kind::Op => {
            bytes_of(&ask(|| driver::operation_words(input)).unwrap_or_else(|fail| fail_words(&fail)))
        }
    }
}

/// The answer for readers.
fn answer_text(kind: Kind, input: &[u8]) -> String {
    let text = match kind {
        Kind::Image => ask(|| driver::image_listing(input)),
        Kind::Job => ask(|| driver::job_text(input)),
        Kind::Op => ask(|| driver::operation_words(input)).map(|words| {
            words.iter().map(u32::to_string).collect::<Vec<_>>().join(" ") + "\n"
        }),
    };
    text.unwrap_or_else(|fail| fail_text(&fail))
}

/// One input from a file or standard input.
fn single(task: &Task) -> std::io::Result<()> {
    let mut input = Vec::new();
    match &task.file {
        Some(path) => input = std::fs::read(path)?,
        None => {
            std::io::stdin().lock().read_to_end(&mut input)?;
        }
    }
    if task.times > 0 {
        let time = ask(|| driver::job_time(&input, task.times)).map(|time| format!("{time:.1}\n"));
        let text = time.unwrap_or_else(|fail| fail_text(&fail));
        return std::io::stdout().lock().write_all(text.as_bytes());
    }
    let bytes = match task.words {
        true => answer(task.kind, &input),
        false => answer_text(task.kind, &input).into_bytes(),
    };
    std::io::stdout().lock().write_all(&bytes)
}

/// The length before an input; None at the end of the stream.
fn read_length(input: &mut impl Read) -> std::io::Result<Option<usize>> {
    let mut word = [0; 4];
    if input.read(&mut word[..1])? == 0 {
        return Ok(None);
    }
    input.read_exact(&mut word[1..])?;
    Ok(Some(u32::from_le_bytes(word) as usize))
}

/// Many inputs, each with its length before it; so are the answers.
fn batch(task: &Task) -> std::io::Result<()> {
    let mut input = std::io::BufReader::new(std::io::stdin().lock());
    let mut output = std::io::BufWriter::new(std::io::stdout().lock());
    while let Some(length) = read_length(&mut input)? {
        let mut bytes = vec![0; length];
        input.read_exact(&mut bytes)?;
        let bytes = answer(task.kind, &bytes);
        output.write_all(&(bytes.len() as u32).to_le_bytes())?;
        output.write_all(&bytes)?;
        output.flush()?;
    }
    Ok(())
}

/// Does the task in a thread whose stack suffices for the longest walk.
fn main() {
    let Some(task) = task() else {
        eprintln!("{USAGE}");
        std::process::exit(2);
    };
    std::panic::set_hook(Box::new(|_| {}));
    let work = move || {
        let result = if task.batch { batch(&task) } else { single(&task) };
        cover::write_out();
        result
    };
    let thread = std::thread::Builder::new().stack_size(STACK).spawn(work).expect("no thread");
    if let Err(error) = thread.join().expect("the oracle's own thread failed") {
        eprintln!("oracle: {error}");
        std::process::exit(1);
    }
}
