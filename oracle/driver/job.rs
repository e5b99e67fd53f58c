//! Inputs as plain numbers: a library job of docs/VECTORS.md, and the job
//! image of document 01 read as a job of one instruction.

use super::{Fail, bad};

/// No span, no label.
pub const ABSENT: u32 = 0xFFFF_FFFF;

/// One instruction: its lvalue's place, its own function + 1 or 0, its candidates.
pub struct Instr {
    pub lvalue: u32,
    pub own: u32,
    pub candidates: Vec<[u32; 8]>,
}

/// A whole job, section by section, as in the table of docs/VECTORS.md.
pub struct Job {
    pub options: u32,
    pub flag: u32,
    pub next: u32,
    pub access: [u32; 3],
    pub walk: u32,
    pub identifiers: Vec<[u32; 4]>,
    pub values: Vec<[u32; 3]>,
    pub pairs: Vec<[u32; 2]>,
    pub places: Vec<[u32; 5]>,
    pub functions: Vec<[u32; 5]>,
    pub diagnostics: Vec<[u32; 8]>,
    pub interned: Vec<[u32; 8]>,
    pub cached: Vec<[u32; 9]>,
    pub links: Vec<[u32; 2]>,
    pub instructions: Vec<Instr>,
}

/// Words read one after the other; reading past the end is bad.
pub struct Reader<'w> {
    words: &'w [u32],
    at: usize,
}

impl<'w> Reader<'w> {
    /// Starts at word `at`.
    pub fn new(words: &'w [u32], at: usize) -> Self {
        Self { words, at }
    }
    /// The next N words.
    pub fn record<const N: usize>(&mut self) -> Result<[u32; N], Fail> {
        let end = self.at + N;
        let Some(slice) = self.words.get(self.at..end) else { return bad("the input ends early") };
        self.at = end;
        Ok(slice.try_into().unwrap())
    }
    /// The next word.
    pub fn word(&mut self) -> Result<u32, Fail> {
        Ok(self.record::<1>()?[0])
    }
    /// `count` records of N words.
    pub fn records<const N: usize>(&mut self, count: u32) -> Result<Vec<[u32; N]>, Fail> {
        (0..count).map(|_| self.record()).collect()
    }
    /// Nothing may follow the last section.
    pub fn end(&self) -> Result<(), Fail> {
        if self.at == self.words.len() { Ok(()) } else { bad("words after the last section") }
    }
}

/// A library job. Its numbers are in range by agreement; its shape is checked.
pub fn from_words(words: &[u32]) -> Result<Job, Fail> {
    let mut reader = Reader::new(words, 0);
    let head: [u32; 18] = reader.record()?;
    if head[0] != 1 {
        return bad("word 0 is not 1");
    }
    let job = Job {
        options: head[1],
        flag: head[2],
        next: head[3],
        access: [head[4], head[5], head[6]],
        walk: head[7],
        identifiers: reader.records(head[8])?,
        values: reader.records(head[9])?,
        pairs: reader.records(head[10])?,
        places: reader.records(head[11])?,
        functions: reader.records(head[12])?,
        diagnostics: reader.records(head[13])?,
        interned: reader.records(head[14])?,
        cached: reader.records(head[15])?,
        links: reader.records(head[16])?,
        instructions: (0..head[17]).map(|_| instruction(&mut reader)).collect::<Result<_, _>>()?,
    };
    reader.end()?;
    Ok(job)
}

/// One instruction of a library job.
fn instruction(reader: &mut Reader) -> Result<Instr, Fail> {
    let [lvalue, own, count] = reader.record()?;
    Ok(Instr { lvalue, own, candidates: reader.records(count)? })
}

/// A job image, taken as valid: a job of one instruction over empty tables.
pub fn from_image(words: &[u32]) -> Result<Job, Fail> {
    let mut reader = Reader::new(words, 0);
    let head: [u32; 17] = reader.record()?;
    let job = Job {
        options: head[1],
        flag: 0,
        next: head[2],
        access: [0; 3],
        walk: 0,
        identifiers: reader.records(head[5])?,
        values: reader.records(head[7])?,
        pairs: reader.records(head[9])?,
        places: reader.records(head[11])?,
        functions: reader.records(head[13])?,
        diagnostics: Vec::new(),
        interned: Vec::new(),
        cached: Vec::new(),
        links: Vec::new(),
        instructions: vec![Instr {
            lvalue: head[3],
            own: head[4],
            candidates: reader.records(head[15])?,
        }],
    };
    reader.end()?;
    Ok(job)
}
