//! Judges files in this process: prints the text of the program's command of the same name, and ends with its status.
//!
//!     rustc -L lib -l static=timeweave -o judge examples/bindings/judge.rs
//!     ./judge strict PROOF ANCHORS
use std::{env, error, fmt, fs, io, io::Write, process::ExitCode};

/// Bytes that the library reads: a slice's pointer, which is never null, also where it is empty, and its length.
type At = *const u8;

extern "C" {
    fn timeweave_verify(proof: At, proof_size: usize, anchors: At, anchors_size: usize, out: *mut u8, room: usize, size: *mut usize)
        -> u32;
    fn timeweave_strict(proof: At, proof_size: usize, anchors: At, anchors_size: usize, out: *mut u8, room: usize, size: *mut usize)
        -> u32;
    fn timeweave_checkfork(
        evidence: At,
        evidence_size: usize,
        anchors: At,
        anchors_size: usize,
        out: *mut u8,
        room: usize,
        size: *mut usize,
    ) -> u32;
    fn timeweave_checkmap(
        low: At,
        low_size: usize,
        high: At,
        high_size: usize,
        anchors: At,
        anchors_size: usize,
        out: *mut u8,
        room: usize,
        size: *mut usize,
    ) -> u32;
    fn timeweave_contradict(
        first: At,
        first_size: usize,
        first_anchors: At,
        first_anchors_size: usize,
        second: At,
        second_size: usize,
        second_anchors: At,
        second_anchors_size: usize,
        link: At,
        link_size: usize,
        out: *mut u8,
        room: usize,
        size: *mut usize,
    ) -> u32;
    fn timeweave_receiver(
        evidence: At,
        evidence_size: usize,
        anchors: At,
        anchors_size: usize,
        link: At,
        link_size: usize,
        out: *mut u8,
        room: usize,
        size: *mut usize,
    ) -> u32;
}

/// What isn't accepted, with its text: files for a reason, or a file that can't be read; or there was no memory, and nothing was judged.
#[derive(Debug)]
enum Refusal {
    Rejected(String),
    Unreadable(String),
    NoMemory(String),
}

impl fmt::Display for Refusal {
    fn fmt(&self, out: &mut fmt::Formatter) -> fmt::Result {
        let (Refusal::Rejected(text) | Refusal::Unreadable(text) | Refusal::NoMemory(text)) = self;
        out.write_str(text)
    }
}

impl error::Error for Refusal {}

/// The report of what is accepted, by a call that is given room for its text, and tells how much it needs.
fn answer(call: impl Fn(*mut u8, usize, *mut usize) -> u32) -> Result<String, Refusal> {
    let (mut out, mut size) = (vec![0; 1024], 0);
    let mut status = call(out.as_mut_ptr(), out.len(), &mut size);
    if size > out.len() {
        out.resize(size, 0);
        status = call(out.as_mut_ptr(), out.len(), &mut size);
    }
    out.truncate(size);
    let text = String::from_utf8(out).expect("texts are ASCII");
    match status {
        0 => Ok(text),
        1 => Err(Refusal::Rejected(text)),
        9 => Err(Refusal::Unreadable(text)),
        _ => Err(Refusal::NoMemory(text)),
    }
}

// SAFETY, of each call: each pointer goes with its length, and `out` and `size` overlap nothing.

fn verify(proof: &[u8], anchors: &[u8]) -> Result<String, Refusal> {
    answer(|out, room, size| unsafe { timeweave_verify(proof.as_ptr(), proof.len(), anchors.as_ptr(), anchors.len(), out, room, size) })
}

fn strict(proof: &[u8], anchors: &[u8]) -> Result<String, Refusal> {
    answer(|out, room, size| unsafe { timeweave_strict(proof.as_ptr(), proof.len(), anchors.as_ptr(), anchors.len(), out, room, size) })
}

fn checkfork(evidence: &[u8], anchors: &[u8]) -> Result<String, Refusal> {
    answer(|out, room, size| unsafe {
        timeweave_checkfork(evidence.as_ptr(), evidence.len(), anchors.as_ptr(), anchors.len(), out, room, size)
    })
}

fn checkmap(low: &[u8], high: &[u8], anchors: &[u8]) -> Result<String, Refusal> {
    answer(|out, room, size| unsafe {
        timeweave_checkmap(
            low.as_ptr(),
            low.len(),
            high.as_ptr(),
            high.len(),
            anchors.as_ptr(),
            anchors.len(),
            out,
            room,
            size,
        )
    })
}

fn contradict(first: &[u8], first_anchors: &[u8], second: &[u8], second_anchors: &[u8], link: &[u8]) -> Result<String, Refusal> {
    answer(|out, room, size| unsafe {
        timeweave_contradict(
            first.as_ptr(),
            first.len(),
            first_anchors.as_ptr(),
            first_anchors.len(),
            second.as_ptr(),
            second.len(),
            second_anchors.as_ptr(),
            second_anchors.len(),
            link.as_ptr(),
            link.len(),
            out,
            room,
            size,
        )
    })
}

fn receiver(evidence: &[u8], anchors: &[u8], link: &[u8]) -> Result<String, Refusal> {
    answer(|out, room, size| unsafe {
        timeweave_receiver(
            evidence.as_ptr(),
            evidence.len(),
            anchors.as_ptr(),
            anchors.len(),
            link.as_ptr(),
            link.len(),
            out,
            room,
            size,
        )
    })
}

fn main() -> ExitCode {
    let words: Vec<String> = env::args().skip(1).collect();
    let files: Vec<Vec<u8>> = match words.iter().skip(1).map(fs::read).collect() {
        Ok(files) => files,
        Err(why) => {
            eprintln!("{why}");
            return ExitCode::from(3);
        }
    };
    let found = match (words.first().map_or("", String::as_str), &files[..]) {
        ("verify", [proof, anchors]) => verify(proof, anchors),
        ("strict", [proof, anchors]) => strict(proof, anchors),
        ("checkmap", [low, high, anchors]) => checkmap(low, high, anchors),
        ("checkfork", [evidence, anchors]) => checkfork(evidence, anchors),
        ("contradict", [first, anchors, second, others, link]) => contradict(first, anchors, second, others, link),
        ("receiver", [evidence, anchors, link]) => receiver(evidence, anchors, link),
        _ => {
            eprintln!(
                "usage: judge verify PROOF ANCHORS | strict PROOF ANCHORS | checkmap LOW HIGH ANCHORS | checkfork EVIDENCE ANCHORS | \
                 contradict FIRST ANCHORS SECOND ANCHORS LINK | receiver EVIDENCE ANCHORS LINK"
            );
            return ExitCode::from(2);
        }
    };
    let (Ok(text) | Err(Refusal::Rejected(text) | Refusal::Unreadable(text) | Refusal::NoMemory(text))) = &found;
    let mut out = io::stdout();
    if let Err(why) = out.write_all(text.as_bytes()).and_then(|()| out.flush()) {
        // (a report that isn't written is no answer)
        eprintln!("{why}");
        return ExitCode::from(4);
    }
    ExitCode::from(match found {
        Ok(_) => 0,
        Err(Refusal::Rejected(_)) => 1,
        Err(Refusal::NoMemory(_)) => 6,
        Err(Refusal::Unreadable(_)) => 9,
    })
}
