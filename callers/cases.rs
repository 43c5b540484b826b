//! Runs the stored cases of the entries that the static library has, and compares what comes back with the expected frames.
//! The frames are those of reference/README.md. Status 1: an answer differs, or no case is run; status 2: the files are no cases.

use std::process::exit;

extern "C" {
    fn ruzhtylen_read_jobs(jobs: *const u8, length: usize) -> u32;
    fn ruzhtylen_bounds(
        jobs: *const u8,
        jobs_length: usize,
        low: u8,
        high: u8,
        configuration: *const u8,
        configuration_length: usize,
        bounds: *mut u8,
        bounds_length: usize,
    ) -> u32;
    fn ruzhtylen_breakdown(
        jobs: *const u8,
        jobs_length: usize,
        low: u8,
        high: u8,
        configuration: *const u8,
        configuration_length: usize,
        output: *mut u8,
        output_length: usize,
    ) -> u32;
    fn ruzhtylen_mark(
        jobs: *const u8,
        jobs_length: usize,
        low: u8,
        high: u8,
        configuration: *const u8,
        configuration_length: usize,
        bounds: *mut u8,
        bounds_length: usize,
    ) -> u32;
    fn ruzhtylen_plan(
        jobs: *const u8,
        jobs_length: usize,
        low: u8,
        high: u8,
        configuration: *mut u8,
        configuration_length: usize,
        bounds: *mut u8,
        bounds_length: usize,
    ) -> u32;
    fn ruzhtylen_gate_mark(
        jobs: *const u8,
        jobs_length: usize,
        low: u8,
        high: u8,
        configuration: *const u8,
        configuration_length: usize,
        bounds: *mut u8,
        bounds_length: usize,
    ) -> u32;
    fn ruzhtylen_gate_plan(
        jobs: *const u8,
        jobs_length: usize,
        low: u8,
        high: u8,
        configuration: *mut u8,
        configuration_length: usize,
        bounds: *mut u8,
        bounds_length: usize,
    ) -> u32;
    fn ruzhtylen_same_bytes(a: *const u8, a_length: usize, b: *const u8, b_length: usize) -> u8;
    fn ruzhtylen_to_kernel(
        jobs: *const u8,
        jobs_length: usize,
        low: u8,
        high: u8,
        lowest: u8,
        highest: u8,
        configuration: *const u8,
        configuration_length: usize,
        output: *mut u8,
        output_length: usize,
    ) -> u32;
    fn ruzhtylen_from_kernel(
        jobs: *const u8,
        jobs_length: usize,
        low: u8,
        high: u8,
        lowest: u8,
        highest: u8,
        kernel: *const u8,
        kernel_length: usize,
        output: *mut u8,
        output_length: usize,
    ) -> u32;
}

/// One frame: an entry's or a refusal's number, then numbers and blocks.
struct Frame {
    head: u8,
    numbers: Vec<u16>,
    blocks: Vec<Vec<u8>>,
}

/// What a call gives back: its word, and the outputs lent as the expected frame has them. There are none where that frame has a
/// table, which the library does not give.
struct Answer {
    word: u32,
    outputs: Option<Vec<Vec<u8>>>,
}

/// An entry that the library has.
struct Entry {
    /// In an input frame.
    number: u8,
    /// How many numbers it answers where it has no refusal.
    numbers: usize,
    /// Makes the call of an input frame; none where its numbers and blocks are not those that the entry is given.
    call: fn(Frame) -> Option<Answer>,
}

const ENTRIES: &[Entry] = &[
    entry(1, 1, read_jobs),
    entry(5, 0, |frame| with_configuration(frame, ruzhtylen_bounds)),
    entry(6, 1, |frame| with_configuration(frame, ruzhtylen_mark)),
    entry(7, 2, |frame| with_outputs(frame, ruzhtylen_plan)),
    entry(8, 1, same_bytes),
    entry(11, 0, |frame| with_priorities(frame, ruzhtylen_to_kernel)),
    entry(12, 0, |frame| with_priorities(frame, ruzhtylen_from_kernel)),
    entry(13, 0, |frame| {
        with_configuration(frame, ruzhtylen_breakdown)
    }),
    entry(14, 2, |frame| with_outputs(frame, ruzhtylen_gate_plan)),
    entry(15, 1, |frame| {
        with_configuration(frame, ruzhtylen_gate_mark)
    }),
];

const fn entry(number: u8, numbers: usize, call: fn(Frame) -> Option<Answer>) -> Entry {
    Entry {
        number,
        numbers,
        call,
    }
}

fn read_jobs(frame: Frame) -> Option<Answer> {
    let ([], [jobs]) = parts(frame)?;
    // SAFETY: the pointer is that of a slice with the length beside it.
    let word = unsafe { ruzhtylen_read_jobs(jobs.as_ptr(), jobs.len()) };
    let outputs = None;
    Some(Answer { word, outputs })
}

/// An entry that is given a job block, a quantum range and a configuration block, and lent an output.
type WithConfiguration =
    unsafe extern "C" fn(*const u8, usize, u8, u8, *const u8, usize, *mut u8, usize) -> u32;

fn with_configuration(frame: Frame, call: WithConfiguration) -> Option<Answer> {
    let ([low, high], [jobs, configuration, mut output]) = parts(frame)?;
    // SAFETY: each pointer is that of a slice with the length beside it, and no two of the slices overlap.
    let word = unsafe {
        call(
            jobs.as_ptr(),
            jobs.len(),
            low,
            high,
            configuration.as_ptr(),
            configuration.len(),
            output.as_mut_ptr(),
            output.len(),
        )
    };
    let outputs = Some(vec![output]);
    Some(Answer { word, outputs })
}

/// An entry that is given a job block and a quantum range, and lent two outputs.
type WithOutputs =
    unsafe extern "C" fn(*const u8, usize, u8, u8, *mut u8, usize, *mut u8, usize) -> u32;

fn with_outputs(frame: Frame, call: WithOutputs) -> Option<Answer> {
    let ([low, high], [jobs, mut configuration, mut bounds]) = parts(frame)?;
    // SAFETY: each pointer is that of a slice with the length beside it, and no two of the slices overlap.
    let word = unsafe {
        call(
            jobs.as_ptr(),
            jobs.len(),
            low,
            high,
            configuration.as_mut_ptr(),
            configuration.len(),
            bounds.as_mut_ptr(),
            bounds.len(),
        )
    };
    let outputs = Some(vec![configuration, bounds]);
    Some(Answer { word, outputs })
}

/// Its answer is one byte, which stands where a word has its first number.
fn same_bytes(frame: Frame) -> Option<Answer> {
    let ([], [a, b]) = parts(frame)?;
    // SAFETY: each pointer is that of a slice with the length beside it.
    let yes = unsafe { ruzhtylen_same_bytes(a.as_ptr(), a.len(), b.as_ptr(), b.len()) };
    let word = u32::from(yes) << 8;
    let outputs = Some(Vec::new());
    Some(Answer { word, outputs })
}

/// An entry that is given a job block, a quantum range, two priorities and a block of records, and lent an output.
type WithPriorities =
    unsafe extern "C" fn(*const u8, usize, u8, u8, u8, u8, *const u8, usize, *mut u8, usize) -> u32;

fn with_priorities(frame: Frame, call: WithPriorities) -> Option<Answer> {
    let ([low, high, lowest, highest], [jobs, records, mut output]) = parts(frame)?;
    // SAFETY: each pointer is that of a slice with the length beside it, and no two of the slices overlap.
    let word = unsafe {
        call(
            jobs.as_ptr(),
            jobs.len(),
            low,
            high,
            lowest,
            highest,
            records.as_ptr(),
            records.len(),
            output.as_mut_ptr(),
            output.len(),
        )
    };
    let outputs = Some(vec![output]);
    Some(Answer { word, outputs })
}

/// The numbers, each of which is a byte, and the blocks of a frame, if there are so many.
fn parts<const NUMBERS: usize, const BLOCKS: usize>(
    frame: Frame,
) -> Option<([u8; NUMBERS], [Vec<u8>; BLOCKS])> {
    let numbers = frame.numbers.iter().map(|number| u8::try_from(*number));
    let numbers: Vec<u8> = numbers.collect::<Result<_, _>>().ok()?;
    Some((numbers.try_into().ok()?, frame.blocks.try_into().ok()?))
}

/// Whether an answer is that of an expected frame. A word has the refusal in its lowest byte, then the first number in one byte and the
/// second in two; those that are not answered are 0.
fn is_expected(found: &Answer, numbers: usize, expected: &Frame) -> bool {
    let [refusal, first, low, high] = found.word.to_le_bytes();
    let all = [u16::from(first), u16::from_le_bytes([low, high])];
    let (answered, others) = all.split_at(if refusal == 0 { numbers } else { 0 });
    let outputs = found.outputs.as_ref();
    refusal == expected.head
        && answered == expected.numbers
        && others.iter().all(|other| *other == 0)
        && outputs.is_none_or(|outputs| *outputs == expected.blocks)
}

/// Takes so many bytes off the start, if there are as many.
fn take<'a>(bytes: &mut &'a [u8], count: usize) -> Option<&'a [u8]> {
    let (taken, rest) = bytes.split_at_checked(count)?;
    *bytes = rest;
    Some(taken)
}

fn take_byte(bytes: &mut &[u8]) -> Option<u8> {
    take(bytes, 1)?.first().copied()
}

fn take_number(bytes: &mut &[u8]) -> Option<u16> {
    let pair = take(bytes, 2)?.try_into().ok()?;
    Some(u16::from_be_bytes(pair))
}

/// Takes bytes that have their length before them.
fn take_block<'a>(bytes: &mut &'a [u8]) -> Option<&'a [u8]> {
    let length = take_number(bytes)?;
    take(bytes, usize::from(length))
}

/// Takes the parts of a frame.
fn take_parts(bytes: &mut &[u8]) -> Option<Frame> {
    let head = take_byte(bytes)?;
    let count = take_byte(bytes)?;
    let numbers = (0..count)
        .map(|_| take_number(bytes))
        .collect::<Option<_>>()?;
    let count = take_byte(bytes)?;
    let blocks = (0..count).map(|_| Some(take_block(bytes)?.to_vec()));
    let blocks = blocks.collect::<Option<_>>()?;
    Some(Frame {
        head,
        numbers,
        blocks,
    })
}

/// The frames of a file, or what is wrong with it.
fn frames(path: &str) -> Result<Vec<Frame>, String> {
    let file = std::fs::read(path).map_err(|error| format!("{path}: {error}"))?;
    let (mut rest, mut frames) = (file.as_slice(), Vec::new());
    while !rest.is_empty() {
        let damaged = |what: &str| format!("{path}: frame {} {what}", frames.len());
        let mut bytes = take_block(&mut rest).ok_or_else(|| damaged("ends early"))?;
        let frame = take_parts(&mut bytes);
        let frame = frame.ok_or_else(|| damaged("has parts that do not fit in its length"))?;
        if !bytes.is_empty() {
            return Err(damaged("has bytes left over after its parts"));
        }
        frames.push(frame);
    }
    Ok(frames)
}

/// Runs the cases, says which differ, and answers how many were run and how many differ.
fn run(input: &str, expected: &str) -> Result<(usize, usize), String> {
    let (inputs, answers) = (frames(input)?, frames(expected)?);
    if inputs.len() != answers.len() {
        let (frames, others) = (inputs.len(), answers.len());
        return Err(format!(
            "{input} has {frames} frames, {expected} has {others}"
        ));
    }
    let (mut run, mut differing) = (0, 0);
    for (place, (frame, answer)) in inputs.into_iter().zip(answers).enumerate() {
        let number = frame.head;
        let Some(entry) = ENTRIES.iter().find(|entry| entry.number == number) else {
            continue;
        };
        let found = (entry.call)(frame).ok_or_else(|| {
            format!("{input}: frame {place} has not the numbers and blocks of entry {number}")
        })?;
        run += 1;
        if !is_expected(&found, entry.numbers, &answer) {
            differing += 1;
            println!("case {place}, entry {number}: differs");
        }
    }
    Ok((run, differing))
}

fn main() {
    let paths: Vec<String> = std::env::args().skip(1).collect();
    let [input, expected] = paths.as_slice() else {
        eprintln!("usage: cases INPUT EXPECTED");
        exit(2)
    };
    let (run, differing) = run(input, expected).unwrap_or_else(|message| {
        eprintln!("{message}");
        exit(2)
    });
    println!("{run} cases through the static library, {differing} differ");
    exit(i32::from(run == 0 || differing > 0));
}
