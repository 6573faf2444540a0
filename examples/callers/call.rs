//! Validates a document with libyangcheck, and prints the result as JSON lines and the sentences on it.
//!
//!     rustc --edition=2021 examples/callers/call.rs -L out/library -l static=yangcheck -o call

use std::io::Write;

// In the edition 2024 of Rust, `unsafe extern`.
extern "C" {
    fn yangcheck_run(
        words: *const u8, words_length: usize, word_ends: *const usize, word_count: usize,
        files: *const u8, files_length: usize, file_ends: *const usize, file_count: usize,
        documents: *const u8, documents_length: usize,
        document_ends: *const usize, document_count: usize,
        buffer: *mut u8, buffer_length: usize,
        output_length: *mut usize, note_length: *mut usize,
    ) -> u8;
}

/// Parts in one buffer, with the place where each ends.
struct Parts {
    bytes: Vec<u8>,
    ends: Vec<usize>,
}

impl Parts {
    fn of(parts: &[&[u8]]) -> Parts {
        let ends = parts.iter().scan(0, |end, part| {
            *end += part.len();
            Some(*end)
        });
        Parts { bytes: parts.concat(), ends: ends.collect() }
    }
}

/// What the program yangcheck would print, and its exit status.
struct Answer {
    status: u8,
    output: Vec<u8>,
    note: Vec<u8>,
}

fn run(words: &[&str], files: &[&[u8]], documents: &[&[u8]]) -> Answer {
    let words: Vec<&[u8]> = words.iter().map(|word| word.as_bytes()).collect();
    let (words, files, documents) = (Parts::of(&words), Parts::of(files), Parts::of(documents));
    let (mut output, mut note) = (0, 0);
    let mut buffer = vec![0; 65536];
    loop {
        // Vectors have pointers that are not null, also when they are empty.
        let status = unsafe {
            yangcheck_run(
                words.bytes.as_ptr(), words.bytes.len(), words.ends.as_ptr(), words.ends.len(),
                files.bytes.as_ptr(), files.bytes.len(), files.ends.as_ptr(), files.ends.len(),
                documents.bytes.as_ptr(), documents.bytes.len(),
                documents.ends.as_ptr(), documents.ends.len(),
                buffer.as_mut_ptr(), buffer.len(), &mut output, &mut note,
            )
        };
        if output + note <= buffer.len() {
            buffer.truncate(output + note);
            let note = buffer.split_off(output);
            return Answer { status, output: buffer, note };
        }
        buffer.resize(output + note, 0);
    }
}

fn main() {
    let words = ["validate", "--format=json", "--data=size.json", "ex.yang"];
    let module: &[u8] =
        b"module ex { yang-version 1.1; namespace urn:ex; prefix ex; leaf size { type int8; } }";
    let document: &[u8] = b"{\"ex:size\": 200}";
    let answer = run(&words, &[module], &[document]);
    std::io::stdout().write_all(&answer.output).expect("standard output");
    std::io::stderr().write_all(&answer.note).expect("standard error");
    std::process::exit(answer.status.into());
}
