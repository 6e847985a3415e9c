//! A stream's text by `encoding_rs_io`, to be timed beside `unwrap text`: with the same options, and
//! with the same lengths of what is read and of what is written at once. And the bytes of a text by
//! `encoding_rs`, to be timed beside `checks/encode.rt.txt`.
//!
//! `peer [LABEL]` copies standard input to standard output, decoded. `peer encode LABEL TIMES`
//! encodes it, so many times over, in pieces of 4096 bytes.

use encoding_rs::{EncoderResult, Encoding};
use encoding_rs_io::DecodeReaderBytesBuilder;
use std::fs::File;
use std::io::{self, Read, Write};
use std::mem::ManuallyDrop;
use std::os::unix::io::FromRawFd;
use std::process::ExitCode;

const BUFFER: usize = 8192;
const PIECE: usize = 4096;

// The standard streams without the buffers that Rust puts around them.
fn unbuffered(number: i32) -> ManuallyDrop<File> {
    // SAFETY: the numbers 0 and 1 are open while the process runs, and aren't closed here.
    ManuallyDrop::new(unsafe { File::from_raw_fd(number) })
}

fn copy(encoding: Option<&'static Encoding>) -> io::Result<()> {
    let source = unbuffered(0);
    let mut sink = unbuffered(1);
    let mut reader = DecodeReaderBytesBuilder::new()
        .encoding(encoding)
        .build_with_buffer(&*source, vec![0; BUFFER])?;
    let mut piece = [0; PIECE];
    loop {
        let count = reader.read(&mut piece)?;
        if count == 0 {
            return Ok(());
        }
        sink.write_all(&piece[..count])?;
    }
}

fn encode(encoding: &'static Encoding, text: &str) -> io::Result<()> {
    let mut sink = unbuffered(1);
    let mut encoder = encoding.new_encoder();
    let mut piece = [0; PIECE];
    let mut rest = text;
    loop {
        let (result, read, written) =
            encoder.encode_from_utf8_without_replacement(rest, &mut piece, true);
        sink.write_all(&piece[..written])?;
        if let EncoderResult::InputEmpty = result {
            return Ok(());
        }
        rest = &rest[read..];
    }
}

fn encode_times(encoding: &'static Encoding, times: u32) -> io::Result<()> {
    let mut content = Vec::new();
    (&*unbuffered(0)).read_to_end(&mut content)?;
    let text = std::str::from_utf8(&content).map_err(|_| io::ErrorKind::InvalidData)?;
    for _ in 0..times {
        encode(encoding, text)?;
    }
    Ok(())
}

fn main() -> ExitCode {
    let words: Vec<String> = std::env::args().skip(1).collect();
    let encoding = |label: &String| Encoding::for_label(label.as_bytes());
    let done = match &words[..] {
        [] => copy(None),
        [label] => match encoding(label) {
            Some(encoding) => copy(Some(encoding)),
            None => return ExitCode::from(2),
        },
        [command, label, times] if command == "encode" => match (encoding(label), times.parse()) {
            (Some(encoding), Ok(times)) => encode_times(encoding, times),
            _ => return ExitCode::from(2),
        },
        _ => return ExitCode::from(2),
    };
    match done {
        Ok(()) => ExitCode::SUCCESS,
        Err(_) => ExitCode::from(5),
    }
}
