//! Files encrypted and decrypted from Rust, over age_c and std alone: the commands, the statuses and their texts are those of age.c beside it.

use std::fs;
use std::io::{Read, Seek, SeekFrom, Write};
use std::process::exit;

const OK: u32 = 0;
const OUT_TOO_SHORT: u32 = 1;
const NEED_MORE: u32 = 2;
const UNEXPECTED_EOF: u32 = 11;
const PAST_END: u32 = 14;
const TRUNCATED: u32 = 15;
const PIECE: u64 = 65_536;
const CHUNK: u64 = 65_552;
const WRONG: i32 = 100;
const RANDOM_FOR_PASSPHRASE: usize = 72;
const ERROR_TEXT: usize = 64;

unsafe extern "C" {
    fn age_encrypt(
        recipients: *const u8, recipients_length: usize, random: *const u8, random_length: usize, armored: bool,
        plain: *const u8, plain_length: usize, out: *mut u8, out_length: usize, written: *mut usize,
    ) -> u32;
    fn age_encrypt_passphrase(
        passphrase: *const u8, passphrase_length: usize, random: *const u8, random_length: usize, armored: bool,
        plain: *const u8, plain_length: usize, out: *mut u8, out_length: usize, written: *mut usize,
    ) -> u32;
    fn age_decrypt(
        identities: *const u8, identities_length: usize, file: *const u8, file_length: usize,
        out: *mut u8, out_length: usize, written: *mut usize,
    ) -> u32;
    fn age_decrypt_passphrase(
        passphrase: *const u8, passphrase_length: usize, file: *const u8, file_length: usize,
        out: *mut u8, out_length: usize, written: *mut usize,
    ) -> u32;
    fn age_open_header(
        identities: *const u8, identities_length: usize, front: *const u8, front_length: usize,
        out: *mut u8, out_length: usize, written: *mut usize, place: *mut usize,
    ) -> u32;
    fn age_open_chunk(
        key: *const u8, key_length: usize, number: u64, last: bool, text: *const u8, text_length: usize,
        out: *mut u8, out_length: usize, written: *mut usize,
    ) -> u32;
    fn age_error_text(status: u32, out: *mut u8, out_length: usize, written: *mut usize) -> u32;
    fn age_chunk_count(plain_length: u64) -> u64;
    fn age_plain_length(payload_length: u64, length: *mut u64) -> u32;
}

/// The bytes that a call hands out, where so many are mostly enough, or its status.
fn given(length: usize, mut call: impl FnMut(*mut u8, usize, *mut usize) -> u32) -> Result<Vec<u8>, u32> {
    let mut out = vec![0; length];
    loop {
        let mut written = 0;
        match call(out.as_mut_ptr(), out.len(), &mut written) {
            OK => {
                out.truncate(written);
                return Ok(out);
            }
            OUT_TOO_SHORT => out = vec![0; written],
            status => return Err(status),
        }
    }
}

/// What a status says, in English.
pub fn error_text(status: u32) -> String {
    // SAFETY: the pointers are those of a slice, with its length, and of a value.
    let text = given(ERROR_TEXT, |out, length, written| unsafe { age_error_text(status, out, length, written) });
    String::from_utf8(text.expect("a text is handed out")).expect("it is in ASCII")
}

/// The file of a plaintext: to the recipients in a text, or under the passphrase in its first line.
pub fn encrypt(text: &[u8], under: bool, armored: bool, plain: &[u8]) -> Result<Vec<u8>, u32> {
    let lines = text.iter().filter(|byte| **byte == b'\n').count() + 1;
    let mut random = vec![0; if under { RANDOM_FOR_PASSPHRASE } else { 32 + 32 * lines }];
    let read = fs::File::open("/dev/urandom").and_then(|mut file| file.read_exact(&mut random));
    read.expect("random bytes");
    let call = if under { age_encrypt_passphrase } else { age_encrypt };
    given(plain.len() + 1024, |out, length, written| {
        // SAFETY: each pointer is that of a slice, with its length, and what is written overlaps none of the others.
        unsafe {
            call(
                text.as_ptr(), text.len(), random.as_ptr(), random.len(), armored, plain.as_ptr(), plain.len(), out, length, written,
            )
        }
    })
}

/// The plaintext of a file: by the identities in a text, or by the passphrase in its first line.
pub fn decrypt(text: &[u8], under: bool, file: &[u8]) -> Result<Vec<u8>, u32> {
    let call = if under { age_decrypt_passphrase } else { age_decrypt };
    given(file.len(), |out, length, written| {
        // SAFETY: as above.
        unsafe { call(text.as_ptr(), text.len(), file.as_ptr(), file.len(), out, length, written) }
    })
}

/// The payload of a bare file that is open: its key, where it begins, and how many bytes it has.
pub struct Payload {
    file: fs::File,
    key: [u8; 32],
    place: u64,
    length: u64,
}

impl Payload {
    /// Reads the front of the file until the header is told, and twice as much where it isn't yet.
    pub fn open(text: &[u8], mut file: fs::File) -> Result<Payload, u32> {
        let length = file.metadata().expect("a length").len();
        let mut wanted = 4096;
        loop {
            let mut front = Vec::new();
            file.rewind().and_then(|()| (&file).take(wanted).read_to_end(&mut front)).expect("the front is read");
            let (mut key, mut written, mut place) = ([0; 32], 0, 0);
            // SAFETY: each pointer is that of a slice or of a value, with its length, and what is written overlaps none of the others.
            let status = unsafe {
                age_open_header(
                    text.as_ptr(), text.len(), front.as_ptr(), front.len(), key.as_mut_ptr(), key.len(), &mut written, &mut place,
                )
            };
            match status {
                OK => return Ok(Payload { file, key, place: place as u64, length: length - place as u64 }),
                NEED_MORE if wanted >= length => return Err(UNEXPECTED_EOF),
                NEED_MORE => wanted *= 2,
                refusal => return Err(refusal),
            }
        }
    }

    /// What a chunk holds, by its number, as the last one or as one before it.
    fn chunk(&mut self, number: u64, last: bool) -> Result<Vec<u8>, u32> {
        let mut sealed = Vec::new();
        let begins = SeekFrom::Start(self.place + number * CHUNK);
        self.file.seek(begins).and_then(|_| (&self.file).take(CHUNK).read_to_end(&mut sealed)).expect("a chunk is read");
        given(sealed.len(), |out, length, written| {
            // SAFETY: as above.
            unsafe {
                age_open_chunk(self.key.as_ptr(), 32, number, last, sealed.as_ptr(), sealed.len(), out, length, written)
            }
        })
    }

    /// Writes the whole plaintext. The chunk after which nothing is left has to open as the last.
    pub fn stream(&mut self, out: &mut impl Write) -> Result<(), u32> {
        for number in 0.. {
            let last = self.length - number * CHUNK <= CHUNK;
            out.write_all(&self.chunk(number, last)?).expect("the output is written");
            if last {
                break;
            }
        }
        Ok(())
    }

    /// Writes so many bytes of the plaintext from a place on, or fewer at its end, which the last chunk has to show.
    pub fn part(&mut self, from: u64, count: u64, out: &mut impl Write) -> Result<(), u32> {
        let mut length = 0;
        // SAFETY: a value is written.
        if unsafe { age_plain_length(self.length, &mut length) } != OK {
            return Err(TRUNCATED);
        }
        if from > length {
            return Err(PAST_END);
        }
        // SAFETY: a number is answered.
        let last = unsafe { age_chunk_count(length) } - 1;
        let end = from + count.min(length - from);
        if from < end {
            for number in from / PIECE..=(end - 1) / PIECE {
                let piece = self.chunk(number, number == last)?;
                let begins = number * PIECE;
                let stop = (end - begins).min(piece.len() as u64);
                out.write_all(&piece[from.saturating_sub(begins) as usize..stop as usize]).expect("the output is written");
            }
        } else if from == length && count > 0 {
            self.chunk(last, true)?;
        }
        Ok(())
    }
}

/// Writes to a file what a call gives, and takes it away where the call refuses.
fn written(name: &str, call: impl FnOnce(&mut fs::File) -> Result<(), u32>) -> Result<(), u32> {
    let mut out = fs::File::create(name).expect("the output is made");
    call(&mut out).inspect_err(|_| fs::remove_file(name).expect("the output is taken away"))
}

fn contents(name: &str) -> Vec<u8> {
    fs::read(name).unwrap_or_else(|fault| {
        eprintln!("{name}: {fault}");
        exit(WRONG)
    })
}

fn opened(name: &str) -> fs::File {
    fs::File::open(name).unwrap_or_else(|fault| {
        eprintln!("{name}: {fault}");
        exit(WRONG)
    })
}

fn main() {
    let words: Vec<String> = std::env::args().collect();
    let words: Vec<&str> = words.iter().map(String::as_str).collect();
    let answer = match words[1..] {
        ["stream", keys, given, out] => {
            Payload::open(&contents(keys), opened(given)).and_then(|mut payload| written(out, |to| payload.stream(to)))
        }
        ["part", keys, given, out, from, count] => {
            let (Ok(from), Ok(count)) = (from.parse(), count.parse()) else { exit(WRONG) };
            Payload::open(&contents(keys), opened(given)).and_then(|mut payload| written(out, |to| payload.part(from, count, to)))
        }
        [command, keys, given, out] => {
            let (keys, given) = (contents(keys), contents(given));
            let under = command.ends_with("-passphrase");
            let answer = if command.starts_with("decrypt") {
                decrypt(&keys, under, &given)
            } else {
                encrypt(&keys, under, command == "armor", &given)
            };
            answer.map(|bytes| fs::write(out, bytes).expect("the output is written"))
        }
        _ => exit(WRONG),
    };
    if let Err(status) = answer {
        eprintln!("age: {}", error_text(status));
        exit(status as i32);
    }
}
