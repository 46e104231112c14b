//! Differential tests of images as Intel HEX: the proved crates and the second implementation on the same images and texts, byte for byte.
//!
//!     hexes [CASES] [SEED]
//!
//! It ends with a table of how often each number was met, and with status 1 at a difference or where a number was never met.
#[path = "../library.rs"]
mod library;

use bench::generate::{damaged_image, good_image, large_image};
use bench::peer::hex;
use bench::random::Random;
use bench::texts;

/// Writes or reads: the input, the output's buffer, and the count or the number.
type Call = fn(&[u8], &mut [u8]) -> Result<usize, u8>;

/// A direction: its name, both implementations, and how often each number was met, accepted answers as 0.
struct Tally {
    name: &'static str,
    peer: Call,
    ours: Call,
    numbers: &'static [usize],
    met: [u64; 30],
}

/// What a call answers and leaves in its buffer.
fn called(call: Call, input: &[u8], filled: &[u8]) -> (Result<usize, u8>, Vec<u8>) {
    let mut buffer = filled.to_vec();
    (call(input, &mut buffer), buffer)
}

impl Tally {
    fn differs(&self, input: &[u8], filled: &[u8]) -> bool {
        called(self.peer, input, filled) != called(self.ours, input, filled)
    }

    /// Pieces of the input are left out, ever shorter ones, as long as a difference stays.
    fn shortest(&self, input: &[u8], filled: &[u8]) -> Vec<u8> {
        let mut short = input.to_vec();
        let mut piece = short.len();
        while piece > 0 {
            let mut at = 0;
            while at + piece <= short.len() {
                let tried = [&short[..at], &short[at + piece..]].concat();
                if self.differs(&tried, filled) {
                    short = tried;
                } else {
                    at += piece;
                }
            }
            piece /= 2;
        }
        short
    }

    /// Prints a difference with all that is needed to see it again, and ends.
    fn tell(&self, what: &str, input: &[u8], filled: &[u8]) -> ! {
        let (peer, a) = called(self.peer, input, filled);
        let (ours, b) = called(self.ours, input, filled);
        let place = a.iter().zip(&b).position(|(x, y)| x != y);
        println!("DIFFERENCE in {}: {what}", self.name);
        println!("input of {} bytes: \"{}\"", input.len(), input.escape_ascii());
        println!("buffer of {} bytes; first byte that differs: {place:?}", filled.len());
        println!("second implementation: {peer:?}\nproved crates:         {ours:?}");
        std::process::exit(1);
    }

    /// Compares answers and whole buffers; no refused call writes, and what lies past the answer stays.
    fn compare(&mut self, input: &[u8], filled: &[u8]) -> Option<usize> {
        let (peer, buffer) = called(self.peer, input, filled);
        let (ours, other) = called(self.ours, input, filled);
        if peer != ours || buffer != other {
            self.tell("the shortest input found", &self.shortest(input, filled), filled);
        }
        let written = peer.unwrap_or(0);
        if buffer[written..] != filled[written..] {
            self.tell("a byte past the answer", input, filled);
        }
        self.met[peer.err().unwrap_or(0) as usize] += 1;
        peer.ok()
    }

    /// An input with buffers that just hold the output, are one too short or none, and have more room.
    fn compare_all(&mut self, random: &mut Random, input: &[u8], room: usize) {
        let filled: Vec<u8> = (0..room + 40).map(|_| random.byte()).collect();
        let length = self.compare(input, &filled).unwrap_or_else(|| random.below(room as u64 + 1) as usize);
        self.compare(input, &filled[..length]);
        if length > 0 {
            self.compare(input, &filled[..length - 1]);
        }
        let other = random.below(length as u64 + 1) as usize;
        self.compare(input, &filled[..random.pick(&[0, 1.min(length), other, length + 1, length + 20])]);
    }

    /// How often each number was met; whether one never was.
    fn print(&self) -> bool {
        println!("{}: {} calls, {} accepted", self.name, self.met.iter().sum::<u64>(), self.met[0]);
        for number in self.numbers {
            println!("number {number:2}: {}", self.met[*number]);
        }
        self.met[0] == 0 || self.numbers.iter().any(|number| self.met[*number] == 0)
    }
}

fn fails(what: &str, bytes: &[u8]) -> ! {
    println!("DIFFERENCE: {what}\nbytes \"{}\"", bytes.escape_ascii());
    std::process::exit(1);
}

/// What the proved crates read of a text, into a buffer with room for `most` bytes.
fn bytes_of(text: &[u8], most: usize) -> Option<Vec<u8>> {
    let mut bytes = vec![0; most];
    let count = library::hex_read(text, &mut bytes).ok()?;
    bytes.truncate(count);
    Some(bytes)
}

/// An image written; what is written is the text of its bytes, and reads back as the image.
fn one_image(tally: &mut Tally, random: &mut Random) {
    let image = match random.below(24) {
        0 => large_image(random),
        1..=14 => good_image(random),
        _ => damaged_image(random),
    };
    tally.compare_all(random, &image, 3 * image.len() + 60);
    let mut text = vec![0; 12_000];
    if let Ok(count) = library::hex_write(&image, &mut text) {
        text.truncate(count);
        if text != hex::text_of(&image) || bytes_of(&text, image.len()).as_ref() != Some(&image) {
            fails("an image written and read again", &image);
        }
    }
}

/// A text read; the text of the bytes that it gives reads as the same bytes.
fn one_text(tally: &mut Tally, random: &mut Random) {
    let text = texts::text(random);
    tally.compare_all(random, &text, text.len() / 2);
    if let Some(bytes) = bytes_of(&text, text.len() / 2) {
        if bytes_of(&hex::text_of(&bytes), bytes.len()).as_ref() != Some(&bytes) {
            fails("a text read, written and read again", &text);
        }
    }
}

fn main() {
    let mut words = std::env::args().skip(1);
    let cases: u64 = words.next().map_or(20_000, |word| word.parse().expect("a count of cases"));
    let seed: u64 = words.next().map_or(1, |word| word.parse().expect("a seed"));
    let mut written =
        Tally { name: "images written", peer: hex::write, ours: library::hex_write, numbers: &[1, 2, 3, 4, 5, 6, 7, 8, 25], met: [0; 30] };
    let mut read = Tally { name: "texts read", peer: hex::read, ours: library::hex_read, numbers: &[25, 27, 28, 29], met: [0; 30] };
    for case in 0..cases {
        let mut random = Random::new(seed.wrapping_mul(0x1_0000_0001).wrapping_add(case << 8));
        for _ in 0..2 {
            one_image(&mut written, &mut random);
        }
        for _ in 0..6 {
            one_text(&mut read, &mut random);
        }
    }
    println!("seed {seed}, {cases} cases of Intel HEX");
    let never = [written.print(), read.print()];
    if never.contains(&true) {
        println!("a number was never met");
        std::process::exit(1);
    }
    println!("no difference");
}
