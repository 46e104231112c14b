//! Intel HEX by tools that nobody here wrote, GNU objcopy and srec_cat, against the proved crates: their text and ours of the same images,
//! their texts read by us and ours by them.
//!
//!     tools [SEED]
//!
//! A tool that is missing is skipped. It ends with status 1 at a difference.
#[path = "../library.rs"]
mod library;

use bench::assemble::{image, Code, Routine};
use bench::generate::good_image;
use bench::peer::command::{ADD, GO, LFORK};
use bench::peer::hex::text_of;
use bench::random::Random;
use bench::workload;
use std::path::Path;
use std::process::Command;

struct Tool {
    name: &'static str,
    /// its words that make a text of bytes, and bytes of a text; IN and OUT stand for the files
    write: &'static str,
    read: &'static str,
    /// whether its lines end in CR LF
    cr: bool,
}

const TOOLS: [Tool; 2] = [
    Tool { name: "objcopy", write: "-I binary -O ihex IN OUT", read: "-I ihex -O binary IN OUT", cr: true },
    Tool {
        name: "srec_cat",
        write: "IN -binary -o OUT -intel -obs=16 -address-length=2 -line-termination=unix -disable=exec-start-address",
        read: "IN -intel -o OUT -binary",
        cr: false,
    },
];

impl Tool {
    fn is_here(&self) -> bool {
        Command::new(self.name).arg("--version").output().is_ok()
    }

    /// What the tool makes of an input, by files of a folder.
    fn made(&self, folder: &Path, words: &str, input: &[u8]) -> Vec<u8> {
        let (from, to) = (folder.join("in"), folder.join("out"));
        std::fs::write(&from, input).expect("the input written");
        let _ = std::fs::remove_file(&to);
        let words = words.split(' ').map(|word| match word {
            "IN" => from.as_os_str().to_owned(),
            "OUT" => to.as_os_str().to_owned(),
            word => word.into(),
        });
        let ended = Command::new(self.name).args(words).output().expect("the tool starts");
        assert!(ended.status.success(), "{} fails: {}", self.name, String::from_utf8_lossy(&ended.stderr));
        std::fs::read(&to).expect("the output read")
    }

    /// Compares a text of ours with the tool's of the same bytes, and reads each by the other.
    fn compare(&self, folder: &Path, bytes: &[u8], ours: &[u8]) {
        let theirs = self.made(folder, self.write, bytes);
        let bare: Vec<u8> = theirs.iter().copied().filter(|character| !(self.cr && *character == b'\r')).collect();
        if bare != ours {
            self.differs("texts", bytes, ours, &theirs);
        }
        if read(&theirs).as_deref() != Ok(bytes) {
            self.differs("their text, read by us", bytes, ours, &theirs);
        }
        if self.made(folder, self.read, ours) != bytes {
            self.differs("our text, read by them", bytes, ours, &theirs);
        }
    }

    fn differs(&self, what: &str, bytes: &[u8], ours: &[u8], theirs: &[u8]) -> ! {
        println!("DIFFERENCE from {}: {what}, {} bytes", self.name, bytes.len());
        println!("ours:\n{}\ntheirs:\n{}", String::from_utf8_lossy(ours), String::from_utf8_lossy(theirs));
        std::process::exit(1);
    }
}

/// An image's text by the proved crates.
fn written(image: &[u8]) -> Vec<u8> {
    let mut text = vec![0; 12_000];
    let count = library::hex_write(image, &mut text).expect("a good image");
    text.truncate(count);
    text
}

/// A text's bytes by the proved crates.
fn read(text: &[u8]) -> Result<Vec<u8>, u8> {
    let mut bytes = vec![0; text.len()];
    let count = library::hex_read(text, &mut bytes)?;
    bytes.truncate(count);
    Ok(bytes)
}

/// An image of a length: joins and a return.
fn of_length(length: usize) -> Vec<u8> {
    let mut code = Code::default();
    for _ in 7..length {
        code.join();
    }
    code.returns(0);
    image(&[Routine { slots: 1, arguments: 0, code: code.bytes }])
}

/// Good images of many lengths.
fn images(random: &mut Random) -> Vec<Vec<u8>> {
    let mut images: Vec<Vec<u8>> = [7, 15, 16, 17, 31, 32, 33, 255, 256, 257, 4_080, 4_095].map(of_length).to_vec();
    images.extend([workload::large(ADD), workload::large(LFORK), workload::large(GO), workload::mixed()]);
    images.extend((0..30).map(|_| good_image(random)));
    images
}

/// Bytes that are no images, up to the last address: they are read, and not written.
fn others(random: &mut Random) -> Vec<Vec<u8>> {
    let lengths = [1, 2, 15, 16, 17, 4_097, 65_535, 65_536];
    lengths.map(|length| (0..length).map(|_| random.byte()).collect()).to_vec()
}

fn main() {
    let seed: u64 = std::env::args().nth(1).map_or(1, |word| word.parse().expect("a seed"));
    let folder = std::env::temp_dir().join(format!("bench-tools-{}", std::process::id()));
    std::fs::create_dir(&folder).expect("a folder for the files");
    for tool in TOOLS {
        if !tool.is_here() {
            println!("{} is not installed: skipped", tool.name);
            continue;
        }
        let mut random = Random::new(seed);
        let (images, others) = (images(&mut random), others(&mut random));
        for image in &images {
            tool.compare(&folder, image, &written(image));
        }
        for bytes in &others {
            tool.compare(&folder, bytes, &text_of(bytes));
        }
        println!("{}: {} images and {} other inputs, no difference", tool.name, images.len(), others.len());
    }
    std::fs::remove_dir_all(&folder).expect("the folder removed");
}
