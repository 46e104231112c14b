//! The print program by the second implementation.
//!
//!     print                       standard input is the print program's input
//!     print --hex "02 00 .."      the same, as hexadecimal digits
//!     print --parts CORES ALLOWANCE ARGUMENTS IMAGE SCHEDULE
//!                                 numbers decimal, ARGUMENTS separated by commas ("" or "-" for none), IMAGE and SCHEDULE hexadecimal
//!     print --plain ALLOWANCE ARGUMENTS IMAGE       the plain run: `finished` result units or `stopped` number units
//!     print --house CORES ALLOWANCE ARGUMENTS IMAGE [BYTES]
//!                                 the house run with a buffer of BYTES (32768): its entries, then the last line of print
use bench::peer::house::house;
use bench::peer::plain::plain;
use bench::peer::run::Fed;
use bench::peer::{Answer, PlainAnswer};
use bench::text::{hex, last_line, numbers, print};
use std::io::{Read, Write};

fn main() {
    let words: Vec<String> = std::env::args().skip(1).collect();
    let words: Vec<&str> = words.iter().map(String::as_str).collect();
    let out = match words[..] {
        [] => {
            let mut input = Vec::new();
            std::io::stdin().read_to_end(&mut input).expect("standard input");
            print(&input)
        }
        ["--hex", bytes] => print(&hex(bytes)),
        ["--parts", cores, allowance, arguments, image, schedule] => {
            let arguments = numbers(arguments);
            let (image, schedule) = (hex(image), hex(schedule));
            let mut input = vec![cores.parse().expect("cores"), arguments.len() as u8];
            for argument in &arguments {
                input.extend(argument.to_le_bytes());
            }
            input.extend(allowance.parse::<u32>().expect("allowance").to_le_bytes());
            input.extend((image.len() as u16).to_le_bytes());
            input.extend(image);
            input.extend(schedule);
            print(&input)
        }
        ["--plain", allowance, arguments, image] => {
            let (arguments, image) = (numbers(arguments), hex(image));
            let mut memory = [0; 992];
            let fed = fed(&image, 1, &arguments, allowance);
            match plain(fed, &mut memory) {
                PlainAnswer::Finished { result, units } => format!("finished {result} {units}\n"),
                PlainAnswer::Stopped { number, units } => format!("stopped {number} {units}\n"),
            }
        }
        ["--house", cores, allowance, arguments, image, ref more @ ..] => {
            let (arguments, image) = (numbers(arguments), hex(image));
            let bytes = more.first().map_or(32_768, |bytes| bytes.parse().expect("bytes"));
            let mut memory = [0; 992];
            let mut buffer = vec![0; bytes];
            let fed = fed(&image, cores.parse().expect("cores"), &arguments, allowance);
            let housed = house(fed, &mut memory, &mut buffer);
            let entries: Vec<String> = buffer[..housed.used].iter().map(|byte| format!("{byte:02X}")).collect();
            match housed.ran.answer {
                Answer::Refused(_) => last_line(housed.ran.answer),
                _ => format!("{}\n{}", entries.join(" "), last_line(housed.ran.answer)),
            }
        }
        _ => panic!("see the head of src/bin/print.rs"),
    };
    std::io::stdout().write_all(out.as_bytes()).expect("standard output");
}

fn fed<'a>(image: &'a [u8], cores: u8, arguments: &'a [u32], allowance: &str) -> Fed<'a> {
    Fed { image, cores, arguments, parameters: &[0; 32], allowance: allowance.parse().expect("allowance") }
}
