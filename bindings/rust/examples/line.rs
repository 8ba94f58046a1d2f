//! Answers lines of hexadecimal into one buffer: the line of the requirements, and what refuses the same line when it is damaged.

use softdemap::{answer_line, MAX_ANSWER};

fn main() {
    let lines = [
        "01020200030001027FFF000500000003FFFFFFEC", // 16-QAM, 3 payload bits, gain 5, sample (3, -20)
        "01020200030001027fff000500000003ffffffec", // small letters
        "01020200030001027FFF100000000003FFFFFFEC", // gain 4096
    ];
    let mut answer = [0; MAX_ANSWER];
    for line in lines {
        match answer_line(line.as_bytes(), &mut answer) {
            Ok(len) => println!("{} gives {}", line, String::from_utf8_lossy(&answer[..len])),
            Err(refused) => println!("{} gives {:02X}: {}", line, refused.refusal.number(), refused),
        }
    }
}
