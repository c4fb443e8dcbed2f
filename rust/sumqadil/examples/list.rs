//! Lists a frame: its conversation number, its rows, and what a row that can be had as int32 says.
//! The frame is given as hexadecimal digits; without any, it is the example of document 01.

use sumqadil::{As, Refusal, Table};

fn octets_of(digits: &str) -> Option<Vec<u8>> {
    if !digits.is_ascii() || digits.len() % 2 == 1 {
        return None;
    }
    (0..digits.len()).step_by(2).map(|i| u8::from_str_radix(&digits[i..i + 2], 16).ok()).collect()
}

fn list(octets: &[u8]) -> Result<(), Refusal> {
    let (frame, table) = Table::of_frame(octets)?;
    println!("conversation {}, {} rows, message at {}", frame.conversation, frame.rows, frame.message);
    for i in 0..table.len() {
        let row = table.row(i);
        print!("type {}, label {}, octets {} to {}", row.ty, row.label, row.start, row.end);
        if let Ok(value) = row.ask(As::Int32) {
            print!(", int32 {value}");
        } else if let Some(contents) = row.contents_in(&octets[frame.message..]) {
            print!(", string '{}'", String::from_utf8_lossy(contents));
        }
        println!();
    }
    Ok(())
}

fn main() {
    let digits = std::env::args().nth(1).unwrap_or("0D0705000041A301024E02616240".into());
    let Some(octets) = octets_of(&digits) else {
        eprintln!("usage: list [HEX]");
        std::process::exit(2);
    };
    if let Err(refusal) = list(&octets) {
        println!("{refusal}");
        std::process::exit(1);
    }
}
