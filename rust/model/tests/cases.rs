//! Runs the cases of `cases.txt`. A line is `CASE => ANSWER`; octets are upper-case hexadecimal, `-` for none.
//!
//! | case | what is called | answer |
//! |---|---|---|
//! | `M OCTETS` | read a message, rows enough lent | `ok ROWS`, and for each row ` \| ` and its ten numbers |
//! | `F OCTETS` | read a frame, rows enough lent | `ok CONVERSATION ROWS`, and the rows likewise |
//! | `L OCTETS` | measure the first value | `ok LENGTH` |
//! | `X FRAME REPLACEMENT INDEX ROOM` | exchange a property | `ok OCTETS` |
//! | `W COLUMNS CONTENTS ROOM` | write rows: columns split by `;`, numbers by `,` | `ok OCTETS` |
//! | `A` ten numbers `AS` | ask a row | `ok VALUE` |
//! | `D LINE` | the desk, LINE in hexadecimal | what it prints, `/` for each line feed |
//!
//! A refusal is `no NUMBER PLACE INPUT` (the desk's is as it prints it). Another file of cases may be named in `CASES`.

use sumqadil_model::*;

#[test]
fn cases() {
    let path = std::env::var("CASES").unwrap_or(concat!(env!("CARGO_MANIFEST_DIR"), "/tests/cases.txt").into());
    let text = std::fs::read_to_string(path).unwrap();
    let mut wrong = Vec::new();
    let mut count = 0;
    for line in text.lines() {
        let (case, expected) = line.split_once(" => ").expect("a case and its answer");
        let found = run(case);
        if found != expected {
            wrong.push(format!("{case}\n  expected {expected}\n  found    {found}"));
        }
        count += 1;
    }
    assert!(count > 0);
    assert!(wrong.is_empty(), "{} of {count} cases differ:\n{}", wrong.len(), wrong.join("\n"));
}

fn run(case: &str) -> String {
    let words: Vec<&str> = case.split(' ').collect();
    match words[0] {
        "M" => {
            let octets = octets(words[1]);
            let answer = read_message(&octets, usize::MAX);
            if let Ok(rows) = &answer {
                assert_eq!(measure(&octets), Ok(octets.len()));
                assert_eq!(write(&in_columns(rows), &octets, octets.len()), Ok(octets));
            }
            text(answer.map(|rows| format!("{}{}", rows.len(), listed(&rows))))
        }
        "F" => text(
            read_frame(&octets(words[1]), usize::MAX)
                .map(|f| format!("{} {}{}", f.conversation, f.rows.len(), listed(&f.rows))),
        ),
        "L" => text(measure(&octets(words[1]))),
        "X" => {
            let (frame, replacement) = (octets(words[1]), octets(words[2]));
            let (index, room) = (words[3].parse().unwrap(), words[4].parse().unwrap());
            let answer = exchange(&frame, &replacement, index, room);
            if let Some(octets) = spliced(&frame, &replacement, index) {
                assert_eq!(answer, accepted(octets, room));
            }
            text(answer.map(|o| hexadecimal(&o)))
        }
        "W" => text(write(&columns(words[1]), &octets(words[2]), words[3].parse().unwrap()).map(|o| hexadecimal(&o))),
        "A" => text(ask(&row(&words[1..11]), wanted(words[11]))),
        "D" => desk(&octets(words[1])).replace('\n', "/"),
        kind => panic!("no kind of case: {kind}"),
    }
}

/// The octets that the new frame must have: a new length, the old octets up to the property value, the replacement, the rest. None if
/// the frame or the replacement is not accepted, or the property is not there.
fn spliced(frame: &[u8], replacement: &[u8], index: i64) -> Option<Vec<u8>> {
    let read = read_frame(frame, usize::MAX).ok()?;
    read_message(replacement, usize::MAX).ok()?;
    let mut property = 1;
    while read.rows.get(property)?.label != index {
        property += 1 + read.rows[property].below as usize;
    }
    let start = read.message + read.rows[property].start as usize;
    let end = read.message + read.rows[property].end as usize;
    let (_, body) = integer::read(frame, 0, integer::Width::Int32).unwrap();
    let body = [&frame[body..start], replacement, &frame[end..]].concat();
    Some([integer::spell(body.len() as i64), body].concat())
}

/// The new frame, if it is accepted and has room.
fn accepted(octets: Vec<u8>, room: usize) -> Answer<Vec<u8>> {
    read_frame(&octets, usize::MAX).map_err(|r| r.of_input(3))?;
    if octets.len() > room {
        return refusal::refuse(13, 0);
    }
    Ok(octets)
}

fn text<T: std::fmt::Display>(answer: Answer<T>) -> String {
    match answer {
        Ok(result) => format!("ok {result}"),
        Err(r) => format!("no {} {} {}", r.number, r.place, r.input),
    }
}

fn listed(rows: &[Row]) -> String {
    rows.iter().map(|row| format!(" | {}", row.numbers().map(|n| n.to_string()).join(" "))).collect()
}

fn octets(hexadecimal: &str) -> Vec<u8> {
    if hexadecimal == "-" {
        return Vec::new();
    }
    let pair = |i| u8::from_str_radix(&hexadecimal[i..i + 2], 16).unwrap();
    (0..hexadecimal.len()).step_by(2).map(pair).collect()
}

fn hexadecimal(octets: &[u8]) -> String {
    if octets.is_empty() {
        return "-".into();
    }
    octets.iter().map(|octet| format!("{octet:02X}")).collect()
}

fn row(numbers: &[&str]) -> Row {
    Row::from_numbers(std::array::from_fn(|i| numbers[i].parse().unwrap()))
}

fn columns(text: &str) -> Columns {
    let column = |c: &str| c.split(',').filter(|n| !n.is_empty() && *n != "-").map(|n| n.parse().unwrap()).collect();
    let all: Vec<Vec<i64>> = text.split(';').map(column).collect();
    all.try_into().expect("ten columns")
}

/// The columns of rows.
fn in_columns(rows: &[Row]) -> Columns {
    std::array::from_fn(|c| rows.iter().map(|row| row.numbers()[c]).collect())
}

fn wanted(name: &str) -> As {
    match name {
        "int16" => As::Int16,
        "int32" => As::Int32,
        "int64" => As::Int64,
        "octet" => As::Octet,
        "char" => As::Char,
        "boolean" => As::Boolean,
        _ => panic!("no such type: {name}"),
    }
}
