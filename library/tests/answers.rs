//! Answers rows as answers.c does, by the Rust crate; or, with the words `lines CEDT TOPO SCRIPT [IMAGE]`, a script line by line on a
//! session that it keeps.
use std::io::{BufRead, Write};

fn read(name: &str) -> Vec<u8> {
    std::fs::read(name).unwrap_or_else(|fault| panic!("{name}: {fault}"))
}

fn number(word: &str) -> u64 {
    match word.strip_prefix("0x") {
        Some(digits) => u64::from_str_radix(digits, 16).expect("a number"),
        None => word.parse().expect("a number"),
    }
}

fn answer<'a>(words: &[&str], files: &[Vec<u8>], room: &'a mut [u8]) -> cxlplan::Answer<'a> {
    match words[0] {
        "route" => cxlplan::route(&files[0], number(words[2]), room),
        "list" => cxlplan::list(&files[0], room),
        "normal" => cxlplan::normal(&files[0], room),
        "check" => cxlplan::check(&files[0], &files[1], &files[2], room),
        "plan" => cxlplan::plan(&files[0], &files[1], words[3], room),
        "run" => cxlplan::run(&files[0], &files[1], files.get(3).map(|image| &image[..]), &files[2], room),
        "words" => cxlplan::words(&files[0], &files[1], files.get(3).map(|image| &image[..]), &files[2], room),
        "image" => cxlplan::image(&files[0], &files[1], files.get(3).map(|image| &image[..]), &files[2], room),
        "tree" => cxlplan::tree(&files[0], room),
        "decoders" => cxlplan::decoders(&files[0], &files[1], room),
        "breaches" => cxlplan::breaches(&files[0], &files[1], &files[2], room),
        "windows" => cxlplan::windows(&files[0], &files[1], room),
        "gen" => cxlplan::gen(number(words[1]) as u32, room),
        _ => cxlplan::version(room),
    }
}

/// Whether a session tells by its calls what it told to a line that has one: `down`, `up` and `load`.
fn agrees(session: &mut cxlplan::Session, line: &str, text: &[u8]) -> bool {
    let refusal = |refused: cxlplan::Refused| match refused.refusal.kind {
        _ if refused.status != cxlplan::REFUSED => "not asked".to_string(),
        cxlplan::UNMAPPED => "unmapped\n".to_string(),
        cxlplan::CROSSES_END => "crosses end\n".to_string(),
        cxlplan::NO_ENDPOINT => format!("no such endpoint {}\n", line.split(' ').nth(1).unwrap_or_default()),
        kind => format!("refusal {kind}"),
    };
    let text = String::from_utf8_lossy(text);
    match line.split_whitespace().collect::<Vec<_>>()[..] {
        ["down", at] => match session.down(number(at)) {
            Ok(place) => {
                let front = format!(" region {} slot {} position {} via ", place.region.as_str(), place.slot, place.position);
                text.contains(&front) && text.ends_with(&format!(" dpa {:#x}\n", place.dpa))
            }
            Err(refused) => text == refusal(refused),
        },
        ["up", endpoint, at] => match session.up(endpoint, number(at)) {
            Ok(byte) => text == format!("host {:#x} region {}\n", byte.hpa, byte.region.as_str()),
            Err(refused) => text == refusal(refused),
        },
        ["load", at, count] => {
            let mut bytes = vec![0; number(count) as usize];
            match session.load(number(at), &mut bytes) {
                Ok(()) => text == format!("bytes {}\n", bytes.iter().map(|byte| format!("{byte:02x}")).collect::<String>()),
                Err(refused) => text == refusal(refused),
            }
        }
        ["store", at, digits] => {
            let bytes: Vec<u8> = (0..digits.len() / 2).map(|i| u8::from_str_radix(&digits[2 * i..2 * i + 2], 16).expect("a byte")).collect();
            match session.store(number(at), &bytes) {
                Ok(()) => text == format!("stored {}\n", bytes.len()),
                Err(refused) => text == refusal(refused),
            }
        }
        _ => true,
    }
}

/// What a session answers to the lines of a script, and the status behind the last.
fn line_by_line(files: &[Vec<u8>], to: &mut impl Write) -> u8 {
    let mut room = vec![0; 1 << 22];
    let mut session = match cxlplan::Session::open(&files[0], &files[1], files.get(3).map(|image| &image[..]), &mut room) {
        Ok(session) => session,
        Err(told) => {
            to.write_all(told.text).expect("standard output");
            return told.status;
        }
    };
    for line in files[2].split_inclusive(|byte| *byte == b'\n') {
        let told = session.act(line, &mut room);
        to.write_all(told.text).expect("standard output");
        if told.status != cxlplan::DONE {
            return told.status;
        }
        // a line that asks for nothing is answered by its fault
        if let (Ok(line), false) = (std::str::from_utf8(line), told.text.starts_with(b"bad line")) {
            assert!(agrees(&mut session, line, told.text), "{line}");
        }
    }
    let mut rows = [cxlplan::Word::default(); 4];
    let (sent, image) = (session.words(&mut rows), session.image(&mut room));
    assert!(rows[sent.min(4)..].iter().all(|row| *row == cxlplan::Word::default()), "rows behind the words stay");
    assert!(image.status == cxlplan::DONE && !image.text.is_empty(), "a session has an image");
    cxlplan::DONE
}

fn main() {
    let mut to = std::io::BufWriter::new(std::io::stdout());
    let words: Vec<String> = std::env::args().skip(1).collect();
    if words.first().is_some_and(|word| word == "lines") {
        let files: Vec<Vec<u8>> = words[1..].iter().map(|name| read(name)).collect();
        let status = line_by_line(&files, &mut to);
        to.flush().expect("standard output");
        std::process::exit(status.into());
    }
    for row in std::io::stdin().lock().lines() {
        let row = row.expect("a row");
        let words: Vec<&str> = row.split('\t').collect();
        let count = match words[0] {
            "route" | "list" | "normal" | "tree" => 1,
            "plan" | "decoders" | "windows" => 2,
            "check" | "breaches" => 3,
            "run" | "words" | "image" => words.len() - 1,
            _ => 0,
        };
        let files: Vec<Vec<u8>> = words[1..1 + count].iter().map(|name| read(name)).collect();
        let mut size = 8192;
        loop {
            size *= 8;
            let mut room = vec![0; size];
            let answer = answer(&words, &files, &mut room);
            if answer.status == cxlplan::WRITE_FAULT {
                continue;
            }
            writeln!(to, "{} {}", answer.status, answer.text.len()).expect("standard output");
            to.write_all(answer.text).expect("standard output");
            break;
        }
    }
}
