//! Says whether a register image is sound, as `cxlplan check CEDT TOPO IMAGE` does, and ends with the same exit status.
use std::io::Write;
use std::process::ExitCode;

fn main() -> ExitCode {
    let names: Vec<String> = std::env::args().skip(1).collect();
    let [cedt, topo, image] = &names[..] else {
        eprintln!("usage: check CEDT TOPO IMAGE");
        return ExitCode::from(1);
    };
    let read = |name| std::fs::read(name).expect("a file that can be read");
    let (cedt, topo, image) = (read(cedt), read(topo), read(image));
    let mut room = vec![0; 1 << 16];
    loop {
        let answer = cxlplan::check(&cedt, &topo, &image, &mut room);
        if answer.status != cxlplan::WRITE_FAULT {
            std::io::stdout().write_all(answer.text).expect("standard output");
            return ExitCode::from(answer.status);
        }
        let more = 8 * room.len();
        room = vec![0; more];
    }
}
