// Reads requests on standard input and writes them with the original's answers; with `--read`, with its answers to the part of
// each request that document 01 reads.
mod asked;

use std::io::{self, BufReader, BufWriter, Write};

fn main() -> io::Result<()> {
    std::panic::set_hook(Box::new(|_| {}));
    let answered = match std::env::args().nth(1).as_deref() {
        None => asked::answered,
        Some("--read") => asked::read,
        Some(_) => {
            eprintln!("oracle [--read]");
            std::process::exit(2)
        }
    };
    let mut input = BufReader::new(io::stdin().lock());
    let mut out = BufWriter::new(io::stdout().lock());
    while let Some((request, _)) = record::read(&mut input)? {
        record::write(&mut out, &request, &answered(&request))?;
    }
    // What is left in the buffer is written here, where a failure is still seen.
    out.flush()
}
