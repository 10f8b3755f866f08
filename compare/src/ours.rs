// Reads requests on standard input and writes them with the answers of the proved entries.
mod library;

use std::io::{self, BufReader, BufWriter, Write};

fn main() -> io::Result<()> {
    let mut input = BufReader::new(io::stdin().lock());
    let mut out = BufWriter::new(io::stdout().lock());
    while let Some((request, _)) = record::read(&mut input)? {
        record::write(&mut out, &request, &library::answered(&request))?;
    }
    // What is left in the buffer is written here, where a failure is still seen.
    out.flush()
}
