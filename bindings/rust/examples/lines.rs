//! Builds a line, and prints each line of a text, and each fault.

fn main() {
    print_lines();
    print_pieces().expect("a slice can be read");
}

fn print_lines() {
    // [lines_in_rust]
    use influxdb_line_protocol::{parse_lines, LineProtocolBuilder};

    let lines = LineProtocolBuilder::new().measurement("disk usage").tag("host", "a").field("free", 42.5).close_line();
    let text = String::from_utf8(lines.build()).expect("lines are UTF-8") + "m 5\n";
    for (place, item) in parse_lines(&text).with_places() {
        match item {
            Ok(line) => println!("{} at {:?}", line.series.measurement, line.timestamp),
            Err(fault) => println!("line {}, column {}: {fault}", place.stop_line, place.stop_column),
        }
    }
    // [end]
}

fn print_pieces() -> std::io::Result<()> {
    // [reader_in_rust]
    use influxdb_line_protocol::{parse_lines_in, Dialect, LineError, LineReader, MAX_LINE};

    let (file, dialect) = (&b"cpu note=\"a\ncpu usage=64i 2\n\xff\n"[..], Dialect::NewlineDelimited);
    let mut pieces = LineReader::from_read(file, dialect, MAX_LINE);
    while let Some(piece) = pieces.next_line() {
        let piece = match piece {
            Ok(piece) => piece,
            Err(LineError::Io(failure)) => return Err(failure),
            Err(refused) => {
                println!("{refused}"); // too long, or not UTF-8: the next pieces come
                continue;
            }
        };
        for item in parse_lines_in(dialect, &piece) {
            match item {
                Ok(line) => println!("line {}, byte {}: {line}", piece.line, piece.offset),
                Err(fault) => println!("line {}, byte {}: {fault}", piece.line, piece.offset),
            }
        }
    }
    // [end]
    Ok(())
}
