//! Times the Rust crate `influxdb-line-protocol` as `../driver.c` times this library: over files, or without a
//! file the building of points, in processor time, the median of five runs after a first one, in MB/s. `--once FILE..` parses
//! each file once in the function `counted`, for `checks/instructions.sh`.

use influxdb_line_protocol::{
    parse_lines, split_lines, EscapedStr, FieldValue, LineProtocolBuilder, ParsedLine,
};
use std::fmt::Write;
use std::hint::black_box;

const RUNS: usize = 5;

#[repr(C)]
struct Timespec {
    seconds: i64,
    nanoseconds: i64,
}

extern "C" {
    fn clock_gettime(clock: i32, time: *mut Timespec) -> i32;
}

const PROCESS_CPUTIME: i32 = 2;

fn now() -> f64 {
    let mut time = Timespec { seconds: 0, nanoseconds: 0 };
    unsafe { clock_gettime(PROCESS_CPUTIME, &mut time) };
    time.seconds as f64 + time.nanoseconds as f64 / 1e9
}

fn run(what: &str, file: &str, bytes: usize, mut call: impl FnMut() -> u64) {
    let mut seconds = [0.0; RUNS];
    let mut answer = call();
    for one in &mut seconds {
        let start = now();
        answer = call();
        *one = now() - start;
    }
    seconds.sort_by(f64::total_cmp);
    let speed = bytes as f64 / 1e6 / seconds[RUNS / 2];
    println!("{what}\t{file}\t{speed:.1}\t{answer}");
}

fn of_text(text: &EscapedStr<'_>) -> u64 {
    text.as_str().len() as u64
}

fn of_value(value: &FieldValue<'_>) -> u64 {
    match value {
        FieldValue::I64(value) => *value as u64,
        FieldValue::U64(value) => *value,
        FieldValue::F64(value) => value.to_bits(),
        FieldValue::String(value) => of_text(value),
        FieldValue::Boolean(value) => u64::from(*value),
    }
}

fn of_line(line: &ParsedLine<'_>) -> u64 {
    let mut sum = of_text(&line.series.measurement);
    for (key, value) in line.series.tag_set.iter().flatten() {
        sum = sum.wrapping_add(of_text(key)).wrapping_add(of_text(value));
    }
    for (key, value) in &line.field_set {
        sum = sum.wrapping_add(of_text(key)).wrapping_add(of_value(value));
    }
    sum.wrapping_add(line.timestamp.unwrap_or(0) as u64)
}

fn parse(text: &str) -> u64 {
    parse_lines(text)
        .map(|item| item.as_ref().map_or(1, of_line))
        .fold(0, u64::wrapping_add)
}

fn base_len(line: ParsedLine<'_>) -> u64 {
    line.series.generate_base().map_or(1, |base| base.len() as u64)
}

fn bases(text: &str) -> u64 {
    parse_lines(text)
        .map(|item| item.map_or(1, base_len))
        .fold(0, u64::wrapping_add)
}

fn is_admitted(name: &EscapedStr<'_>) -> bool {
    let name = name.as_str();
    !name.is_empty() && !name.contains(['\t', '\n']) && !name.ends_with('\\')
}

fn is_line_admitted(line: &ParsedLine<'_>) -> bool {
    let measurement = &line.series.measurement;
    is_admitted(measurement)
        && !measurement.as_str().contains('\0')
        && !measurement.as_str().starts_with('#')
        && line
            .series
            .tag_set
            .iter()
            .flatten()
            .all(|(key, value)| is_admitted(key) && is_admitted(value))
        && line.field_set.iter().all(|(key, _)| is_admitted(key))
}

macro_rules! field {
    ($builder:expr, $key:expr, $value:expr) => {
        match $value {
            FieldValue::I64(value) => $builder.field($key, *value),
            FieldValue::U64(value) => $builder.field($key, *value),
            FieldValue::F64(value) => $builder.field($key, *value),
            FieldValue::String(value) => $builder.field($key, value.as_str()),
            FieldValue::Boolean(value) => $builder.field($key, *value),
        }
    };
}

fn rebuild(text: &str) -> u64 {
    let mut batch = LineProtocolBuilder::new();
    let mut faults = String::new();
    for (place, item) in parse_lines(text).enumerate() {
        let line = match item {
            Ok(line) if is_line_admitted(&line) => line,
            Ok(_) => {
                writeln!(faults, "item {}: a name cannot be written again", place + 1).unwrap();
                continue;
            }
            Err(fault) => {
                writeln!(faults, "item {}: {fault}", place + 1).unwrap();
                continue;
            }
        };
        let mut begun = batch.measurement(line.series.measurement.as_str());
        for (key, value) in line.series.tag_set.iter().flatten() {
            begun = begun.tag(key.as_str(), value.as_str());
        }
        let mut fields = line.field_set.iter();
        let Some((key, value)) = fields.next() else { return 0 };
        let mut fielded = field!(begun, key.as_str(), value);
        for (key, value) in fields {
            fielded = field!(fielded, key.as_str(), value);
        }
        batch = match line.timestamp {
            Some(timestamp) => fielded.timestamp(timestamp).close_line(),
            None => fielded.close_line(),
        };
    }
    batch.build().len() as u64
}

const POINTS: u64 = 200_000;

fn build(count: u64) -> u64 {
    let mut lines = LineProtocolBuilder::new();
    for number in 0..count {
        lines = lines
            .measurement("weather")
            .tag("city", "Bad Ems")
            .tag("region", "rhineland-palatinate")
            .tag("station", "ems-017.example.com")
            .field("degrees", (number % 40) as i64)
            .field("readings", number)
            .field("sky", "clear, light wind")
            .field("valid", true)
            .timestamp((number + 1_690_000_000_000_000_000) as i64)
            .close_line();
    }
    lines.build().len() as u64
}

#[no_mangle]
#[inline(never)]
pub fn counted(text: &str) -> u64 {
    parse(text)
}

fn main() {
    let paths: Vec<String> = std::env::args().skip(1).collect();
    if paths.first().map_or(false, |word| word == "--once") {
        for path in &paths[1..] {
            let text = std::fs::read_to_string(path).expect("a file of UTF-8");
            black_box(parse(black_box(&text)) == counted(black_box(&text)));
        }
        return;
    }
    if paths.is_empty() {
        let written = build(POINTS) as usize;
        run("build", "points", written, || build(black_box(POINTS)));
    }
    for path in paths {
        let text = std::fs::read_to_string(&path).expect("a file of UTF-8");
        let file = path.rsplit('/').next().unwrap_or(&path);
        run("parse", file, text.len(), || parse(black_box(&text)));
        run("bases", file, text.len(), || bases(black_box(&text)));
        run("split", file, text.len(), || split_lines(black_box(&text)).count() as u64);
        run("rebuild", file, text.len(), || rebuild(black_box(&text)));
    }
}
