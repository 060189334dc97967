//! What is read, where the original crate's tests look less closely.
use influxdb_line_protocol::{parse_lines, split_lines, Error, EscapedStr, FieldValue, ParsedLine};
use std::{borrow::Cow, error::Error as _, thread};

fn line(text: &str) -> ParsedLine<'_> {
    parse_lines(text).next().expect("there is an item").expect("it is a line")
}

fn fault(text: &str) -> Error {
    parse_lines(text).next().expect("there is an item").expect_err("it is a fault")
}

fn float(literal: &str) -> f64 {
    match line(&format!("m f={literal}")).field_set[0].1 {
        FieldValue::F64(value) => value,
        _ => panic!("{literal} is no float"),
    }
}

#[test]
fn floats_are_those_of_the_standard_library() {
    let edges = ["0", "-0", "-0.0", "0.0", "999999999999999", "1000000000000000", "0.000000000000001", "1e400", "5e-324"];
    let mut literals = edges.map(String::from).to_vec();
    let mut state = 1u64;
    for round in 0..20_000usize {
        state = state.wrapping_mul(6364136223846793005).wrapping_add(1442695040888963407);
        let digits = (state >> (10 + round % 2)).to_string();
        let (whole, fraction) = digits.split_at(1 + round % (digits.len() - 1));
        let fraction = &fraction[..fraction.len().min(round % 17 + 1)];
        literals.extend([format!("{whole}.{fraction}"), format!("-{whole}.{fraction}"), format!("{whole}.{fraction}e-{}", round % 40)]);
    }
    for literal in literals {
        assert_eq!(float(&literal).to_bits(), literal.parse::<f64>().unwrap().to_bits(), "{literal}");
    }
}

#[test]
fn more_parts_and_more_room_than_are_lent_at_first() {
    let long = "a\\ ".repeat(1000);
    let tags: String = (0..300).map(|n| format!(",k{n}\\ =v{n}\\ ")).collect();
    let fields: Vec<_> = (0..300).map(|n| format!("f{n}=\"\\\"{n}\"")).collect();
    let text = format!("m f=1i\n{long}x{tags} {} 7\nm f=2i", fields.join(","));
    let lines: Vec<_> = parse_lines(&text).map(Result::unwrap).collect();
    assert_eq!(lines.len(), 3);
    assert_eq!(lines[1].series.measurement, long.replace('\\', "") + "x");
    assert_eq!(lines[1].column_count(), 601);
    assert_eq!(lines[1].tag_value("k299 ").unwrap(), &"v299 ");
    assert_eq!(lines[1].field_value("f299"), Some(&FieldValue::String(EscapedStr::CopiedValue("\"299".into()))));
    assert_eq!((lines[1].timestamp, lines[2].timestamp), (Some(7), None));
    let places: Vec<_> = parse_lines(&text).with_places().map(|(place, _)| place.span).collect();
    assert_eq!(places, [0..6, 7..text.len() - 7, text.len() - 6..text.len()]);
}

#[test]
fn blocks_lose_nothing() {
    for count in [1, 2, 3, 15, 16, 17, 1000] {
        let item = |n: usize| match n % 5 {
            3 => format!("m {n}\n"),
            _ => format!("m,t=a\\ {n} f={n}i,g=\"\\\"{n}\" {n}\n"),
        };
        let text: String = (0..count).map(item).collect();
        let items: Vec<_> = parse_lines(&text).collect();
        assert_eq!(items.len(), count);
        for (n, item) in items.iter().enumerate() {
            match item {
                Ok(line) => assert_eq!(line.to_string(), format!("m,t=a\\ {n} f={n}i,g=\\\"{n} {n}")),
                Err(fault) => assert!(n % 5 == 3 && matches!(fault, Error::FieldSetMissing)),
            }
        }
    }
}

#[test]
fn parts_of_the_input_outlive_the_iterator() {
    let text = String::from("m,k=v s=\"t\"");
    let read = { parse_lines(&text).next() }.unwrap().unwrap();
    let (key, _) = &read.series.tag_set.as_ref().unwrap()[0];
    assert!(matches!(key, EscapedStr::SingleSlice("k")));
    assert_eq!(key.as_ptr(), text[2..].as_ptr());
}

#[test]
fn faults_say_what_they_name() {
    let above = fault("m f=9223372036854775808i");
    assert_eq!(above.to_string(), "Unable to parse integer value '9223372036854775808'");
    assert_eq!(above.source().unwrap().to_string(), "number too large to fit in target type");
    let below = fault("m f=1i -9223372036854775809");
    assert_eq!(below.source().unwrap().to_string(), "number too small to fit in target type");
    assert!(matches!(fault("m f=1i x"), Error::CannotParseEntireLine { trailing_content } if trailing_content == " x"));
}

#[test]
fn items_tell_their_places() {
    let rows = [
        ("m f=1i", (0..6, 0..6, 1, 1..=1, 6, 1, 7)),
        ("# c\n\n m s=\"a\nb\",g=2x", (6..20, 5..20, 3, 3..=4, 19, 4, 7)),
        ("#\\\n x f=1i", (4..10, 0..10, 2, 1..=2, 10, 2, 8)),
        ("m,t=v a=\n", (0..8, 0..8, 1, 1..=1, 8, 1, 9)),
        (",x", (0..2, 0..2, 1, 1..=1, 0, 1, 1)),
        ("m f=1i \u{e9}", (0..9, 0..9, 1, 1..=1, 6, 1, 7)),
    ];
    for (text, (span, piece, line, spanned, stop, stop_line, stop_column)) in rows {
        let (before, trailing) = ("m f=\"\n\"\n".repeat(40), "\nm f=2i".repeat(40));
        let whole = format!("{before}{text}{trailing}");
        let (place, _) = parse_lines(&whole).with_places().nth(40).unwrap();
        let mut items = parse_lines(&whole);
        assert!(items.nth(3).is_some() && items.with_places().nth(36).unwrap().0 == place, "{text}");
        let (bytes, lines) = (before.len(), 80);
        assert_eq!(&whole[place.span], &text[span], "{text}");
        assert_eq!(place.piece, piece.start + bytes..piece.end + bytes, "{text}");
        assert_eq!((place.line, place.lines), (line + lines, spanned.start() + lines..=spanned.end() + lines), "{text}");
        assert_eq!((place.stop, place.stop_line, place.stop_column), (stop + bytes, stop_line + lines, stop_column), "{text}");
    }
}

#[test]
fn bases_are_those_of_the_library_at_each_edge_and_are_borrowed_where_nothing_changes() {
    let rows = [
        ("m", "borrowed m"),
        ("m,a=1,b=2", "borrowed m,a=1,b=2"),
        ("m,a=1,ab=2,b=3", "borrowed m,a=1,ab=2,b=3"),
        ("m,\\,=v,é=w", "borrowed m,\\,=v,é=w"),
        ("m,a=1,a=2", "repeated a"),
        ("m,a=1,b=2,b=3,a=4", "repeated b"),
        ("m,b=2,a=1,b=3", "repeated b"),
        ("m,ab=1,a=2", "owned m,a=2,ab=1"),
        ("m,b=2,a=1", "owned m,a=1,b=2"),
        ("m,é=1,z=2", "owned m,z=2,é=1"),
        ("m\\x,a=1", "owned m\\x,a=1"),
        ("m\\ n,a=1", "owned m n,a=1"),
        ("m,a\\ b=1,c=2", "owned m,a b=1,c=2"),
        ("m,a=1\\ 2,b=\\,", "owned m,a=1 2,b=,"),
        ("m,b=\\,,a=1", "owned m,a=1,b=,"),
    ];
    for (series, wanted) in rows {
        let given = match line(&format!("{series} f=1i")).series.generate_base() {
            Ok(Cow::Borrowed(base)) => format!("borrowed {base}"),
            Ok(Cow::Owned(base)) => format!("owned {base}"),
            Err(Error::DuplicateTag { tag_key }) => format!("repeated {tag_key}"),
            Err(other) => other.to_string(),
        };
        assert_eq!(given, wanted, "{series}");
    }
}

#[test]
fn bases_are_safe_where_no_name_divides_them_or_is_one_escape_alone() {
    let rows = [
        ("m", true),
        ("m,a=1,b=2", true),
        ("m\\ n,a\\,b=1\\=2", true),
        ("m,a=1\\,b\\=2", false),
        ("m\\,n", false),
        ("m,a\\=b=1", false),
        ("\\ ,a=1", false),
        ("m,\\,=v", false),
        ("m,,=v", false),
        ("m,a=\\=", false),
        ("m,a=1,b=2,c=3,d=4,e=5,f=6,g=7,h=8,i=9", true),
        ("m,a=1,b=2,c=3,d=4,e=5,f=6,g=7,h=8,i=\\,9", false),
    ];
    for (series, safe) in rows {
        assert_eq!(line(&format!("{series} f=1i")).series.is_base_safe(), safe, "{series}");
    }
    let base = |series: &str| line(&format!("{series} f=1i")).series.generate_base().unwrap().into_owned();
    assert_eq!(base("m,a=1\\,b\\=2"), base("m,a=1,b=2"));
    assert_eq!((base("m,\\,=v"), base("m,,=v")), ("m,\\,=v".into(), "m,,=v".into()));
}

#[test]
fn keys_tell_series_whatever_their_names_hold() {
    let tags: Vec<_> = (10..99).map(|tag| format!(",k{tag}=v{tag}")).collect();
    let rising = format!("m{}", tags.concat());
    let falling = format!("m{}", tags.iter().rev().cloned().collect::<String>());
    let rows = [
        ("m", "m"),
        ("m,b=2,a=1", "m,a=1,b=2"),
        ("m,a=1\\,b\\=2", "m,a=1\\,b\\=2"),
        ("m,\\,=v", "m,\\,=v"),
        ("m,,=v", "m,\\,=v"),
        ("m\\,n", "m\\,n"),
        ("m,a=c\\d", "m,a=c\\\\d"),
        ("m,a=c\\\\d", "m,a=c\\\\d"),
        ("m,b=1,a=2,b=0,a=1", "m,a=2,a=1,b=1,b=0"),
        ("m,aa=1,a=1,\u{e9}=1,B=1", "m,B=1,a=1,aa=1,\u{e9}=1"),
        (&falling[..], &rising[..]),
        (&rising[..], &rising[..]),
        ("m,a=2,a=1,b=c", "m,a=2,a=1,b=c"),
        ("m=n,a=b=c", "m=n,a=b\\=c"),
        ("m=n,a,b=c", "m=n,a\\,b=c"),
        ("m,a=\\x", "m,a=\\\\x"),
    ];
    for (series, key) in rows {
        assert_eq!(line(&format!("{series} f=1i")).series.key(), key, "{series}");
        // A key reads back as the series, which has it still.
        assert_eq!(line(&format!("{key} f=1i")).series.key(), key, "{series}");
    }
}

#[test]
fn keys_are_of_what_a_series_holds_now() {
    let mut read = line("m,b=2,a=1 f=1i");
    read.series.measurement = "n\n\\".into();
    read.series.tag_set.as_mut().unwrap()[0].1 = "x y".into();
    assert_eq!(read.series.key(), "n\n\\\\,a=1,b=x\\ y");
    read.series.tag_set = None;
    assert_eq!(read.series.key(), "n\n\\\\");
}

#[test]
fn lines_that_are_no_line_protocol_are_shown() {
    let mut read = line("m\\ n,k=a\\,b f=1e999,g=\"q\\\"\" 5");
    assert_eq!(read.to_string(), "m\\ n,k=a\\,b f=inf,g=q\\\" 5");
    read.field_set.clear();
    assert_eq!(read.to_string(), "m\\ n,k=a\\,b 5");
    assert_eq!(FieldValue::F64(f64::NAN).to_string(), "NaN");
}

#[test]
fn the_end_stays_the_end() {
    let mut lines = parse_lines("# nothing\n\n");
    assert!(lines.next().is_none() && lines.next().is_none());
    let mut pieces = split_lines("");
    assert_eq!((pieces.next(), pieces.next(), pieces.next()), (Some(""), None, None));
}

#[test]
fn iterators_and_lines_go_to_other_threads() {
    let text = "m,k=v f=1i\nm\\ n,k=v f=2i";
    thread::scope(|scope| {
        let mut lines = parse_lines(text);
        let first = lines.next().unwrap().unwrap();
        let rest = scope.spawn(move || lines.map(|line| line.unwrap().to_string()).collect::<Vec<_>>());
        assert_eq!(rest.join().unwrap(), ["m\\ n,k=v f=2i"]);
        assert_eq!(scope.spawn(move || first.column_count()).join().unwrap(), 3);
    });
}
