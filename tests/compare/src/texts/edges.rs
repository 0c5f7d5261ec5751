//! Fixed texts at the edges, each with the verdict that follows from the grammar.

use generate::print::Dialect::{self, Message, Schema};
use generate::texts::{every_fault, Expected};
use harness::{check_expected, Check, Tally};
use product::text::Verdict::{self, Deep, Fault, TooLong, Whole};

use super::compare_text;

/// Each text is asked in so many ways.
const SEEDS: u64 = 4;

pub fn compare(tally: &mut Tally) -> Check {
    for (text, verdict) in SMALL_MESSAGES {
        check(Message, text, *verdict, tally)?;
    }
    for (text, verdict) in SMALL_SCHEMAS {
        check(Schema, text, *verdict, tally)?;
    }
    for (dialect, text, verdict) in levels().into_iter().chain(long()).chain(many_keys()) {
        check(dialect, &text, verdict, tally)?;
    }
    check_planted_faults(tally)?;
    check_starts(tally)?;
    check_length_limit(tally)
}

fn check(dialect: Dialect, text: &[u8], verdict: Verdict, tally: &mut Tally) -> Check {
    for seed in 0..SEEDS {
        let read = compare_text(dialect, text, seed, tally)?;
        check_expected("by the grammar", text, read.verdict, verdict)?;
    }
    tally.pass();
    Ok(())
}

fn check_planted_faults(tally: &mut Tally) -> Check {
    for dialect in [Schema, Message] {
        for case in every_fault(dialect) {
            let Expected::Fault(place) = case.expected else {
                return Err("a planted fault has a place".to_string());
            };
            check(dialect, &case.bytes, Fault(place), tally)?;
        }
    }
    Ok(())
}

/// Texts that have every token and no start that is whole, cut off at each place.
fn check_starts(tally: &mut Tally) -> Check {
    let string = "\"\\u00e9\\ud83d\\uDe00\\\\x\u{E9}\u{20AC}\u{1F600}\"";
    let message = format!("{{{string}:[-1.5e+3,true,false,null,{string}] ,\r\n\t\"b\":{{}},\"c\":[]}}");
    for length in 0..message.len() {
        check(Message, &message.as_bytes()[..length], Fault(length), tally)?;
    }
    let schema = "{'a\\\\':['b',true,false] #'\n,'c':{},\r\n\t'd':[]}";
    for length in 1..schema.len() {
        check(Schema, &schema.as_bytes()[..length], Fault(length), tally)?;
    }
    check(Message, message.as_bytes(), Whole(12), tally)?;
    check(Schema, schema.as_bytes(), Whole(10), tally)
}

/// From 2^31 bytes on a text is too long for the words of a node; just below, the first byte is looked at.
fn check_length_limit(tally: &mut Tally) -> Check {
    const LIMIT: usize = 1 << 31;
    if Vec::<u8>::new().try_reserve_exact(LIMIT).is_err() {
        println!("no memory for a text of 2^31 bytes: not compared");
        return Ok(());
    }
    let zeros = vec![0; LIMIT];
    for schema in [true, false] {
        for (length, verdict) in [(LIMIT, TooLong), (LIMIT - 1, Fault(0))] {
            let read = product::text::read(schema, &zeros[..length], &mut []);
            check_expected(&format!("{length} bytes"), b"\0", read, verdict)?;
            tally.pass();
        }
    }
    Ok(())
}

/// As many levels as there may be, and one more.
fn levels() -> Vec<(Dialect, Vec<u8>, Verdict)> {
    let nest = |levels: usize, inner: &str| format!("{}{inner}{}", "[".repeat(levels), "]".repeat(levels)).into_bytes();
    let open = |levels: usize, inner: &str| format!("{}{inner}", "[".repeat(levels)).into_bytes();
    let objects = |levels: usize| format!("{}0{}", "{\"\":".repeat(levels), "}".repeat(levels)).into_bytes();
    let in_schema = |text: Vec<u8>| [b"{'a':", &text[..], b"}"].concat();
    vec![
        (Message, nest(32, ""), Whole(32)),
        (Message, nest(33, ""), Deep(32)),
        (Message, objects(32), Whole(65)),
        (Message, objects(33), Deep(128)),
        (Message, open(32, ""), Fault(32)),
        (Message, open(33, "\0"), Deep(32)),
        (Message, open(32, "{"), Deep(32)),
        (Message, open(32, " \r\n["), Deep(35)),
        (Message, open(32, "1,["), Deep(34)),
        (Message, open(32, "1["), Fault(33)),
        (Message, open(32, "]["), Fault(33)),
        (Message, open(31, "{["), Fault(32)),
        (Message, open(31, "{\"a\":["), Deep(36)),
        (Schema, in_schema(nest(7, "")), Whole(9)),
        (Schema, in_schema(nest(8, "")), Deep(12)),
        (Schema, in_schema(open(7, "#\n{")), Deep(14)),
        (Schema, in_schema(open(7, "1")), Fault(12)),
        (Schema, in_schema(open(7, "'a'[")), Fault(15)),
    ]
}

/// Objects of few and of many keys, each there once, and with a last key that is an earlier one again.
fn many_keys() -> Vec<(Dialect, Vec<u8>, Verdict)> {
    let mut texts = Vec::new();
    for count in [2, 11, 12, 13, 100, 511, 513, 2_000, 8_200] {
        for again in [None, Some(0), Some(count / 2), Some(count - 2)] {
            let members = |quote: char, value: &str, respelled: &str| -> Vec<u8> {
                let key = |i: usize| match again {
                    Some(earlier) if i == count - 1 => format!("{quote}{respelled}{earlier}{quote}:{value}"),
                    _ => format!("{quote}k{i}{quote}:{value}"),
                };
                format!("{{{}}}", (0..count).map(key).collect::<Vec<_>>().join(",")).into_bytes()
            };
            texts.push((Message, members('"', "1", "\\u006b"), Whole(2 * count + 1)));
            texts.push((Message, members('"', "1", "k"), Whole(2 * count + 1)));
            texts.push((Schema, members('\'', "true", "k"), Whole(2 * count + 1)));
        }
    }
    texts
}

/// About a million bytes.
fn long() -> Vec<(Dialect, Vec<u8>, Verdict)> {
    const MANY: usize = 1_000_000;
    let many = |part: &str| part.repeat(MANY / part.len()).into_bytes();
    let after = |start: &str, part: &str| [start.as_bytes(), &many(part)].concat();
    vec![
        (Message, many("["), Deep(32)),
        (Message, many("{\"\":"), Deep(128)),
        (Message, many("]"), Fault(0)),
        (Message, many("{"), Fault(1)),
        (Message, many(" "), Fault(MANY)),
        (Message, after("1", "\n"), Whole(1)),
        (Message, many("7"), Whole(1)),
        (Message, after("0.", "0"), Whole(1)),
        (Message, after("\"", "a"), Fault(MANY + 1)),
        (Message, after("\"", "\u{E9}"), Fault(MANY + 1)),
        (Message, after("\"", "\\\\"), Fault(MANY + 1)),
        (Message, after("\"", "\\u0061\\n"), Fault(MANY + 1)),
        (Message, after("[0", ",0"), Fault(MANY + 2)),
        (Message, [after("[0", ",0"), b"]".to_vec()].concat(), Whole(MANY / 2 + 2)),
        (Message, [after("[{}", ",{}"), b"]".to_vec()].concat(), Whole(MANY / 3 + 2)),
        (Schema, many("{}"), Whole(MANY / 2)),
        (Schema, many("["), Fault(0)),
        (Schema, after("{'a':", "["), Deep(12)),
        (Schema, many("#"), Whole(0)),
        (Schema, many("#\n"), Whole(0)),
        (Schema, after("{'a':'", "b"), Fault(MANY + 6)),
        (Schema, after("{'a':'", "\\\\"), Fault(MANY + 6)),
        (Schema, after("{'a':true#", "}"), Fault(MANY + 10)),
    ]
}

const SMALL_MESSAGES: &[(&[u8], Verdict)] = &[
    (b"", Fault(0)),
    (b" \t\r\n", Fault(4)),
    (b"\x00", Fault(0)),
    (b"1\x00", Fault(1)),
    (b"\"\x00\"", Fault(1)),
    (b"\xFF", Fault(0)),
    (b"\xEF\xBB\xBF1", Fault(0)),
    (b"\"\xEF\xBB\xBF\"", Whole(1)),
    // Half a UTF-8 sequence, at the end and before the quote.
    (b"\"\xC3", Fault(2)),
    (b"\"\xC3\"", Fault(2)),
    (b"\"\xE2\x82", Fault(3)),
    (b"\"\xE2\x82\"", Fault(3)),
    (b"\"\xF0\x9F\x98", Fault(4)),
    (b"\"\xF0\x9F\x98\"", Fault(4)),
    (b"\"\x80\"", Fault(1)),
    // The ends of the UTF-8 forms.
    (b"\"\x7F\"", Whole(1)),
    (b"\"\xC2\x80\xDF\xBF\xE0\xA0\x80\xED\x9F\xBF\xEE\x80\x80\xEF\xBF\xBF\"", Whole(1)),
    (b"\"\xF0\x90\x80\x80\xF4\x8F\xBF\xBF\"", Whole(1)),
    (b"\"\xC1\xBF\"", Fault(1)),
    (b"\"\xE0\x9F\xBF\"", Fault(2)),
    (b"\"\xED\xA0\x80\"", Fault(2)),
    (b"\"\xF0\x8F\xBF\xBF\"", Fault(2)),
    (b"\"\xF4\x90\x80\x80\"", Fault(2)),
    // Surrogates.
    (br#""\uD800""#, Fault(7)),
    (br#""\uDBFFx""#, Fault(7)),
    (br#""\uDC00""#, Fault(4)),
    (br#""\ud83d\u0061""#, Fault(9)),
    (br#""\ud83d\ud83d""#, Fault(10)),
    (br#""\uD83D\uDE00\uDE00""#, Fault(16)),
    (br#""\uD83D\uDE00\uD7FF\uE000""#, Whole(1)),
    (br#""\u0000""#, Whole(1)),
    // Strings without an end, and escapes at it.
    (b"\"", Fault(1)),
    (b"\"a", Fault(2)),
    (b"\"\\", Fault(2)),
    (b"\"\\\"", Fault(3)),
    (b"\"\\u", Fault(3)),
    (b"\"\\u006", Fault(6)),
    (b"{\"a", Fault(3)),
    (b"\"a\n\"", Fault(2)),
    // Line ends, and what is no comment.
    (b"\r\n1\r\n", Whole(1)),
    (b"1\r2", Fault(2)),
    (b"[1\r,\n2]", Whole(3)),
    (b"tr\nue", Fault(2)),
    (b"#\n1", Fault(0)),
    (b"1#", Fault(1)),
    (b"1\x0B", Fault(1)),
    // Numbers at the end of the text.
    (b"-", Fault(1)),
    (b"-0", Whole(1)),
    (b"01", Fault(1)),
    (b"1.", Fault(2)),
    (b"1e", Fault(2)),
    (b"1e+", Fault(3)),
    (b"0e-0", Whole(1)),
];

const SMALL_SCHEMAS: &[(&[u8], Verdict)] = &[
    (b"", Whole(0)),
    (b" \t\r\n", Whole(0)),
    (b"\x00", Fault(0)),
    (b"\xEF\xBB\xBF{}", Fault(0)),
    (b"{}{}", Whole(2)),
    (b"{},{}", Fault(2)),
    (b"[]", Fault(0)),
    (b"'a'", Fault(0)),
    // Comments end at LF or at the end of the text alone.
    (b"#", Whole(0)),
    (b"#\r{", Whole(0)),
    (b"#\n{", Fault(3)),
    (b"#\r\n{}", Whole(1)),
    (b"#\x00\x80\xFF'\"{\n{}#", Whole(1)),
    (b"{}#\x00\xFF", Whole(1)),
    (b"{#\n}", Whole(1)),
    (b"{#}", Fault(3)),
    (b"{'a'#:\n:#'\n'b'#\n}", Whole(3)),
    (b"{'a':['b'#]\n]}", Whole(4)),
    (b"{'#':'#'}#'", Whole(3)),
    (b"{'a':tr#\nue}", Fault(7)),
    (b"{'a':true#\n}", Whole(3)),
    (b"{'a'#", Fault(5)),
    // Strings.
    (b"{'a':'\x7E\x20'}", Whole(3)),
    (b"{'a':'\x7F'}", Fault(6)),
    (b"{'a':'\x1F'}", Fault(6)),
    (b"{'a':'\xC3\xA9'}", Fault(6)),
    (b"{'a':'b\n'}", Fault(7)),
    (b"{'\\\\\\\\':'\\\\'}", Whole(3)),
    (b"{'\\'':'b'}", Fault(3)),
    (b"{'a\\", Fault(4)),
    (b"{'a\\\\", Fault(5)),
    (b"{'a", Fault(3)),
];
