//! Messages: the points that are easily read past.

use crate::common::*;
use reference::message::check;

const ANY: &str = "{'command':'c','data':{'*a':'any','*n':'uint8','*l':['any']}}{'command':'d'}";

fn all_are(number: u32, messages: &[&str]) {
    for message in messages {
        assert_eq!(message_number(ANY, message), number, "{message}");
    }
}

#[test]
fn the_whole_room_is_no_table() {
    let words = reference::schema::compile(ANY.as_bytes(), SCHEMA_ROOM).words;
    assert_eq!(check(&words, ANY.as_bytes(), b"5", 0).number, 21);
}

#[test]
fn the_table_is_judged_before_the_message() {
    let long = vec![b'['; 20_000];
    assert_eq!(check(&[0], b"", &long, 3).words, [0; 3]);
    assert_eq!(check(&[0], b"", &long, 3).number, 21);
    assert_eq!(check(&[], b"", &long, 3).number, 22);
}

#[test]
fn level_33_is_24_only_where_a_value_may_stand() {
    let open = "[".repeat(32);
    all_are(23, &[&format!("{open}1["), &format!("{open}]["), &format!("{open}\"\"{{"), &open]);
    all_are(24, &[&format!("{open}["), &format!("{open}{{"), &format!("{open} \t\r\n[x"), &format!("{open}1,[")]);
    all_are(24, &[&format!(" {open}[\u{1}"), &format!("{}{{\"\\u0061\" : {{", "[ ".repeat(31))]);
    all_are(23, &[&format!("{}{{{{", "[".repeat(31)), &format!("x{open}["), &format!("[01{open}[")]);
    let late = format!("{}{}[", " ".repeat(16_384 - 33), open);
    all_are(24, &[&late]);
    all_are(22, &[&format!(" {late}")]);
}

#[test]
fn surrogates_and_utf8_are_part_of_the_text() {
    let with = |string: &[u8]| [b"{\"execute\":\"c\",\"id\":\"", string, b"\"}"].concat();
    let bad: [&[u8]; 14] = [
        br"\uD800",
        br"\uD800x",
        br"\uD800\n",
        br"\uD800\u0061",
        br"\uDC00",
        br"\uDFFF\uD800",
        br"\uD800\uD800\uDC00",
        b"\xED\xA0\x80",
        b"\xC0\x80",
        b"\xE0\x80\x80",
        b"\xF0\x80\x80\x80",
        b"\xF4\x90\x80\x80",
        b"\xFF",
        b"\x1F",
    ];
    for string in bad {
        assert_eq!(message_number(ANY, with(string)), 23, "{string:?}");
    }
    let good: [&[u8]; 6] =
        [br"\u0000", b"\x7F", b"\xEF\xBB\xBF", br"\uD800\uDC00", b"\xF4\x8F\xBF\xBF", br"\ud7ff\ue000"];
    for string in good {
        assert_eq!(message_number(ANY, with(string)), 0, "{string:?}");
    }
    all_are(23, &["\u{FEFF}{\"execute\":\"c\"}", "{\"execute\":\u{FEFF}\"c\"}", "{\"execute\":\"c\"}\u{FEFF}"]);
}

#[test]
fn a_repeated_key_is_25_anywhere_and_before_26() {
    all_are(25, &[r#"[{"a":1,"a":1}]"#, r#"{"execute":"c","id":{"x":1,"\u0078":2}}"#]);
    all_are(25, &[r#"{"execute":"c","arguments":{"a":[{"":1,"":2}]}}"#, r#"{"execute":"c","\u0065xecute":"c"}"#]);
    all_are(25, &[r#"{"x":1,"x":2}"#, r#"{"id":1,"id":1,"execute":5}"#]);
}

#[test]
fn an_envelope_has_its_four_keys_and_no_other() {
    all_are(26, &["5", "[]", "null", "\"c\"", "{}", r#"{"id":1}"#, r#"{"arguments":{}}"#, r#"{"execute":"c","x":1}"#]);
    all_are(
        26,
        &[r#"{"execute":"c","exec-oob":"c"}"#, r#"{"execute":5}"#, r#"{"execute":null}"#, r#"{"exec-oob":["c"]}"#],
    );
    for arguments in ["null", "[]", "5", "\"\"", "true"] {
        all_are(26, &[&format!("{{\"execute\":\"c\",\"arguments\":{arguments}}}")]);
    }
    all_are(0, &[r#"{"\u0065xecute":"\u0063","id":null}"#, r#"{"arguments":{},"id":{"a":[]},"execute":"c"}"#]);
    all_are(26, &[r#"{"Execute":"c"}"#, r#"{"execute ":"c"}"#]);
}

#[test]
fn a_string_that_names_no_command_is_27() {
    all_are(
        27,
        &[
            r#"{"execute":""}"#,
            r#"{"execute":"C"}"#,
            r#"{"execute":"c\u0000"}"#,
            r#"{"execute":"é"}"#,
            r#"{"execute":"cc"}"#,
        ],
    );
    all_are(27, &[r#"{"exec-oob":"x"}"#, r#"{"execute":"str"}"#]);
    let types = "{'struct':'s','data':{}}{'enum':'e','data':['v']}";
    assert_eq!(message_number(types, r#"{"execute":"s"}"#), 27);
    assert_eq!(message_number(types, r#"{"execute":"v"}"#), 27);
}

#[test]
fn names_that_meet_in_c_are_told_apart() {
    let schema = "{'enum':'e','data':['to-day']}{'command':'stop-lot','data':{'lot-id':'e','*any':'any'}}";
    let message = |command: &str, member: &str, value: &str| {
        format!(r#"{{"execute":"{command}","arguments":{{"{member}":"{value}"}}}}"#)
    };
    assert_eq!(message_number(schema, message("stop-lot", "lot-id", "to-day")), 0);
    assert_eq!(message_number(schema, message("stop_lot", "lot-id", "to-day")), 27);
    assert_eq!(message_number(schema, message("stop-lot", "lot_id", "to-day")), 29);
    assert_eq!(message_number(schema, message("stop-lot", "lot-id", "to_day")), 29);
    all_are(0, &[r#"{"execute":"c","id":{"a-b":1,"a_b":2},"arguments":{"a":{"-":1,"_":2}}}"#]);
    all_are(25, &[r#"{"execute":"c","id":{"a-b":1,"a_b":2,"a\u002db":3}}"#]);
}

#[test]
fn exec_oob_is_judged_before_the_arguments() {
    all_are(28, &[r#"{"exec-oob":"c","arguments":{"none":1}}"#]);
    let schema = "{'command':'c','allow-oob':true}{'command':'d','allow-oob':false}";
    assert_eq!(message_number(schema, r#"{"exec-oob":"c"}"#), 0);
    assert_eq!(message_number(schema, r#"{"execute":"c"}"#), 0);
    assert_eq!(message_number(schema, r#"{"exec-oob":"c","arguments":{"none":1}}"#), 29);
    assert_eq!(message_number(schema, r#"{"exec-oob":"d"}"#), 28);
}

#[test]
fn records_are_in_pre_order_and_message_order() {
    let schema = "{'command':'c','data':{'a':['s'],'b':'x'}}{'struct':'s','data':{'*n':'int'}}
        {'alternate':'x','data':{'i':'int','t':'s'}}";
    let message = r#"{"execute":"c","arguments":{"b":{"n":1},"a":[{"n":2},{}]}}"#;
    // Rows: 0 c, 1 inline, 2 a, 3 b, 4 s, 5 n, 6 x.
    let expected = [
        [27, 57, 17, 0],
        [32, 39, 22, 0],
        [32, 39, 20, 0],
        [37, 38, 3, 0],
        [44, 56, 20, 1],
        [45, 52, 20, 0],
        [50, 51, 3, 0],
        [53, 55, 20, 0],
    ];
    assert_eq!(records(schema, message), expected);
}

#[test]
fn any_has_no_records_inside() {
    let message = r#"{"execute":"c","arguments":{"a":[{"x":1}],"l":[[1],{"y":2}]}}"#;
    let expected = [[27, 60, 17, 0], [32, 41, 15, 0], [46, 59, 15, 1], [47, 50, 15, 0], [51, 58, 15, 0]];
    assert_eq!(records(ANY, message), expected);
}

#[test]
fn arguments_have_the_first_record_even_when_absent() {
    assert_eq!(records(ANY, r#"{"execute":"c"}"#), [[0, 0, 17, 0]]);
    assert_eq!(records(ANY, r#"{"execute":"c","arguments":{}}"#), [[27, 29, 17, 0]]);
    assert_eq!(records(ANY, r#"{"execute":"d"}"#), [[0, 0, 0, 0]]);
    assert_eq!(records(ANY, r#"{"execute":"d","arguments":{ }}"#), [[27, 30, 0, 0]]);
    all_are(29, &[r#"{"execute":"d","arguments":{"a":1}}"#]);
    assert_eq!(records("{'command':'c','data':{}}", r#"{"execute":"c"}"#), [[0, 0, 17, 0]]);
    assert_eq!(records("{'command':'c','data':'s'}{'struct':'s','data':{}}", r#"{"execute":"c"}"#), [[0, 0, 17, 0]]);
}

#[test]
fn minus_0_is_in_the_range_of_unsigned_types() {
    all_are(0, &[r#"{"execute":"c","arguments":{"n":-0}}"#]);
    all_are(29, &[r#"{"execute":"c","arguments":{"n":-0.0}}"#, r#"{"execute":"c","arguments":{"n":0e0}}"#]);
}

#[test]
fn a_discriminator_that_is_absent_no_string_or_no_value_is_29() {
    let schema = "{'enum':'e','data':['v','w']}{'struct':'s','data':{'m':'int'}}{'command':'c','data':{'u':'u'}}
        {'union':'u','base':{'t':'e'},'discriminator':'t','data':{'v':'s'}}";
    let number = |value: &str| message_number(schema, format!("{{\"execute\":\"c\",\"arguments\":{{\"u\":{value}}}}}"));
    for value in
        ["{}", r#"{"m":1}"#, r#"{"t":1,"m":1}"#, r#"{"t":"x"}"#, r#"{"t":"x","m":1}"#, r#"{"t":null}"#, "\"v\"", "[]"]
    {
        assert_eq!(number(value), 29, "{value}");
    }
    for value in [r#"{"t":"v"}"#, r#"{"t":"w","m":1}"#, r#"{"t":"v","m":"1"}"#, r#"{"t":"v","m":1,"x":1}"#] {
        assert_eq!(number(value), 29, "{value}");
    }
    for value in [r#"{"t":"w"}"#, r#"{"t":"v","m":1}"#, r#"{"m":1,"t":"v"}"#, r#"{"m":1,"\u0074":"\u0076"}"#] {
        assert_eq!(number(value), 0, "{value}");
    }
}

#[test]
fn quoted_digits_are_no_number_and_a_number_is_no_string() {
    let schema = "{'enum':'e','data':['7']}{'command':'c','data':{'*n':'int','*s':'str','*e':'e','*x':'number'}}";
    let number = |key: &str, value: &str| {
        message_number(schema, format!("{{\"execute\":\"c\",\"arguments\":{{\"{key}\":{value}}}}}"))
    };
    assert_eq!([number("n", "7"), number("s", "\"7\""), number("e", "\"\\u0037\""), number("x", "7")], [0; 4]);
    assert_eq!([number("n", "\"7\""), number("s", "7"), number("e", "7"), number("x", "\"7\"")], [29; 4]);
}
