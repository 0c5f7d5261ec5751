use super::*;

fn message(text: &[u8]) -> Verdict {
    read(Dialect::Message, text, 32)
}

fn schema(text: &[u8]) -> Verdict {
    read(Dialect::Schema, text, 8)
}

fn words(verdict: Verdict) -> Vec<[u32; 4]> {
    match verdict {
        Verdict::Whole(nodes) => nodes.into_iter().map(Node::words).collect(),
        other => panic!("not whole: {other:?}"),
    }
}

#[test]
fn nodes_stand_in_pre_order_and_hop_over_subtrees() {
    let text = br#" {"a":[1,-0.5],"\n":{"b":"\t"}, "c":null} "#;
    let expected = [
        [9, 1, 41, 11],
        [10, 2, 5, 5],
        [8, 6, 14, 5],
        [4, 7, 8, 4],
        [5, 9, 13, 5],
        [11, 15, 19, 9],
        [9, 20, 30, 9],
        [10, 21, 24, 9],
        [7, 25, 29, 9],
        [10, 32, 35, 11],
        [1, 36, 40, 11],
    ];
    assert_eq!(words(message(text)), expected);
}

#[test]
fn a_string_is_coded_by_an_escape_or_a_byte_above_7f() {
    let kinds = |text: &[u8]| words(message(text)).into_iter().map(|node| node[0]).collect::<Vec<_>>();
    assert_eq!(kinds(b"[\"\",\" ~\x7F\",\"\xC2\x80\",\"a\\/\",\"\xF4\x8F\xBF\xBF\"]"), [8, 6, 6, 7, 7, 7]);
    assert_eq!(kinds(b"{\"\x7F\":0,\"\xC3\xA9\":0,\"\\u0061\":0}"), [9, 10, 4, 11, 4, 11, 4]);
    assert_eq!(
        words(schema(b"{'~':'\\\\','\\\\':''}")),
        [[9, 0, 18, 5], [10, 1, 4, 3], [7, 5, 9, 3], [11, 10, 14, 5], [6, 15, 17, 5]]
    );
}

#[test]
fn top_level_objects_of_a_schema_follow_each_other() {
    let text = b"{'a':'b'}#'\xFF\x00{\n{}{'\\\\':[true,false]}# end";
    let expected = [
        [9, 0, 9, 3],
        [10, 1, 4, 3],
        [6, 5, 8, 3],
        [9, 15, 17, 4],
        [9, 17, 36, 9],
        [11, 18, 22, 9],
        [8, 23, 35, 9],
        [3, 24, 28, 8],
        [2, 29, 34, 9],
    ];
    assert_eq!(words(schema(text)), expected);
    assert_eq!(words(schema(b"")), [[0; 4]; 0]);
    assert_eq!(words(schema(b" \t\r\n#\r{")), [[0; 4]; 0]);
}

#[test]
fn children_are_found_by_hopping() {
    let Verdict::Whole(nodes) = message(br#"{"a":{"b":[1]},"c":[[],2]}"#) else { panic!("not whole") };
    assert_eq!(children(&nodes, 0).collect::<Vec<_>>(), [1, 6]);
    assert_eq!(children(&nodes, 7).collect::<Vec<_>>(), [8, 9]);
    assert_eq!(children(&nodes, 8).count(), 0);
}

/// Starts that some text has, each before a byte that none has there.
#[test]
fn a_message_fault_is_the_first_impossible_byte() {
    let cases: &[(&[u8], &[u8])] = &[
        (b"", b"x"),
        (b"", b"\xEF\xBB\xBF1"),
        (b"", b"]"),
        (b"", b"'a'"),
        (b" ", b"\x0C1"),
        (b"0", b"1"),
        (b"-0", b"0"),
        (b"-", b"a"),
        (b"", b"+1"),
        (b"", b".5"),
        (b"1.", b"e"),
        (b"1.5", b"."),
        (b"1e", b"]"),
        (b"1E+", b"-"),
        (b"1e5", b"."),
        (b"nul", b"L"),
        (b"true", b"r"),
        (b"[", b","),
        (b"[1,", b"]"),
        (b"[1 ", b"2"),
        (b"[1", b"}"),
        (b"{", b"1"),
        (b"{", b"{"),
        (b"{", b","),
        (b"{\"a\"", b"}"),
        (b"{\"a\" ", b"1"),
        (b"{\"a\":", b"}"),
        (b"{\"a\":1,", b"}"),
        (b"{\"a\":1", b":"),
        (b"1 ", b"1"),
        (b"[]", b"]"),
        (b"\"", b"\x1F\""),
        (b"\"", b"\n\""),
        (b"\"", b"\x80\""),
        (b"\"", b"\xC0\x80\""),
        (b"\"", b"\xC1\xBF\""),
        (b"\"\xC2", b"\""),
        (b"\"\xE0", b"\x9F\xBF\""),
        (b"\"\xED", b"\xA0\x80\""),
        (b"\"\xE1\x80", b"\"\""),
        (b"\"\xF0", b"\x8F\xBF\xBF\""),
        (b"\"\xF4", b"\x90\x80\x80\""),
        (b"\"", b"\xF5\x80\x80\x80\""),
        (b"\"\xF1\x80\x80", b"\xC0\""),
        (b"\"\\", b"x\""),
        (b"\"\\", b"'\""),
        (b"\"\\u", b"g000\""),
        (b"\"\\u00", b"\"\""),
        (b"\"\\uD", b"C00\""),
        (b"\"\\ud", b"f\""),
        (b"\"\\uD800", b"\""),
        (b"\"\\uDBFF\\", b"n\""),
        (b"\"\\udaFF\\u", b"0061\""),
        (b"\"\\uD800\\uD", b"800\""),
        (b"\"\\uD800\\uDc0", b"x\""),
    ];
    for (start, wrong) in cases {
        let text = [*start, *wrong].concat();
        assert_eq!(message(&text), Verdict::Fault(start.len()), "{text:?}");
        if !matches!(message(start), Verdict::Whole(_)) {
            assert_eq!(message(start), Verdict::Fault(start.len()), "{start:?}");
        }
    }
}

#[test]
fn a_schema_fault_is_the_first_impossible_byte() {
    let cases: &[(&[u8], &[u8])] = &[
        (b"", b"[]"),
        (b"", b"'a'"),
        (b"", b"true"),
        (b"", b"\xEF\xBB\xBF{}"),
        (b"{}", b",{}"),
        (b"{'a':", b"1}"),
        (b"{'a':", b"null}"),
        (b"{'a':", b"\"b\"}"),
        (b"{'a':'b'", b";"),
        (b"{'a':'b',", b"}"),
        (b"{'a':['b',", b"]}"),
        (b"{'a':'", b"\x7F'}"),
        (b"{'a':'", b"\xC3\xA4'}"),
        (b"{'a':'", b"\t'}"),
        (b"{'a':'\\", b"''}"),
        (b"{'a':'\\", b"n'}"),
        (b"{'a':t", b"#\nrue}"),
        (b"{'a':fals", b"E}"),
    ];
    for (start, wrong) in cases {
        let text = [*start, *wrong].concat();
        assert_eq!(schema(&text), Verdict::Fault(start.len()), "{text:?}");
    }
}

#[test]
fn the_bytes_ending_too_soon_are_a_fault_at_their_length() {
    let text = br#"{"a\u00e9\ud83d\uDe00":[-1.5e+3,true,null,"x"],"b":{}}"#;
    for length in 0..text.len() {
        assert_eq!(message(&text[..length]), Verdict::Fault(length));
    }
    let text = b"{'a\\\\':['b',true],'c':{}}";
    for length in 1..text.len() {
        assert_eq!(schema(&text[..length]), Verdict::Fault(length));
    }
}

#[test]
fn one_level_too_many_is_deep_where_a_value_may_stand() {
    let nest = |levels: usize, inner: &str| "[".repeat(levels) + inner;
    assert_eq!(message(nest(33, "").as_bytes()), Verdict::Deep(32));
    assert_eq!(message(nest(32, "{").as_bytes()), Verdict::Deep(32));
    assert_eq!(message(nest(32, "1, [").as_bytes()), Verdict::Deep(35));
    assert_eq!(message(nest(32, "1[").as_bytes()), Verdict::Fault(33));
    assert_eq!(message(nest(31, "{[").as_bytes()), Verdict::Fault(32));
    assert_eq!(message(nest(31, "{\"\":[").as_bytes()), Verdict::Deep(35));
    assert_eq!(message((nest(32, "") + &"]".repeat(32) + "[").as_bytes()), Verdict::Fault(64));
    assert!(matches!(message((nest(32, "") + &"]".repeat(32)).as_bytes()), Verdict::Whole(_)));
    assert_eq!(read(Dialect::Message, b"[", 0), Verdict::Deep(0));
    assert_eq!(read(Dialect::Schema, b"{", 0), Verdict::Deep(0));
    assert_eq!(read(Dialect::Schema, b"[", 0), Verdict::Fault(0));
    assert_eq!(schema(b"{'a':[[[[[[[["), Verdict::Deep(12));
    assert_eq!(schema(b"{'a':[[[[[[[{"), Verdict::Deep(12));
}

/// Calls `each` with every text over `alphabet` after `start`, up to `more` bytes longer, that isn't already at fault.
fn for_all_starts(dialect: Dialect, start: &[u8], alphabet: &[u8], more: usize, each: &mut impl FnMut(&[u8])) {
    each(start);
    if more == 0 || !is_start(dialect, start) {
        return;
    }
    for &byte in alphabet {
        for_all_starts(dialect, &[start, &[byte]].concat(), alphabet, more - 1, each);
    }
}

/// Not refused before its end.
fn is_start(dialect: Dialect, text: &[u8]) -> bool {
    match read(dialect, text, 2) {
        Verdict::Whole(_) => true,
        Verdict::Fault(place) => place == text.len(),
        Verdict::Deep(_) => false,
    }
}

fn can_be_completed(dialect: Dialect, text: &[u8], alphabet: &[u8], more: usize) -> bool {
    if matches!(read(dialect, text, 2), Verdict::Whole(_)) {
        return true;
    }
    more > 0
        && is_start(dialect, text)
        && alphabet.iter().any(|&byte| can_be_completed(dialect, &[text, &[byte]].concat(), alphabet, more - 1))
}

#[test]
fn a_text_without_a_fault_before_its_end_can_always_be_completed() {
    let cases: &[(Dialect, &[u8], &[u8], usize)] = &[
        (Dialect::Message, b"", b"]1,[", 6),
        (Dialect::Message, b"", b"}\":,{", 7),
        (Dialect::Message, b"", b"01-.eE+", 6),
        (Dialect::Message, b"", b"truefalsn", 5),
        (Dialect::Message, b"\"", b"\"\\uDC80d", 5),
        (Dialect::Message, b"\"\\uD8", b"\"\\uDC80n", 5),
        (Dialect::Message, b"\"", b"\"\x80\x8F\x90\x9F\xA0\xBF\xC2\xE0\xED\xEF\xF0\xF4", 4),
        (Dialect::Schema, b"", b"}]':,{[", 5),
        (Dialect::Schema, b"{'a':", b"}'\n\\true#", 4),
    ];
    for &(dialect, start, alphabet, more) in cases {
        for_all_starts(dialect, start, alphabet, more, &mut |text| {
            if is_start(dialect, text) {
                assert!(can_be_completed(dialect, text, alphabet, 14), "{:?}", String::from_utf8_lossy(text));
            }
        });
    }
}

#[test]
fn strings_hold_exactly_the_utf8_of_the_standard_library() {
    let edges = [0x20, 0x7F, 0x80, 0x8F, 0x90, 0x9F, 0xA0, 0xBF, 0xC0];
    for first in 0x80..=0xFF {
        for second in 0..=0xFF {
            agrees_with_std(&[first, second]);
            for third in edges {
                agrees_with_std(&[first, second, third]);
                for fourth in edges {
                    agrees_with_std(&[first, second, third, fourth]);
                }
            }
        }
    }
}

fn agrees_with_std(inside: &[u8]) {
    let allowed = inside.iter().all(|&byte| byte >= 0x20 && byte != b'"' && byte != b'\\');
    let text = [b"\"", inside, b"\""].concat();
    let whole = matches!(message(&text), Verdict::Whole(_));
    assert_eq!(whole, allowed && std::str::from_utf8(inside).is_ok(), "{text:?}");
}

#[test]
fn a_byte_counts_alike_at_every_place_of_a_string() {
    let cases: [(Dialect, &[u8], &[u8]); 2] = [(Dialect::Message, b"\"", b"\""), (Dialect::Schema, b"{'k':'", b"'}")];
    for (dialect, open, close) in cases {
        for byte in 0..=0xFF {
            let with = |before: usize, after: usize| {
                read(dialect, &[open, &vec![b'a'; before], &[byte], &vec![b'a'; after], close].concat(), 8)
            };
            for (before, after) in (0..20).flat_map(|before| (1..12).map(move |after| (before, after))) {
                match (with(0, 1), with(before, after)) {
                    (Verdict::Fault(alone), Verdict::Fault(place)) => assert_eq!(place, alone + before, "{byte:#x}"),
                    (Verdict::Whole(alone), Verdict::Whole(nodes)) => {
                        assert_eq!(alone.last().map(|node| node.kind), nodes.last().map(|node| node.kind))
                    }
                    (alone, other) => panic!("{byte:#x}: {alone:?} alone, {other:?} after {before} and before {after}"),
                }
            }
        }
    }
}

#[test]
fn every_code_unit_but_a_surrogate_may_stand_alone() {
    for unit in 0..=0xFFFF_u32 {
        for text in [format!("\"\\u{unit:04x}\""), format!("\"\\u{unit:04X}\"")] {
            let whole = matches!(message(text.as_bytes()), Verdict::Whole(_));
            assert_eq!(whole, char::from_u32(unit).is_some(), "{text}");
        }
    }
}
