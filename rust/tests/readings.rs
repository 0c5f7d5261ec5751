//! What the wrapper makes of accepted messages: the command, the records, their texts and types.

use windosprio::limits::{most_records, MESSAGE_BYTES, RECORD_WORDS};
use windosprio::{BuiltIn, Definition, MessageRefusal, Refused, Room, Schema, SchemaRefusal, Type};

/// A type of each kind; the comment isn't UTF-8.
const LOTS: &[u8] = b"# \xFF
{'enum':'Grade','data':['fine','coarse']}
{'struct':'Lot','data':{'id':'str','*grade':'Grade'}}
{'struct':'Sack','data':{'weight':'uint8'}}
{'union':'Batch','base':{'grade':'Grade'},'discriminator':'grade','data':{'fine':'Sack'}}
{'alternate':'Which','data':{'lot':'Lot','id':'int'}}
{'command':'move','data':{'lots':['Lot'],'to':'Which','batch':'Batch','note':'any'}}
{'command':'stop-lot','data':'Lot'}
{'command':'quit'}";

fn lots() -> Schema {
    Schema::compile(LOTS).expect("the schema is accepted")
}

/// The text and the type's name of each record.
fn texts(schema: &Schema, message: &str) -> Vec<(String, String)> {
    let reading = schema.check(message.as_bytes()).expect("the message is accepted");
    reading.records().map(|record| (record.text.to_string(), record.type_name().to_string())).collect()
}

fn pairs(expected: &[(&str, &str)]) -> Vec<(String, String)> {
    expected.iter().map(|(text, of)| (text.to_string(), of.to_string())).collect()
}

#[test]
fn each_value_has_its_text_and_type() {
    let arguments =
        r#"{"lots":[{"id":"\u0037"},{"grade":"fine","id":"ö"}],"to":7,"batch":{"weight":1,"grade":"fine"},"note":[1]}"#;
    let records = texts(&lots(), &format!("{{\"execute\":\"move\",\"arguments\":{arguments}}}"));
    let expected = [
        (arguments, "(inline struct)"),
        (r#"[{"id":"\u0037"},{"grade":"fine","id":"ö"}]"#, "[Lot]"),
        (r#"{"id":"\u0037"}"#, "Lot"),
        (r#""\u0037""#, "str"),
        (r#"{"grade":"fine","id":"ö"}"#, "Lot"),
        (r#""fine""#, "Grade"),
        (r#""ö""#, "str"),
        ("7", "Which"),
        ("7", "int"),
        (r#"{"weight":1,"grade":"fine"}"#, "Batch"),
        ("1", "uint8"),
        (r#""fine""#, "Grade"),
        ("[1]", "any"),
    ];
    assert_eq!(records, pairs(&expected));
}

#[test]
fn types_say_their_kind_and_row() {
    let schema = lots();
    let message = br#"{"execute":"stop-lot","arguments":{"id":"","grade":"fine"}}"#;
    let reading = schema.check(message).expect("the message is accepted");
    let types: Vec<_> = reading.records().map(|record| record.value_type).collect();
    let (lot, grade) = (Definition { row: 3, name: "Lot" }, Definition { row: 0, name: "Grade" });
    assert_eq!(types, [Type::Struct(lot), Type::BuiltIn(BuiltIn::Str), Type::Enum(grade)]);
    assert_eq!(reading.command(), Definition { row: 21, name: "stop-lot" });
    assert_eq!(reading.arguments(), reading.records().next().expect("there is a first record"));
    assert_eq!(reading.message().as_bytes(), message);
    assert_eq!(reading.words().len(), 3 * RECORD_WORDS);
}

#[test]
fn absent_arguments_have_an_empty_text() {
    assert_eq!(texts(&lots(), r#"{"execute":"quit"}"#), pairs(&[("", "(no data)")]));
    assert_eq!(texts(&lots(), r#"{"execute":"quit","arguments":{}}"#), pairs(&[("{}", "(no data)")]));
}

#[test]
fn a_room_is_used_again_whatever_was_in_it() {
    let schema = lots();
    let mut room = Room::new();
    let long = format!(r#"{{"execute":"stop-lot","arguments":{{"id":"{}","grade":"fine"}}}}"#, "x".repeat(1_000));
    for message in [long.as_str(), "[]", r#"{"execute":"quit"}"#, "", r#"{"execute":"stop-lot"}"#, &long] {
        let alone = schema.check(message.as_bytes());
        assert_eq!(schema.check_in(&mut room, message.as_bytes()), alone, "{message}");
    }
}

#[test]
fn no_message_is_refused_for_want_of_room() {
    let schema = Schema::compile(
        "{'struct':'s','data':{}}{'alternate':'a','data':{'n':'int','o':'s'}}{'command':'c','data':{'a':['a']}}",
    );
    let schema = schema.expect("the schema is accepted");
    let (before, after) = ("{\"execute\":\"c\",\"arguments\":{\"a\":[", "1]}}");
    for bytes in (before.len() + after.len()..100).chain([MESSAGE_BYTES - 1, MESSAGE_BYTES]) {
        let blanks = bytes - before.len() - after.len();
        let message = format!("{before}{}{after}{}", "1,".repeat(blanks / 2), " ".repeat(blanks % 2));
        let reading = schema.check(message.as_bytes()).expect("the message is accepted");
        assert_eq!((message.len(), reading.records().len()), (bytes, 2 + 2 * (1 + blanks / 2)));
        assert!(reading.records().len() <= most_records(bytes));
    }
    assert_eq!(schema.check(&[b' '; MESSAGE_BYTES + 1]).map_err(Refused::why), Err(MessageRefusal::TooLong));
}

#[test]
fn the_shortest_message_has_room() {
    let schema = Schema::compile("{'command':'c'}").expect("the schema is accepted");
    assert_eq!(schema.check(br#"{"execute":"c"}"#).expect("the message is accepted").records().len(), 1);
}

#[test]
fn refusals_come_with_their_variant() {
    assert_eq!(
        Schema::compile("{'struct':'s','base':'s','data':{}}").map_err(Refused::why),
        Err(SchemaRefusal::BadChain)
    );
    assert_eq!(Schema::compile(vec![b' '; 32_769]).map_err(Refused::why), Err(SchemaRefusal::TooLong));
    assert_eq!(lots().check(br#"{"execute":"stop"}"#).map_err(Refused::why), Err(MessageRefusal::UnknownCommand));
    assert_eq!(lots().check(br#"{"exec-oob":"quit"}"#).map_err(Refused::why), Err(MessageRefusal::NotOutOfBand));
}

#[test]
fn the_empty_schema_takes_no_command() {
    let schema = Schema::compile("").expect("the schema is accepted");
    assert_eq!((schema.rows(), schema.table(), schema.bytes()), (0, &[][..], &[][..]));
    assert_eq!(schema.check(br#"{"execute":"c"}"#).map_err(Refused::why), Err(MessageRefusal::UnknownCommand));
}

#[test]
fn threads_share_a_schema() {
    let schema = lots();
    let message = br#"{"execute":"quit"}"#;
    std::thread::scope(|scope| {
        let threads: Vec<_> = (0..2).map(|_| scope.spawn(|| schema.check(message).map(|r| r.command()))).collect();
        for thread in threads {
            assert_eq!(thread.join().expect("the thread ends"), Ok(Definition { row: 22, name: "quit" }));
        }
    });
}
