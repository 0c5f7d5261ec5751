//! Fixed messages at the edges, each with its number by the rules.

use harness::{check_expected, Check, Tally};

use super::{compare_call, Call};
use crate::schemas::table_of;

pub fn compare(tally: &mut Tally) -> Check {
    let (schema, cases) = generate::messages::limits();
    for case in &cases {
        let call = Call { table: &case.table, schema: &schema.bytes, message: &case.message, room: case.room };
        check(call, case.number.expect("a limit has a number"), tally)?;
        check_rooms(call, tally)?;
    }
    let table = table_of(SCHEMA.as_bytes());
    let call = Call { table: &table, schema: SCHEMA.as_bytes(), message: SMALL[0].0.as_bytes(), room: 4_096 * 4 };
    for (message, number) in SMALL {
        let call = Call { message: message.as_bytes(), ..call };
        check(call, *number, tally)?;
        check_rooms(call, tally)?;
    }
    for (message, number) in levels().iter().chain(&lengths()) {
        check(Call { message, ..call }, *number, tally)?;
    }
    check_many_records(call, tally)?;
    check_tables(call, tally)
}

pub(super) fn check(call: Call, number: u32, tally: &mut Tally) -> Check {
    for seed in 0..3 {
        let answer = compare_call(call, seed, tally)?;
        check_expected("by the rules", call.message, answer.number, number)?;
    }
    tally.pass();
    Ok(())
}

fn check_rooms(call: Call, tally: &mut Tally) -> Check {
    call.need().every_room().into_iter().try_for_each(|room| compare_call(Call { room, ..call }, 1, tally).map(drop))
}

/// More records than the program lends, as many as there may be in one message, and room for fewer.
fn check_many_records(call: Call, tally: &mut Tally) -> Check {
    let list = |name: &str, value: &str, count: usize| {
        let values = vec![value; count].join(",");
        format!("{{\"execute\":\"c\",\"arguments\":{{\"{name}\":[{values}]}}}}").into_bytes()
    };
    for (message, records) in [
        (list("xs", "1", 8_100), 2 + 2 * 8_100),
        (list("xs", "{}", 5_000), 2 + 2 * 5_000),
        (list("ns", "1", 8_100), 2 + 8_100),
        (list("anys", "[]", 5_000), 2 + 5_000),
    ] {
        for (room, number) in [(records * 4, 0), (records * 4 + 3, 0), (records * 4 - 1, 30), (4_096 * 4, 30), (0, 30)]
        {
            check(Call { message: &message, room, ..call }, number, tally)?;
        }
    }
    // The last element has no reading: 29, however little room there is.
    let mut wrong = list("xs", "1", 8_000);
    wrong.truncate(wrong.len() - 3);
    wrong.extend(b",[]]}}");
    [0, 4, 16_384, 65_536].into_iter().try_for_each(|room| check(Call { message: &wrong, room, ..call }, 29, tally))
}

/// A message that is accepted, with other words for its table.
fn check_tables(call: Call, tally: &mut Tally) -> Check {
    let one_more = [call.table, &[9, 0, 0, 0, 0, 0, 0, 0]].concat();
    let many: Vec<u32> = call.table.iter().copied().cycle().take(1_025 * 8).collect();
    for table in [&call.table[1..], &call.table[..call.table.len() - 1], &[0], &[0; 8], &[7; 64], &one_more, &many] {
        for message in [call.message, b"", &[b'['; 20_000]] {
            check(Call { table, message, ..call }, 21, tally)?;
        }
    }
    check(Call { table: &[], ..call }, 27, tally)?;
    check(Call { schema: &[b'a'; 32_769], ..call }, 21, tally)?;
    check(Call { schema: &[], ..call }, 21, tally)
}

/// 32 and 33 levels: in an id, in an `any`, and where no value may stand.
fn levels() -> Vec<(Vec<u8>, u32)> {
    let open = "[".repeat(32);
    let nest = |levels: usize| format!("{}{}", "[".repeat(levels), "]".repeat(levels));
    let id = |levels: usize| format!("{{\"execute\":\"none\",\"id\":{}}}", nest(levels - 1));
    let any = |levels: usize| format!("{{\"execute\":\"c\",\"arguments\":{{\"any\":{}}}}}", nest(levels - 2));
    let tree = |levels: usize| {
        let (open, close) = ("{\"tree\":".repeat(levels - 1), "}".repeat(levels));
        format!("{{\"execute\":\"c\",\"arguments\":{open}{{{close}}}")
    };
    let texts = [
        (id(32), 0),
        (id(33), 24),
        (any(32), 0),
        (any(33), 24),
        (tree(31), 0),
        (tree(32), 24),
        (open.clone(), 23),
        (format!("{open}1["), 23),
        (format!("{open}["), 24),
        (format!("{open} \r\n{{\u{1}"), 24),
        (format!("{open}]{}[", "]".repeat(31)), 23),
    ];
    texts.into_iter().map(|(text, number)| (text.into_bytes(), number)).collect()
}

/// 16,384 bytes and one more, of what is and isn't text.
fn lengths() -> Vec<(Vec<u8>, u32)> {
    let padded = |text: &str, length: usize| format!("{text:length$}").into_bytes();
    let keys = |count: usize| {
        let keys: Vec<_> = (0..count).map(|i| format!("\"{i}\":0")).collect();
        format!("{{\"execute\":\"none\",\"id\":{{{}}}}}", keys.join(",")).into_bytes()
    };
    vec![
        (padded(SMALL[0].0, 16_384), 0),
        (padded(SMALL[0].0, 16_385), 22),
        (vec![b'x'; 16_384], 23),
        (vec![b'x'; 16_385], 22),
        (vec![b'['; 16_384], 24),
        (vec![b' '; 16_384], 23),
        (vec![b'7'; 16_384], 26),
        (vec![b'['; 1 << 20], 22),
        (keys(1_600), 0),
        (format!("[{{}}{}]", ",{}".repeat(5_000)).into_bytes(), 26),
    ]
}

const SCHEMA: &str = "
    {'enum':'E','data':['v','w','7','high']}
    {'struct':'B','data':{'*n':'int'}}
    {'struct':'S','base':'B','data':{'m':'str'}}
    {'struct':'T','data':{'*tree':'T','*any':'any','*xs':['X'],'*ns':['uint8'],'*anys':['any'],'*e':'E','*u':'U',
                          '*x':'X','*ys':['Y'],'*b':'bool','*r':'number','*s':'str','*z':'null','*wide':'uint64',
                          '*es':['E']}}
    {'union':'U','base':{'t':'E','*k':'int'},'discriminator':'t','data':{'v':'S','7':'B'}}
    {'enum':'F','data':['one','two']}
    {'alternate':'X','data':{'n':'int','o':'B','s':'F','z':'null'}}
    {'alternate':'Y','data':{'o':'B','s':'str','z':'null'}}
    {'command':'c','data':'T'}
    {'command':'none'}
    {'command':'empty','data':{}}
    {'command':'oob','allow-oob':true,'data':{'lot':'str'}}
    {'enum':'By-name','data':['to-day','a_b']}
    {'command':'stop-lot','data':{'lot-id':'str','*by_name':'By-name'}}";

const SMALL: &[(&str, u32)] = &[
    (r#"{"execute":"oob","arguments":{"lot":"007"}}"#, 0),
    // Keys, names and values by meaning.
    (r#"{"execute":"oob","arguments":{"l\u006ft":"007"}}"#, 0),
    (r#"{"execute":"oob","arguments":{"lot":"007","l\u006ft":"008"}}"#, 25),
    (r#"{"\u0065xecute":"\u006fob","\u0061rguments":{"lot":""}}"#, 0),
    (r#"{"execute":"oob","exec\u0075te":"oob"}"#, 25),
    (r#"{"execute":"oob","arguments":{"lot":7}}"#, 29),
    (r#"{"execute":"oob","arguments":{"Lot":"7"}}"#, 29),
    (r#"{"execute":"oob","arguments":{"lot":"7","tol":"7"}}"#, 29),
    (r#"{"execute":"oob","arguments":{}}"#, 29),
    (r#"{"execute":"oob"}"#, 29),
    // The envelope.
    (r#"{"execute":"oob","arguments":null}"#, 26),
    (r#"{"execute":"none","arguments":null}"#, 26),
    (r#"{"execute":"none","exec-oob":"none"}"#, 26),
    (r#"{"execute":"none","x":1}"#, 26),
    (r#"{"execute":["none"]}"#, 26),
    (r#"{}"#, 26),
    (r#"{"id":{"a":1,"\u0061":2}}"#, 25),
    (r#"{"execute":"none","id":[{"a":{},"b":[{"c":1,"c":1}]}]}"#, 25),
    (r#"{"execute":"none","id":{"id":{"id":null}}}"#, 0),
    // Commands.
    (r#"{"execute":"T"}"#, 27),
    (r#"{"execute":"str"}"#, 27),
    (r#"{"execute":""}"#, 27),
    (r#"{"execute":"none\u0000"}"#, 27),
    (r#"{"execute":"non"}"#, 27),
    (r#"{"exec-oob":"none"}"#, 28),
    (r#"{"exec-oob":"none","arguments":{"x":1}}"#, 28),
    (r#"{"exec-oob":"oob","arguments":{"lot":"\ud83d\ude00"}}"#, 0),
    (r#"{"exec-oob":"oob","arguments":{"lot":5}}"#, 29),
    // Names that meet in C are found by exactly their own, and keys repeat by it.
    (r#"{"execute":"stop-lot","arguments":{"lot-id":"","by_name":"to-day"}}"#, 0),
    (r#"{"execute":"stop\u002dlot","arguments":{"lot\u002Did":"","by\u005fname":"a\u005Fb"}}"#, 0),
    (r#"{"execute":"stop_lot","arguments":{"lot-id":""}}"#, 27),
    (r#"{"execute":"stop\u005flot","arguments":{"lot-id":""}}"#, 27),
    (r#"{"execute":"stop-lot","arguments":{"lot_id":""}}"#, 29),
    (r#"{"execute":"stop-lot","arguments":{"lot-id":"","lot_id":""}}"#, 29),
    (r#"{"execute":"stop-lot","arguments":{"lot-id":"","by-name":"to-day"}}"#, 29),
    (r#"{"execute":"stop-lot","arguments":{"lot-id":"","by_name":"to_day"}}"#, 29),
    (r#"{"execute":"stop-lot","arguments":{"lot-id":"","by_name":"a-b"}}"#, 29),
    (r#"{"execute":"stop-lot","arguments":{"lot-id":"","lot\u002did":""}}"#, 25),
    (r#"{"execute":"none","id":{"a-b":1,"a_b":2}}"#, 0),
    (r#"{"execute":"none","id":{"a-b":1,"a_b":2,"a\u005fb":3}}"#, 25),
    // Arguments where the command has none, or none that it must have.
    (r#"{"execute":"none"}"#, 0),
    (r#"{"execute":"none","arguments":{ }}"#, 0),
    (r#"{"execute":"none","arguments":{"":0}}"#, 29),
    (r#"{"execute":"empty"}"#, 0),
    (r#"{"execute":"empty","arguments":{}}"#, 0),
    (r#"{"execute":"empty","arguments":{"a":0}}"#, 29),
    // Built-ins.
    (r#"{"execute":"c","arguments":{"b":true,"r":1e999,"s":"1e999","z":null}}"#, 0),
    (r#"{"execute":"c","arguments":{"b":0}}"#, 29),
    (r#"{"execute":"c","arguments":{"b":"true"}}"#, 29),
    (r#"{"execute":"c","arguments":{"r":"1"}}"#, 29),
    (r#"{"execute":"c","arguments":{"s":null}}"#, 29),
    (r#"{"execute":"c","arguments":{"z":false}}"#, 29),
    (r#"{"execute":"c","arguments":{"wide":18446744073709551615}}"#, 0),
    (r#"{"execute":"c","arguments":{"wide":18446744073709551616}}"#, 29),
    (r#"{"execute":"c","arguments":{"wide":18446744073709551623}}"#, 29),
    (r#"{"execute":"c","arguments":{"wide":-1}}"#, 29),
    (r#"{"execute":"c","arguments":{"wide":-0}}"#, 0),
    (r#"{"execute":"c","arguments":{"wide":1.0}}"#, 29),
    (r#"{"execute":"c","arguments":{"wide":1e2}}"#, 29),
    (r#"{"execute":"c","arguments":{"wide":007}}"#, 23),
    (r#"{"execute":"c","arguments":{"ns":[0,255,-0]}}"#, 0),
    (r#"{"execute":"c","arguments":{"ns":[0,256]}}"#, 29),
    (r#"{"execute":"c","arguments":{"ns":0}}"#, 29),
    (r#"{"execute":"c","arguments":{"ns":{}}}"#, 29),
    (r#"{"execute":"c","arguments":{"any":[{"a":[1,{"b":null}]}],"anys":[[1],{"c":2},3]}}"#, 0),
    (r#"{"execute":"c","arguments":{"anys":{}}}"#, 29),
    // Enums.
    (r#"{"execute":"c","arguments":{"e":"v","es":["\u0076","w","7","\u0037","h\u0069gh"]}}"#, 0),
    (r#"{"execute":"c","arguments":{"e":"\ud83d\ude00"}}"#, 29),
    (r#"{"execute":"c","arguments":{"e":"\ud83d"}}"#, 23),
    (r#"{"execute":"c","arguments":{"e":7}}"#, 29),
    (r#"{"execute":"c","arguments":{"e":"V"}}"#, 29),
    (r#"{"execute":"c","arguments":{"e":""}}"#, 29),
    (r#"{"execute":"c","arguments":{"e":"v\u0000"}}"#, 29),
    // Unions: the discriminator anywhere, a branch with inherited members, a value without a branch.
    (r#"{"execute":"c","arguments":{"u":{"t":"v","m":"a"}}}"#, 0),
    (r#"{"execute":"c","arguments":{"u":{"n":5,"m":"a","k":1,"\u0074":"\u0076"}}}"#, 0),
    (r#"{"execute":"c","arguments":{"u":{"m":"a","t":"v","t":"w"}}}"#, 25),
    (r#"{"execute":"c","arguments":{"u":{"m":"a","t":"v","\u0074":"w"}}}"#, 25),
    (r#"{"execute":"c","arguments":{"u":{"t":"v","n":5}}}"#, 29),
    (r#"{"execute":"c","arguments":{"u":{"t":"v","m":5}}}"#, 29),
    (r#"{"execute":"c","arguments":{"u":{"t":"7","n":5}}}"#, 0),
    (r#"{"execute":"c","arguments":{"u":{"t":7,"n":5}}}"#, 29),
    (r#"{"execute":"c","arguments":{"u":{"n":5,"t":"7","m":"a"}}}"#, 29),
    (r#"{"execute":"c","arguments":{"u":{"t":"w"}}}"#, 0),
    (r#"{"execute":"c","arguments":{"u":{"t":"w","n":5}}}"#, 29),
    (r#"{"execute":"c","arguments":{"u":{"t":"x"}}}"#, 29),
    (r#"{"execute":"c","arguments":{"u":{"k":1}}}"#, 29),
    (r#"{"execute":"c","arguments":{"u":"v"}}"#, 29),
    // Alternates: by JSON kind, without a second try.
    (r#"{"execute":"c","arguments":{"x":1,"xs":["one",null,{},{"n":1},-5]}}"#, 0),
    (r#"{"execute":"c","arguments":{"x":"t\u0077o","ys":["1","one","",null,{},{"n":1}]}}"#, 0),
    (r#"{"execute":"c","arguments":{"x":"1"}}"#, 29),
    (r#"{"execute":"c","arguments":{"ys":["1",1]}}"#, 29),
    (r#"{"execute":"c","arguments":{"ys":[true]}}"#, 29),
    (r#"{"execute":"c","arguments":{"x":true}}"#, 29),
    (r#"{"execute":"c","arguments":{"x":[]}}"#, 29),
    (r#"{"execute":"c","arguments":{"x":1.5}}"#, 29),
    (r#"{"execute":"c","arguments":{"x":9223372036854775808}}"#, 29),
    (r#"{"execute":"c","arguments":{"x":{"m":1}}}"#, 29),
    (r#"{"execute":"c","arguments":{"xs":[1,[1]]}}"#, 29),
    // What is no text.
    ("", 23),
    ("\u{FEFF}{}", 23),
    ("{\"execute\":\"none\"}\0", 23),
    ("{'execute':'none'}", 23),
    ("5", 26),
    ("[{\"a\":1,\"a\":1}]", 25),
];
