//! Schema text and the shapes of definitions: the points that are easily read past.

use crate::common::*;

fn all_are(number: u32, schemas: &[&str]) {
    for schema in schemas {
        assert_eq!(schema_number(schema.as_bytes()), number, "{schema}");
    }
}

#[test]
fn a_top_level_value_that_is_no_object_is_2() {
    all_are(2, &["[]", "'a'", "true", "false", "{},{}", "[{}]"]);
}

#[test]
fn a_ninth_level_is_2_even_where_4_would_hold() {
    let nest = |levels: usize| format!("{{'x':{}{}}}", "[".repeat(levels - 1), "]".repeat(levels - 1));
    all_are(4, &[&nest(8)]);
    all_are(2, &[&nest(9)]);
}

#[test]
fn what_other_json_has_is_2() {
    all_are(2, &["{'x':1}", "{'x':null}", "{\"x\":'a'}", "\u{FEFF}{}", "{'x':'\u{7F}'}", "{'x':'é'}", "{'x':'\t'}"]);
    all_are(4, &["{'x':' ~'}"]);
    all_are(2, &["{'x':'a',}", "{'x':['a',]}", "{'x' 'a'}", "{x:'a'}", "{'x':'a'", "{'x':TRUE}"]);
}

#[test]
fn a_comment_stands_where_a_blank_may() {
    all_are(0, &["#", "#x", "{#\n'enum'#\n:#\n'e'#\n,#\n'data'#\n:#\n[#\n]#\n}#", "#\r{'enum':1"]);
    all_are(2, &["{'x':t#\nrue}", "{'x':tr\nue}"]);
    all_are(4, &["{'x':'#\\\\'}", "#\n{}"]);
    let free: Vec<u8> = (0..=255).filter(|&byte| byte != b'\n').collect();
    assert_eq!(schema_number(&[b"#", &free[..], b"\n{'enum':'e','data':[]}"].concat()), 0);
    assert_eq!(schema_number(&[b"#", &free[..], b"\r{'enum':1}"].concat()), 0);
}

#[test]
fn a_backslash_is_followed_by_a_backslash() {
    all_are(2, &[r"{'x':'\n'}", r"{'x':'\''}", r"{'x':'\'}", r"{'x':'\u0061'}", r"{'x':'\/'}"]);
    all_are(5, &[r"{'enum':'a\\b','data':[]}", r"{'enum':'e','data':['\\']}"]);
    all_are(7, &[r"{'struct':'s','data':{'a':'in\\t'}}", r"{'struct':'s','base':'s\\','data':{}}"]);
    let union = r"{'enum':'e','data':['v']}{'struct':'s','data':{}}
        {'union':'u','base':{'t':'e'},'discriminator':'t\\','data':{'v':'s'}}";
    all_are(9, &[union]);
    all_are(3, &[r"{'\\':true,'\\':true}"]);
    all_are(4, &[r"{'\\':true,'\\\\':true}"]);
}

#[test]
fn a_repeated_key_is_3_wherever_it_stands() {
    all_are(3, &["{'a':'b','a':'b'}", "{'x':[{'y':{'a':true,'b':[],'a':false}}]}"]);
    all_are(3, &["{'enum':'e','data':[]}{'x':{}}{'y':[{'a':'','a':''}]}"]);
    all_are(3, &["{'struct':'s','data':{'a':'int','a':'int'}}", "{'enum':'q_','data':[],'data':[]}"]);
    all_are(6, &["{'struct':'s','data':{'a':'int','*a':'int'}}"]);
    all_are(0, &["{'struct':'s','data':{'a':'int'}}{'struct':'t','data':{'a':'int'}}"]);
}

#[test]
fn a_definition_has_exactly_one_kind() {
    all_are(4, &["{}", "{'data':[]}", "{'event':'e'}", "{'event':'e','data':{}}", "{'include':'x'}", "{'pragma':{}}"]);
    all_are(4, &["{'enum':'e','data':[],'struct':'s'}", "{'command':'c','enum':true}", "{'enum':[],'alternate':{}}"]);
}

#[test]
fn a_definition_has_the_keys_of_its_kind() {
    all_are(4, &["{'enum':'e'}", "{'struct':'s'}", "{'alternate':'a'}"]);
    all_are(4, &["{'union':'u','discriminator':'t','data':{}}", "{'union':'u','base':'b','data':{}}"]);
    all_are(4, &["{'union':'u','base':'b','discriminator':'t'}"]);
    all_are(4, &["{'enum':'e','data':[],'prefix':'p'}", "{'enum':'e','data':[],'base':'b'}"]);
    all_are(4, &["{'struct':'s','data':{},'if':'x'}", "{'struct':'s','data':{},'features':[]}"]);
    all_are(4, &["{'alternate':'a','data':{},'base':'b'}", "{'command':'c','base':'b'}"]);
    all_are(4, &["{'command':'c','boxed':true}", "{'command':'c','gen':false}", "{'command':'c','*data':{}}"]);
    all_are(0, &["{'command':'c'}", "{'data':[],'enum':'e'}", "{'allow-oob':true,'command':'c'}"]);
}

#[test]
fn a_value_has_the_shape_of_its_key() {
    all_are(4, &["{'enum':true,'data':[]}", "{'enum':['e'],'data':[]}", "{'enum':{},'data':[]}"]);
    all_are(4, &["{'enum':'e','data':{}}", "{'enum':'e','data':'v'}", "{'enum':'e','data':[['v']]}"]);
    all_are(4, &["{'enum':'e','data':[{'name':'v'}]}", "{'enum':'e','data':[true]}", "{'enum':'e','data':false}"]);
    all_are(4, &["{'struct':'s','data':[]}", "{'struct':'s','data':'t'}", "{'struct':'s','data':{'a':true}}"]);
    all_are(4, &["{'struct':'s','data':{'a':{'type':'int'}}}", "{'struct':'s','data':{'a':[]}}"]);
    all_are(4, &["{'struct':'s','data':{'a':['int','int']}}", "{'struct':'s','data':{'a':[['int']]}}"]);
    all_are(4, &["{'struct':'s','data':{'a':[true]}}", "{'struct':'s','data':{'a':['int',true]}}"]);
    all_are(4, &["{'struct':'s','data':{},'base':{}}", "{'struct':'s','data':{},'base':['b']}"]);
    all_are(4, &["{'command':'c','data':[]}", "{'command':'c','data':['s']}", "{'command':'c','data':true}"]);
    all_are(4, &["{'command':'c','returns':{}}", "{'command':'c','returns':[]}", "{'command':'c','returns':true}"]);
    all_are(4, &["{'command':'c','allow-oob':'true'}", "{'command':'c','allow-oob':[]}", "{'command':[]}"]);
    all_are(0, &["{'command':'c','allow-oob':false,'data':{}}"]);
}

#[test]
fn a_union_and_an_alternate_have_no_lists() {
    all_are(4, &["{'alternate':'a','data':{'x':['str']}}", "{'alternate':'a','data':['str']}"]);
    all_are(4, &["{'union':'u','base':{'t':'e'},'discriminator':'t','data':{'v':['s']}}"]);
    all_are(4, &["{'union':'u','base':[],'discriminator':'t','data':{}}"]);
    all_are(4, &["{'union':'u','base':'b','discriminator':['t'],'data':{}}"]);
    all_are(4, &["{'union':'u','base':'b','discriminator':'t','data':[]}"]);
    all_are(4, &["{'union':'u','base':{'t':{}},'discriminator':'t','data':{}}"]);
}

#[test]
fn any_string_has_the_shape_of_a_name() {
    all_are(5, &["{'enum':'','data':[]}", "{'enum':'e','data':['']}", "{'struct':'s','data':{'':'int'}}"]);
    all_are(
        7,
        &["{'struct':'s','data':{'a':''}}", "{'struct':'s','data':{},'base':''}", "{'command':'c','returns':['']}"],
    );
    all_are(7, &["{'command':'c','data':''}", "{'command':'c','data':'in t'}"]);
    let union = "{'enum':'e','data':['v']}{'struct':'s','data':{}}
        {'union':'u','base':{'t':'e'},'discriminator':'','data':{'v':'s'}}";
    all_are(9, &[union]);
}

#[test]
fn keys_may_come_in_any_order_but_order_counts_inside_data() {
    let words = table(b"{'data':{'b':['int'],'*a':'str'},'base':'t','struct':'s'}{'data':{},'struct':'t'}");
    let rows: Vec<_> = words.chunks(8).map(|row| (row[0], row[2], row[3], row[4], row[5])).collect();
    assert_eq!(rows, [(3, 1, 2, 4, 0), (4, 1, 3, 1, 0), (4, 1, 1, 0, 1), (3, 1, 0, 0, 0)]);
    assert_eq!((words[9], words[17]), (10, 23));
}
