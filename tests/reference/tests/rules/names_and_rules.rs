//! Names, and numbers 5 to 13: the points that are easily read past.

use crate::common::*;

/// An enum, structs and a union around what a case is about.
fn with_types(text: &str) -> u32 {
    let types = "{'enum':'E','data':['v','w','1x']}{'struct':'S','data':{'m':'int'}}{'struct':'T','data':{}}
        {'union':'U','base':{'t':'E'},'discriminator':'t','data':{'v':'T'}}
        {'alternate':'A','data':{'x':'str'}}{'command':'C'}";
    schema_number(format!("{types}{text}").as_bytes())
}

fn all_are(number: u32, texts: &[&str]) {
    for text in texts {
        assert_eq!(with_types(text), number, "{text}");
    }
}

fn union(base: &str, discriminator: &str, branches: &str) -> String {
    format!("{{'union':'u','base':{base},'discriminator':'{discriminator}','data':{{{branches}}}}}")
}

#[test]
fn one_star_is_taken_off_members_only() {
    all_are(0, &["{'struct':'s','data':{'*a':'int'}}", "{'command':'c','data':{'*a':'int'}}"]);
    all_are(0, &[&union("{'t':'E','*a':'int'}", "t", "'v':'S'")]);
    all_are(5, &["{'struct':'s','data':{'*':'int'}}", "{'struct':'s','data':{'**a':'int'}}"]);
    all_are(5, &["{'enum':'*e','data':[]}", "{'enum':'e','data':['*v']}", "{'command':'*c'}"]);
    all_are(5, &["{'alternate':'a','data':{'*x':'str'}}", &union("{'t':'E'}", "t", "'*v':'S'")]);
    all_are(9, &[&union("{'*t':'E'}", "*t", "'v':'S'"), &union("{'t':'E'}", "*t", "'v':'S'")]);
}

#[test]
fn only_an_enum_value_and_a_branch_may_start_with_a_digit() {
    all_are(0, &["{'enum':'e','data':['0','1-_']}", &union("{'t':'E'}", "t", "'1x':'S'")]);
    all_are(5, &["{'alternate':'a','data':{'1x':'str'}}", "{'struct':'s','data':{'1':'int'}}"]);
    all_are(5, &["{'enum':'1','data':[]}", "{'command':'1'}", "{'command':'c','data':{'*1':'int'}}"]);
    all_are(
        5,
        &["{'struct':'1','data':{}}", "{'alternate':'1','data':{'x':'str'}}", &union("{'1t':'E'}", "t", "'v':'S'")],
    );
}

#[test]
fn a_name_has_1_to_63_bytes_and_no_reserved_start() {
    let long = |length: usize| format!("{{'enum':'{}','data':[]}}", "a".repeat(length));
    all_are(0, &[&long(63), "{'enum':'q','data':['q-','Q_','qq_','9q_']}"]);
    all_are(5, &[&long(64), "{'enum':'q_','data':[]}", "{'enum':'e','data':['q_x']}"]);
    all_are(
        5,
        &["{'enum':'-','data':[]}", "{'enum':'_a','data':[]}", "{'enum':'a.b','data':[]}", "{'enum':'a b','data':[]}"],
    );
    all_are(5, &["{'struct':'s','data':{'*q_':'int'}}", "{'command':'c','data':{'a+':'int'}}"]);
}

#[test]
fn the_further_name_rules_of_003_refuse_nothing() {
    all_are(
        0,
        &[
            "{'struct':'has-List','data':{'has-a':'int','Upper_Case':'int','u':'int'}}",
            "{'enum':'nameList','data':['Kind']}",
        ],
    );
    all_are(0, &["{'command':'a_b'}", "{'struct':'KIND','data':{}}{'struct':'Kind','data':{}}"]);
    all_are(7, &["{'struct':'s','data':{'a':'QType'}}"]);
    all_are(0, &["{'struct':'s','data':{'a':'QType'}}{'enum':'QType','data':[]}"]);
}

#[test]
fn commands_types_and_built_ins_share_one_set_of_names() {
    all_are(6, &["{'command':'E'}", "{'enum':'C','data':[]}", "{'command':'C'}", "{'struct':'U','data':{}}"]);
    all_are(
        6,
        &[
            "{'command':'str'}",
            "{'enum':'any','data':[]}",
            "{'struct':'size','data':{}}",
            "{'alternate':'null','data':{'x':'str'}}",
        ],
    );
    all_are(
        7,
        &["{'struct':'s','data':{'a':'C'}}", "{'struct':'s','data':{'a':['C']}}", "{'command':'c','returns':'C'}"],
    );
    all_are(7, &["{'alternate':'a','data':{'x':'C'}}", "{'alternate':'a','data':{'x':'None'}}"]);
}

#[test]
fn base_named_data_and_branch_types_are_structs() {
    for name in ["int", "E", "U", "A", "C", "None", ""] {
        all_are(7, &[&format!("{{'struct':'s','data':{{}},'base':'{name}'}}")]);
        all_are(7, &[&format!("{{'command':'c','data':'{name}'}}")]);
        all_are(7, &[&union("{'t':'E'}", "t", &format!("'v':'{name}'"))]);
        all_are(7, &[&union(&format!("'{name}'"), "t", "'v':'T'")]);
    }
    all_are(0, &["{'struct':'s','data':{},'base':'S'}", "{'command':'c','data':'S'}"]);
}

#[test]
fn six_looks_at_a_list_s_own_names() {
    all_are(6, &["{'enum':'e','data':['a','b','a']}", "{'command':'c','data':{'a':'int','*a':'int'}}"]);
    all_are(6, &[&union("{'t':'E','*t':'E'}", "t", "'v':'S'")]);
    all_are(8, &["{'struct':'s','base':'S','data':{'*m':'int'}}"]);
    all_are(0, &["{'enum':'e','data':['e','E','str']}", "{'struct':'s','data':{'s':'s','int':'int'}}"]);
}

#[test]
fn names_that_meet_in_c_are_equal_in_every_list() {
    for (one, other) in [("a-b", "a_b"), ("a-", "a_"), ("a-b_c", "a_b-c"), ("a--b", "a__b"), ("a-b_c", "a_b_c")] {
        all_are(6, &[&format!("{{'command':'{one}'}}{{'struct':'{other}','data':{{}}}}")]);
        all_are(6, &[&format!("{{'enum':'e','data':['{one}','x','{other}']}}")]);
        all_are(6, &[&format!("{{'struct':'s','data':{{'{one}':'int','*{other}':'int'}}}}")]);
        all_are(6, &[&format!("{{'command':'c','data':{{'*{one}':'int','{other}':'int'}}}}")]);
        all_are(6, &[&union(&format!("{{'t':'E','{one}':'int','{other}':'int'}}"), "t", "'v':'T'")]);
        all_are(6, &[&union("{'t':'E'}", "t", &format!("'{one}':'T','{other}':'T'"))]);
        all_are(6, &[&format!("{{'alternate':'a','data':{{'{one}':'null','{other}':'bool'}}}}")]);
    }
    all_are(0, &["{'enum':'e','data':['a-b','a-c','ab','A-b','a--b','a-b-','amb','aOb','0-b','0b']}"]);
    all_are(6, &["{'enum':'e','data':['0-b','0_b']}", "{'struct':'s','data':{'a-b':'None','a_b':'None'}}"]);
}

#[test]
fn a_member_meets_inherited_ones_and_a_branch_s_those_of_the_base() {
    let base = "{'struct':'b','data':{'lot-id':'int'}}{'struct':'c','base':'b','data':{}}";
    for name in ["lot_id", "*lot_id", "lot-id"] {
        all_are(8, &[&format!("{base}{{'struct':'s','base':'b','data':{{'x':'int','{name}':'int'}}}}")]);
        all_are(8, &[&format!("{base}{{'struct':'s','base':'c','data':{{'{name}':'int'}}}}")]);
        for branch in ["b", "c"] {
            let over = union(&format!("{{'t':'E','{name}':'int'}}"), "t", &format!("'v':'{branch}'"));
            all_are(9, &[&format!("{base}{over}")]);
        }
    }
    all_are(0, &[&format!("{base}{{'struct':'s','base':'c','data':{{'lotid':'int','lot-':'int'}}}}")]);
    let over = union("{'t':'E'}", "t", "'v':'b','w':'d'");
    all_are(0, &[&format!("{base}{{'struct':'d','data':{{'lot_id':'int'}}}}{over}")]);
}

#[test]
fn names_that_refer_are_exact() {
    let types = "{'struct':'a-b','data':{'k-k':'e-e'}}{'enum':'e-e','data':['x-x']}";
    let wrong = [
        "{'struct':'s','data':{'x':'a_b'}}",
        "{'struct':'s','base':'a_b','data':{}}",
        "{'command':'c','data':'a_b'}",
        "{'command':'c','returns':'a_b'}",
        "{'alternate':'a','data':{'x':'e_e'}}",
    ];
    for text in wrong {
        all_are(7, &[&format!("{types}{text}")]);
        all_are(0, &[&format!("{types}{}", text.replace('_', "-"))]);
    }
    let over = |base: &str, discriminator: &str, branch: &str, of: &str| {
        format!("{types}{}", union(&format!("'{base}'"), discriminator, &format!("'{branch}':'{of}'")))
    };
    all_are(0, &[&over("a-b", "k-k", "x-x", "T")]);
    all_are(7, &[&over("a_b", "k-k", "x-x", "T"), &over("a-b", "k-k", "x-x", "a_b")]);
    all_are(9, &[&over("a-b", "k_k", "x-x", "T"), &over("a-b", "k-k", "x_x", "T")]);
}

#[test]
fn keys_that_meet_in_c_are_two_keys() {
    all_are(4, &["{'a-b':true,'a_b':true}"]);
    all_are(3, &["{'a-b':true,'a_b':true,'a-b':true}"]);
}

#[test]
fn each_number_is_judged_over_the_whole_schema_before_the_next() {
    all_are(7, &[&union("{'t':'E','x':'None'}", "t", "")]);
    all_are(6, &["{'struct':'s','data':{'a':'None'}}{'enum':'e','data':['a','a']}"]);
    all_are(5, &["{'enum':'e','data':['a','a']}{'enum':'q_','data':[]}"]);
    all_are(4, &["{'enum':'q_','data':[]}{}"]);
    all_are(3, &["{}{'x':true,'x':true}"]);
    all_are(2, &["{'x':true,'x':true}]"]);
    all_are(10, &["{'command':'c','returns':'int'}{'alternate':'a','data':{}}"]);
    all_are(9, &[&(union("{'t':'E'}", "t", "") + "{'alternate':'a','data':{}}")]);
    all_are(8, &[&(union("{'t':'E'}", "t", "") + "{'struct':'s','base':'s','data':{}}")]);
}

#[test]
fn chains_count_structs_only_and_are_judged_at_every_struct() {
    let chain = |length: usize| {
        let own = |i: usize| format!("{{'struct':'c{i}','base':'c{}','data':{{}}}}", i + 1);
        let last = format!("{{'struct':'c{length}','data':{{'t':'E'}}}}");
        (1..length).map(own).chain([last]).collect::<String>()
    };
    let over = union("'c1'", "t", "'v':'S'") + "{'command':'c','data':'c1'}";
    all_are(0, &[&(chain(16) + &over)]);
    all_are(8, &[&(chain(17) + &over), &chain(17)]);
    all_are(8, &["{'struct':'a','base':'b','data':{}}{'struct':'b','base':'a','data':{}}"]);
    all_are(
        8,
        &["{'struct':'a','base':'b','data':{}}{'struct':'b','base':'S','data':{}}
            {'struct':'c','base':'a','data':{'m':'int'}}"],
    );
}

#[test]
fn an_inherited_discriminator_is_linked_by_row() {
    let schema = b"{'struct':'other','data':{'t':'E'}}{'enum':'E','data':['v']}{'struct':'root','data':{'t':'E'}}
        {'struct':'mid','base':'root','data':{}}{'struct':'b','data':{}}
        {'union':'u','base':'mid','discriminator':'t','data':{'v':'b'}}";
    let words = table(schema);
    let union = words.chunks(8).find(|row| row[0] == 5).unwrap();
    assert_eq!((union[3], union[4], union[5]), (7, 1, 6));
}

#[test]
fn a_discriminator_is_a_mandatory_non_array_enum_member() {
    all_are(9, &[&union("{'t':'E'}", "x", "'v':'S'"), &union("{'*t':'E'}", "t", "'v':'S'")]);
    all_are(9, &[&union("{'t':['E']}", "t", "'v':'S'"), &union("{'t':'str'}", "t", "'v':'S'")]);
    all_are(9, &[&union("{'t':'S'}", "t", "'v':'T'"), &union("{}", "t", "'v':'S'"), &union("'S'", "m", "'v':'T'")]);
    all_are(9, &[&union("{'t':'A'}", "t", "'v':'S'"), &union("{'t':'E'}", "t", "")]);
}

#[test]
fn a_branch_names_a_value_and_repeats_no_base_member() {
    all_are(0, &[&union("{'t':'E'}", "t", "'v':'S','w':'S'"), &union("{'t':'E','n':'int'}", "t", "'w':'S'")]);
    all_are(9, &[&union("{'t':'E'}", "t", "'V':'S'"), &union("{'t':'E'}", "t", "'v':'S','x':'S'")]);
    all_are(9, &[&union("{'t':'E','*m':'str'}", "t", "'v':'S'")]);
    all_are(9, &[&(union("{'t':'E','*m':'str'}", "t", "'v':'s'") + "{'struct':'s','base':'S','data':{}}")]);
    all_are(9, &[&(union("'b'", "t", "'v':'S'") + "{'struct':'b','base':'S','data':{'t':'E'}}")]);
    all_are(9, &[&(union("'b'", "t", "'v':'b'") + "{'struct':'b','data':{'t':'E'}}")]);
}

#[test]
fn alternatives_differ_in_json_kind_and_are_neither_any_nor_alternates() {
    all_are(
        10,
        &["{'alternate':'a','data':{}}", "{'alternate':'a','data':{'x':'any'}}", "{'alternate':'a','data':{'x':'A'}}"],
    );
    all_are(10, &["{'alternate':'a','data':{'x':'a'}}", "{'alternate':'a','data':{'x':'int8','y':'size'}}"]);
    all_are(10, &["{'alternate':'a','data':{'x':'str','y':'E'}}", "{'alternate':'a','data':{'x':'S','y':'U'}}"]);
    all_are(
        10,
        &["{'alternate':'a','data':{'x':'bool','y':'bool'}}", "{'alternate':'a','data':{'x':'null','y':'null'}}"],
    );
    all_are(
        0,
        &["{'enum':'e','data':['v']}{'alternate':'a','data':{'v':'e','w':'number','x':'U','y':'bool','z':'null'}}"],
    );
    all_are(0, &["{'enum':'e','data':[]}{'alternate':'a','data':{'x':'e','y':'int'}}"]);
    all_are(10, &["{'enum':'e','data':[]}{'alternate':'a','data':{'x':'e','y':'str'}}"]);
}

#[test]
fn str_stands_beside_no_number_type_and_not_beside_bool() {
    for (other, number) in
        [("int", 10), ("number", 10), ("uint8", 10), ("size", 10), ("bool", 10), ("null", 0), ("S", 0)]
    {
        all_are(number, &[&format!("{{'alternate':'a','data':{{'x':'str','y':'{other}'}}}}")]);
        all_are(number, &[&format!("{{'alternate':'a','data':{{'x':'{other}','y':'str'}}}}")]);
    }
    all_are(0, &["{'alternate':'a','data':{'x':'str','y':'null','z':'U'}}"]);
    all_are(10, &["{'alternate':'a','data':{'x':'str','y':'null','z':'int64'}}"]);
}

#[test]
fn an_enum_stands_beside_what_none_of_its_values_looks_like() {
    let values = [("on", 0, 10), ("off", 0, 10), ("On", 0, 0), ("on1", 0, 0), ("o", 0, 0), ("offs", 0, 0)];
    let digits = [("0", 10, 0), ("0a", 10, 0), ("9", 10, 0), ("a0", 0, 0), ("a", 0, 0)];
    for (value, with_number, with_bool) in values.into_iter().chain(digits) {
        for list in
            [format!("'{value}'"), format!("'{value}','x'"), format!("'x','{value}','y'"), format!("'x','{value}'")]
        {
            let with =
                |others: &str| format!("{{'alternate':'a','data':{{'e':'e',{others}}}}}{{'enum':'e','data':[{list}]}}");
            all_are(with_number, &[&with("'n':'int'"), &with("'n':'number'"), &with("'z':'null','n':'size','s':'S'")]);
            all_are(with_bool, &[&with("'b':'bool'"), &with("'s':'U','b':'bool','z':'null'")]);
            all_are(with_number.max(with_bool), &[&with("'n':'int8','b':'bool'")]);
            all_are(0, &[&with("'z':'null','s':'S'")]);
        }
    }
    all_are(10, &["{'alternate':'a','data':{'e':'E','n':'int'}}"]);
    all_are(0, &["{'alternate':'a','data':{'e':'E','b':'bool'}}"]);
}

#[test]
fn a_return_is_a_struct_a_union_or_an_array_of_these() {
    for name in ["any", "int", "str", "E", "A"] {
        all_are(
            11,
            &[&format!("{{'command':'c','returns':'{name}'}}"), &format!("{{'command':'c','returns':['{name}']}}")],
        );
    }
    all_are(0, &["{'command':'c','returns':'S'}", "{'command':'c','returns':['U']}"]);
}

#[test]
fn twelve_and_thirteen_come_last() {
    let values: Vec<_> = (0..1_100).map(|i| format!("'v{i}'")).collect();
    let big = format!("{{'enum':'e','data':[{}]}}", values.join(","));
    assert_eq!(answer_with_room(big.as_bytes(), 0).number, 12);
    assert_eq!(answer_with_room(format!("{big}{{'command':'c','returns':'int'}}").as_bytes(), 0).number, 11);
    assert_eq!(answer_with_room(b"{'command':'c','returns':'int'}", 0).number, 11);
}

#[test]
fn words_left_over_are_0_and_lend_no_row() {
    let schema = b"{'enum':'e','data':['v']}";
    for room in 0..32 {
        let answer = answer_with_room(schema, room);
        assert_eq!((answer.number, answer.count), if room < 16 { (13, 0) } else { (0, 2) });
    }
    let empty = answer_with_room(b" # nothing", 0);
    assert_eq!((empty.number, empty.count), (0, 0));
}
