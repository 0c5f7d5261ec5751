//! Definitions that are each refused with one number, whatever valid schema they stand in.

use super::{meeting, mixes};
use crate::names::{met, Names};
use crate::tree::{parse_schema, Tree};
use crate::Random;

/// Trees with one fault of a number from 3 to 11; `%a` to `%d` stand for names not yet used, `%1` and `%2` for two such
/// that meet in C.
pub fn trees(random: &mut Random, names: &mut Names, number: u32) -> Vec<Tree> {
    let text = match (number, random.below(4)) {
        (3, 0) => long_object(random),
        (5, 0) => bad_name_anywhere(random),
        (6, 0) => long_list(random),
        (8, 0) => long_chain(random),
        (8, 1) => long_inheritance(random),
        (9, 1) => long_union(random),
        (10, 0 | 1) => mixes::fault(random),
        (_, 2) => meeting::fault(random, number).unwrap_or_else(|| random.pick(texts(number)).to_string()),
        _ => random.pick(texts(number)).to_string(),
    };
    parse_schema(&with_names(random, names, text))
}

/// All texts with one fault of a number from 3 to 11.
fn texts(number: u32) -> &'static [&'static str] {
    match number {
        3 => REPEATED_KEYS,
        4 => BAD_SHAPES,
        5 => BAD_NAMES,
        6 => EQUAL_NAMES,
        7 => UNKNOWN_NAMES,
        8 => BAD_CHAINS,
        9 => BAD_UNIONS,
        10 => BAD_ALTERNATES,
        11 => BAD_RETURNS,
        _ => panic!("no definition alone is refused with {number}"),
    }
}

/// Every text with one fault, alone, and its number.
pub fn every() -> impl Iterator<Item = (String, u32)> {
    let named = |text: &str| text.replace("%a", "A").replace("%b", "B").replace("%c", "C").replace("%d", "D");
    (3..12).flat_map(move |number| texts(number).iter().map(move |text| (named(text), number)))
}

fn with_names(random: &mut Random, names: &mut Names, mut text: String) -> String {
    for place in ["%a", "%b", "%c", "%d"] {
        if text.contains(place) {
            text = text.replace(place, &names.fresh(random));
        }
    }
    if text.contains("%1") {
        let (one, other) = names.fresh_pair(random);
        text = text.replace("%1", &one).replace("%2", &other);
    }
    text
}

/// An enum of more than 1,024 values.
pub fn many_rows(random: &mut Random, names: &mut Names) -> Tree {
    let count = if random.one_in(2) { 1_024 } else { random.between(1_024, 1_500) };
    let values = (0..count).map(|value| Tree::text(format!("v{value}"))).collect();
    let name = Tree::text(names.fresh(random));
    Tree::object(vec![(Tree::text("data"), Tree::list(values)), (Tree::text("enum"), name)])
}

/// Many keys of which one is there twice.
fn long_object(random: &mut Random) -> String {
    let mut names = long_names(random);
    let again = random.pick(&names).clone();
    names.insert(random.below(names.len() + 1), again);
    format!("{{'struct':'%a','data':{{{}}}}}", members(&names))
}

/// Many names of which one is there twice, or two meet: in an enum, or in a struct once with and once without `*`.
fn long_list(random: &mut Random) -> String {
    let names = long_names(random);
    let place = random.below(names.len());
    let again = met(random, &names[place]).filter(|_| random.one_in(2)).unwrap_or_else(|| names[place].clone());
    let (earlier, later) = names.split_at(random.between(place, names.len()));
    if random.one_in(2) {
        return format!("{{'enum':'%a','data':['{}']}}", [earlier, &[again], later].concat().join("','"));
    }
    let again = format!("*{again}");
    format!("{{'struct':'%a','data':{{{}}}}}", members(&[earlier, &[again], later].concat()))
}

/// A struct and its base with many members, two of which are equal or meet.
fn long_inheritance(random: &mut Random) -> String {
    let (own, inherited) = clashing_lists(random);
    let (own, inherited) = (members(&own), members(&inherited));
    format!("{{'struct':'%a','data':{{{inherited}}}}}{{'struct':'%b','base':'%a','data':{{{own}}}}}")
}

/// A union's base and its branch with many members, two of which are equal or meet.
fn long_union(random: &mut Random) -> String {
    let (branch, base) = clashing_lists(random);
    let (branch, base) = (members(&branch), members(&base));
    format!(
        "{{'enum':'%a','data':['x']}}{{'struct':'%b','data':{{{branch}}}}}
         {{'union':'%c','base':{{{base},'t':'%a'}},'discriminator':'t','data':{{'x':'%b'}}}}"
    )
}

/// Two lists of many names, apart but for one name that stands in both, or meets in C.
fn clashing_lists(random: &mut Random) -> (Vec<String>, Vec<String>) {
    let [mut one, other] = [(); 2].map(|_| long_names(random));
    one.iter_mut().for_each(|name| name.insert(0, 'k'));
    let shared = random.pick(&other).clone();
    let place = random.below(one.len());
    one[place] = met(random, &shared).unwrap_or(shared);
    (one, other)
}

/// Many names, apart; most have one of the two bytes that are one in C.
fn long_names(random: &mut Random) -> Vec<String> {
    (0..random.between(20, 120)).map(|i| format!("n{}{i}", random.pick(&["", "-", "_"]))).collect()
}

fn members(names: &[String]) -> String {
    names.iter().map(|name| format!("'{name}':'int'")).collect::<Vec<_>>().join(",")
}

/// 17 structs or more, in a row that ends or that doesn't.
fn long_chain(random: &mut Random) -> String {
    let length = if random.one_in(2) { 17 } else { random.between(17, 24) };
    let own = |i: usize| format!("{{'struct':'%a-{i}','base':'%a-{}','data':{{}}}}", i + 1);
    let last = match random.one_in(4) {
        true => format!("{{'struct':'%a-{length}','base':'%a-{}','data':{{}}}}", random.between(1, length)),
        false => format!("{{'struct':'%a-{length}','data':{{}}}}"),
    };
    // A short stem: 63 bytes and a number would be a bad name.
    (1..length).map(own).chain([last]).collect::<String>().replace("%a", "Chain-of-bases")
}

fn bad_name_anywhere(random: &mut Random) -> String {
    let long = "n".repeat(random.between(64, 80));
    let bad = ["", "-a", "_a", "q_", "q_a", "a b", "a.b", "a\\\\b", "**", "a*", "a:", "~", "A%", "$", &long];
    let name = random.pick(&bad);
    let places = [
        "{'enum':'!','data':[]}",
        "{'enum':'%a','data':['x','!']}",
        "{'struct':'!','data':{}}",
        "{'struct':'%a','data':{'x':'int','!':'int'}}",
        "{'struct':'%a','data':{'*!':'int'}}",
        "{'alternate':'!','data':{'x':'str'}}",
        "{'alternate':'%a','data':{'!':'str'}}",
        "{'command':'!'}",
        "{'command':'%a','data':{'!':'int'}}",
        "{'command':'%a','data':{'x':'int','*!':'int'}}",
        "{'union':'!','base':{'t':'%a'},'discriminator':'t','data':{'x':'%b'}}",
        "{'union':'%c','base':{'t':'%a','!':'int'},'discriminator':'t','data':{'x':'%b'}}",
        "{'union':'%c','base':{'t':'%a'},'discriminator':'t','data':{'!':'%b'}}",
    ];
    random.pick(&places).replace('!', name)
}

const REPEATED_KEYS: &[&str] = &[
    "{'enum':'%a','data':[],'data':[]}",
    "{'data':[],'enum':'%a','enum':'%a'}",
    "{'struct':'%a','data':{'x':'int','y':'int','x':'str'}}",
    "{'struct':'%a','data':{'*x':'int','*x':'int'}}",
    "{'command':'%a','data':{'x':'int','x':'int'}}",
    "{'command':'%a','returns':'%b','returns':'%b'}{'struct':'%b','data':{}}",
    "{'alternate':'%a','data':{'x':'str','x':'int'}}",
    "{'enum':'%a','data':['x']}{'struct':'%b','data':{}}
     {'union':'%c','base':{'t':'%a'},'discriminator':'t','data':{'x':'%b','x':'%b'}}",
    "{'enum':'%a','data':['x']}{'struct':'%b','data':{}}
     {'union':'%c','base':{'t':'%a','t':'%a'},'discriminator':'t','data':{'x':'%b'}}",
    "{'x':'','x':''}",
    "{'':true,'':true}",
    "{'a':[{'b':{'c':true,'d':[],'c':false}}]}",
    "{'\\\\':true,'\\\\':true}",
    "{'enum':'%a','data':[{'name':'x','name':'x'}]}",
];

const BAD_SHAPES: &[&str] = &[
    "{}",
    "{'data':{}}",
    "{'event':'%a'}",
    "{'event':'%a','data':{'x':'int'}}",
    "{'include':'%a'}",
    "{'pragma':{'doc-required':true}}",
    "{'enum':'%a','data':[],'struct':'%b'}",
    "{'command':'%a','alternate':true}",
    "{'union':[],'command':'%a'}",
    "{'enum':'%a'}",
    "{'struct':'%a'}",
    "{'struct':'%a','base':'%b'}{'struct':'%b','data':{}}",
    "{'alternate':'%a'}",
    "{'union':'%a','base':{},'data':{}}",
    "{'union':'%a','discriminator':'t','data':{}}",
    "{'union':'%a','discriminator':'t','base':{}}",
    "{'enum':'%a','data':[],'prefix':'x'}",
    "{'enum':'%a','data':[],'base':'%b'}",
    "{'struct':'%a','data':{},'if':'X'}",
    "{'struct':'%a','data':{},'features':[]}",
    "{'struct':'%a','data':{},'discriminator':'t'}",
    "{'alternate':'%a','data':{'x':'str'},'base':'%b'}",
    "{'command':'%a','boxed':true}",
    "{'command':'%a','success-response':false}",
    "{'command':'%a','*data':{}}",
    "{'command':'%a','Data':{}}",
    "{'command':'%a','data\\\\':{}}",
    "{'enum':true,'data':[]}",
    "{'enum':['%a'],'data':[]}",
    "{'enum':'%a','data':{}}",
    "{'enum':'%a','data':'x'}",
    "{'enum':'%a','data':['x',['y']]}",
    "{'enum':'%a','data':[true]}",
    "{'enum':'%a','data':[{'name':'x'}]}",
    "{'struct':{},'data':{}}",
    "{'struct':'%a','data':[]}",
    "{'struct':'%a','data':'%b'}",
    "{'struct':'%a','data':{'x':true}}",
    "{'struct':'%a','data':{'x':{'type':'int'}}}",
    "{'struct':'%a','data':{'x':[]}}",
    "{'struct':'%a','data':{'x':['int','int']}}",
    "{'struct':'%a','data':{'x':[['int']]}}",
    "{'struct':'%a','data':{'x':[false]}}",
    "{'struct':'%a','data':{'x':['int',true]}}",
    "{'struct':'%a','data':{},'base':{}}",
    "{'struct':'%a','data':{},'base':['%a']}",
    "{'union':'%a','base':[],'discriminator':'t','data':{}}",
    "{'union':'%a','base':true,'discriminator':'t','data':{}}",
    "{'union':'%a','base':{'t':{}},'discriminator':'t','data':{}}",
    "{'union':'%a','base':{},'discriminator':['t'],'data':{}}",
    "{'union':'%a','base':{},'discriminator':'t','data':[]}",
    "{'union':'%a','base':{},'discriminator':'t','data':{'x':['%b']}}",
    "{'union':'%a','base':{},'discriminator':'t','data':{'x':{}}}",
    "{'alternate':'%a','data':['str']}",
    "{'alternate':'%a','data':{'x':['str']}}",
    "{'alternate':'%a','data':{'x':true}}",
    "{'command':[]}",
    "{'command':'%a','data':[]}",
    "{'command':'%a','data':true}",
    "{'command':'%a','returns':{}}",
    "{'command':'%a','returns':[]}",
    "{'command':'%a','returns':['%a','%a']}",
    "{'command':'%a','returns':false}",
    "{'command':'%a','allow-oob':'true'}",
    "{'command':'%a','allow-oob':[true]}",
    "{'command':'%a','x':[[[[[[[]]]]]]]}",
];

const BAD_NAMES: &[&str] = &[
    "{'enum':'1a','data':[]}",
    "{'struct':'0','data':{}}",
    "{'command':'9-a'}",
    "{'alternate':'1','data':{'x':'str'}}",
    "{'alternate':'%a','data':{'1':'str'}}",
    "{'struct':'%a','data':{'1':'int'}}",
    "{'struct':'%a','data':{'*1':'int'}}",
    "{'struct':'%a','data':{'*':'int'}}",
    "{'struct':'%a','data':{'**x':'int'}}",
    "{'enum':'*%a','data':[]}",
    "{'enum':'%a','data':['*x']}",
    "{'alternate':'%a','data':{'*x':'str'}}",
    "{'command':'*%a'}",
    "{'union':'%c','base':{'t':'%a'},'discriminator':'t','data':{'*x':'%b'}}",
    "{'union':'1','base':{'t':'%a'},'discriminator':'t','data':{}}",
];

const EQUAL_NAMES: &[&str] = &[
    "{'enum':'%a','data':['x','y','x']}",
    "{'enum':'%a','data':['1','1']}",
    "{'struct':'%a','data':{'x':'int','*x':'int'}}",
    "{'command':'%a','data':{'*x':'int','y':'int','x':'int'}}",
    "{'enum':'%a','data':['x']}{'struct':'%b','data':{}}
     {'union':'%c','base':{'t':'%a','*t':'%a'},'discriminator':'t','data':{'x':'%b'}}",
    "{'enum':'%a','data':[]}{'enum':'%a','data':[]}",
    "{'enum':'%a','data':[]}{'command':'%a'}",
    "{'struct':'%a','data':{}}{'alternate':'%a','data':{'x':'str'}}",
    "{'command':'%a'}{'command':'%a'}",
    "{'command':'str'}",
    "{'enum':'any','data':[]}",
    "{'struct':'size','data':{}}",
    "{'struct':'uint64','data':{}}",
    "{'alternate':'null','data':{'x':'str'}}",
];

const UNKNOWN_NAMES: &[&str] = &[
    "{'struct':'%a','data':{'x':'%b'}}",
    "{'struct':'%a','data':{'x':['%b']}}",
    "{'struct':'%a','data':{'*x':''}}",
    "{'struct':'%a','data':{'x':'QType'}}",
    "{'struct':'%a','data':{'x':'Int'}}",
    "{'struct':'%a','data':{'x':'in\\\\t'}}",
    "{'struct':'%a','data':{'x':'*int'}}",
    "{'struct':'%a','data':{'x':'%b'}}{'command':'%b'}",
    "{'struct':'%a','base':'%b','data':{}}",
    "{'struct':'%a','base':'int','data':{}}",
    "{'struct':'%a','base':'%b\\\\','data':{}}{'struct':'%b','data':{}}",
    "{'command':'%a','data':'%b\\\\'}{'struct':'%b','data':{}}",
    "{'command':'%a','returns':['\\\\%b']}{'struct':'%b','data':{}}",
    "{'enum':'%a','data':['x']}{'struct':'%b','data':{'t':'%a'}}{'struct':'%d','data':{}}
     {'union':'%c','base':'%b\\\\','discriminator':'t','data':{'x':'%d'}}",
    "{'enum':'%a','data':['x']}{'struct':'%b','data':{}}
     {'union':'%c','base':{'t':'%a'},'discriminator':'t','data':{'x':'%b\\\\'}}",
    "{'struct':'%a','base':'%b','data':{}}{'enum':'%b','data':[]}",
    "{'struct':'%a','base':'%b','data':{}}{'alternate':'%b','data':{'x':'str'}}",
    "{'struct':'%a','base':'%b','data':{}}{'command':'%b'}",
    "{'enum':'%a','data':['x']}{'struct':'%b','data':{}}{'struct':'%d','base':'%c','data':{}}
     {'union':'%c','base':{'t':'%a'},'discriminator':'t','data':{'x':'%b'}}",
    "{'command':'%a','data':'%b'}",
    "{'command':'%a','data':'str'}",
    "{'command':'%a','data':'%a'}",
    "{'command':'%a','data':{'x':'%a'}}",
    "{'command':'%a','data':'%b'}{'enum':'%b','data':[]}",
    "{'command':'%a','returns':'%b'}",
    "{'command':'%a','returns':['%a']}",
    "{'alternate':'%a','data':{'x':'%b'}}",
    "{'alternate':'%a','data':{'x':'%b'}}{'command':'%b'}",
    "{'enum':'%a','data':['x']}{'union':'%c','base':{'t':'%a'},'discriminator':'t','data':{'x':'%b'}}",
    "{'enum':'%a','data':['x']}{'union':'%c','base':{'t':'%a'},'discriminator':'t','data':{'x':'str'}}",
    "{'enum':'%a','data':['x']}{'union':'%c','base':{'t':'%a'},'discriminator':'t','data':{'x':'%a'}}",
    "{'enum':'%a','data':['x']}{'union':'%c','base':{'t':'%a'},'discriminator':'t','data':{'x':'%c'}}",
    "{'union':'%c','base':'%b','discriminator':'t','data':{}}",
    "{'union':'%c','base':{'t':'%a'},'discriminator':'t','data':{}}",
];

const BAD_CHAINS: &[&str] = &[
    "{'struct':'%a','base':'%a','data':{}}",
    "{'struct':'%a','base':'%b','data':{}}{'struct':'%b','base':'%a','data':{}}",
    "{'struct':'%a','base':'%b','data':{}}{'struct':'%b','base':'%c','data':{}}{'struct':'%c','base':'%b','data':{}}",
    "{'struct':'%a','data':{'x':'int'}}{'struct':'%b','base':'%a','data':{'y':'int','x':'int'}}",
    "{'struct':'%a','data':{'*x':'int'}}{'struct':'%b','base':'%a','data':{'x':'str'}}",
    "{'struct':'%a','data':{'x':'int'}}{'struct':'%b','base':'%a','data':{}}
     {'struct':'%c','base':'%b','data':{'*x':['int']}}",
    "{'struct':'%a','data':{'x':'int'}}{'struct':'%b','base':'%a','data':{'x':'int'}}
     {'struct':'%c','base':'%b','data':{}}",
];

const BAD_UNIONS: &[&str] = &[
    "{'enum':'%a','data':['x']}{'union':'%c','base':{'t':'%a'},'discriminator':'t','data':{}}",
    "{'enum':'%a','data':[]}{'union':'%c','base':{'t':'%a'},'discriminator':'t','data':{}}",
    "{'enum':'%a','data':['x']}{'struct':'%b','data':{}}
     {'union':'%c','base':{'t':'%a'},'discriminator':'u','data':{'x':'%b'}}",
    "{'enum':'%a','data':['x']}{'struct':'%b','data':{}}
     {'union':'%c','base':{'t':'%a'},'discriminator':'','data':{'x':'%b'}}",
    "{'enum':'%a','data':['x']}{'struct':'%b','data':{}}
     {'union':'%c','base':{'*t':'%a'},'discriminator':'t','data':{'x':'%b'}}",
    "{'enum':'%a','data':['x']}{'struct':'%b','data':{}}
     {'union':'%c','base':{'*t':'%a'},'discriminator':'*t','data':{'x':'%b'}}",
    "{'enum':'%a','data':['x']}{'struct':'%b','data':{}}
     {'union':'%c','base':{'t':'%a'},'discriminator':'t\\\\','data':{'x':'%b'}}",
    "{'enum':'%a','data':['x']}{'struct':'%b','data':{}}
     {'union':'%c','base':{'t':['%a']},'discriminator':'t','data':{'x':'%b'}}",
    "{'struct':'%b','data':{}}{'union':'%c','base':{'t':'str'},'discriminator':'t','data':{'x':'%b'}}",
    "{'struct':'%b','data':{}}{'union':'%c','base':{'t':'%b'},'discriminator':'t','data':{'x':'%b'}}",
    "{'enum':'%a','data':['x']}{'alternate':'%d','data':{'e':'%a'}}{'struct':'%b','data':{}}
     {'union':'%c','base':{'t':'%d'},'discriminator':'t','data':{'x':'%b'}}",
    "{'enum':'%a','data':['x','y']}{'struct':'%b','data':{}}
     {'union':'%c','base':{'t':'%a'},'discriminator':'t','data':{'x':'%b','z':'%b'}}",
    "{'enum':'%a','data':['x']}{'struct':'%b','data':{}}
     {'union':'%c','base':{'t':'%a'},'discriminator':'t','data':{'X':'%b'}}",
    "{'enum':'%a','data':['x']}{'struct':'%b','data':{'t':'int'}}
     {'union':'%c','base':{'t':'%a'},'discriminator':'t','data':{'x':'%b'}}",
    "{'enum':'%a','data':['x']}{'struct':'%b','data':{'m':'int'}}{'struct':'%d','base':'%b','data':{}}
     {'union':'%c','base':{'t':'%a','*m':'str'},'discriminator':'t','data':{'x':'%d'}}",
    "{'enum':'%a','data':['x']}{'struct':'%b','data':{'t':'%a'}}
     {'union':'%c','base':'%b','discriminator':'t','data':{'x':'%b'}}",
    "{'enum':'%a','data':['x']}{'struct':'%b','data':{'t':'%a'}}{'struct':'%d','base':'%b','data':{}}
     {'union':'%c','base':'%d','discriminator':'t','data':{'x':'%b'}}",
    "{'enum':'%a','data':['x']}{'struct':'%b','data':{'t':'%a'}}{'struct':'%d','data':{'u':'%a'}}
     {'union':'%c','base':'%d','discriminator':'t','data':{'x':'%b'}}",
];

const BAD_ALTERNATES: &[&str] = &[
    "{'alternate':'%a','data':{}}",
    "{'alternate':'%a','data':{'x':'any'}}",
    "{'alternate':'%a','data':{'x':'str','y':'any'}}",
    "{'alternate':'%a','data':{'x':'%a'}}",
    "{'alternate':'%a','data':{'x':'%b'}}{'alternate':'%b','data':{'x':'str'}}",
    "{'alternate':'%a','data':{'x':'int','y':'number'}}",
    "{'alternate':'%a','data':{'x':'int8','y':'bool','z':'size'}}",
    "{'alternate':'%a','data':{'x':'str','y':'int'}}",
    "{'alternate':'%a','data':{'x':'number','y':'null','z':'str'}}",
    "{'alternate':'%a','data':{'x':'bool','y':'str'}}",
    "{'alternate':'%a','data':{'x':'%b','y':'int'}}{'enum':'%b','data':['x','y','0']}",
    "{'enum':'%b','data':['9z','x']}{'alternate':'%a','data':{'w':'%c','x':'size','y':'%b'}}{'struct':'%c','data':{}}",
    "{'alternate':'%a','data':{'x':'bool','y':'%b'}}{'enum':'%b','data':['x','on']}",
    "{'alternate':'%a','data':{'x':'%b','y':'bool'}}{'enum':'%b','data':['off','x']}",
    "{'alternate':'%a','data':{'x':'str','y':'str'}}",
    "{'alternate':'%a','data':{'x':'str','y':'%b'}}{'enum':'%b','data':[]}",
    "{'alternate':'%a','data':{'x':'%b','y':'%c'}}{'enum':'%b','data':['x']}{'enum':'%c','data':['y']}",
    "{'alternate':'%a','data':{'x':'bool','y':'bool'}}",
    "{'alternate':'%a','data':{'x':'null','y':'null'}}",
    "{'alternate':'%a','data':{'x':'%b','y':'%c'}}{'struct':'%b','data':{}}{'struct':'%c','data':{}}",
    "{'alternate':'%d','data':{'x':'%b','y':'%c'}}{'enum':'%a','data':['x']}{'struct':'%b','data':{}}
     {'union':'%c','base':{'t':'%a'},'discriminator':'t','data':{'x':'%b'}}",
];

const BAD_RETURNS: &[&str] = &[
    "{'command':'%a','returns':'any'}",
    "{'command':'%a','returns':'str'}",
    "{'command':'%a','returns':['int']}",
    "{'command':'%a','returns':'null'}",
    "{'command':'%a','returns':'%b'}{'enum':'%b','data':[]}",
    "{'command':'%a','returns':['%b']}{'enum':'%b','data':['x']}",
    "{'command':'%a','returns':'%b'}{'alternate':'%b','data':{'x':'%c'}}{'struct':'%c','data':{}}",
    "{'command':'%a','returns':['%b']}{'alternate':'%b','data':{'x':'%c'}}{'struct':'%c','data':{}}",
];
