//! Two names side by side in every place where they may stand: pairs that meet in C, where `-` becomes `_`, and pairs
//! that nearly do.

use super::{SchemaCase, MOST_ROWS, ROW};
use crate::Random;

/// Definitions with `%1` and `%2` for the two names, and `%a` to `%d` for others: their number where the two meet, and
/// where they are apart.
struct Place {
    text: &'static str,
    met: u32,
    apart: u32,
}

/// Definitions with one fault of a number from 6 to 9 that is due to names that meet; none of any other number.
pub fn fault(random: &mut Random, number: u32) -> Option<String> {
    let texts: Vec<_> = PLACES.iter().filter(|place| place.met == number).map(|place| place.text).collect();
    (!texts.is_empty()).then(|| random.pick(&texts).to_string())
}

/// Every place with every fixed pair, in both orders.
pub fn every_pair() -> impl Iterator<Item = SchemaCase> {
    let case =
        |text: String, number| SchemaCase { bytes: text.into_bytes(), room: MOST_ROWS * ROW, number: Some(number) };
    PLACES.iter().flat_map(move |place| {
        let met = met_pairs().into_iter().map(|pair| (pair, place.met));
        let apart = apart_pairs().into_iter().map(|pair| (pair, place.apart));
        met.chain(apart).flat_map(move |((one, other), number)| {
            [case(place.with(&one, &other), number), case(place.with(&other, &one), number)]
        })
    })
}

/// A schema, bytes of the same length in which two of its names meet, and whether its table is sound beside these.
pub struct Respelled {
    pub schema: Vec<u8>,
    pub bytes: Vec<u8>,
    pub sound: bool,
}

/// Every place that an accepted schema has for two names, with every fixed pair that meets.
pub fn every_respelled() -> impl Iterator<Item = Respelled> {
    PLACES.iter().filter(|place| place.apart == 0).flat_map(|place| {
        met_pairs().into_iter().map(|(one, other)| {
            let apart = format!("Z{}", &other[1..]);
            let [schema, bytes] = [place.with(&one, &apart), place.with(&one, &other)].map(String::into_bytes);
            Respelled { schema, bytes, sound: place.met == 0 }
        })
    })
}

impl Place {
    fn with(&self, one: &str, other: &str) -> String {
        let named = [("%1", one), ("%2", other), ("%a", "A"), ("%b", "B"), ("%c", "C"), ("%d", "D")];
        named.into_iter().fold(self.text.to_string(), |text, (place, name)| text.replace(place, name))
    }
}

/// At each place of a short name and at some of the longest, two apart, and with both bytes in both names.
fn met_pairs() -> Vec<(String, String)> {
    let short = "abcdefghi";
    let long = "n".repeat(63);
    let at = |name: &str, place: usize| {
        let with = |byte: &str| format!("{}{byte}{}", &name[..place], &name[place + 1..]);
        (with("-"), with("_"))
    };
    let places = (1..short.len()).map(|place| at(short, place));
    let longest = [1, 7, 8, 15, 16, 31, 32, 47, 48, 61, 62].map(|place| at(&long, place));
    let others = [
        ("a-", "a_"),
        ("a-b_c", "a_b-c"),
        ("a-b_c", "a_b_c"),
        ("a-b-c", "a_b_c"),
        ("a--b", "a__b"),
        ("a-_b", "a_-b"),
        ("a-_", "a_-"),
        ("a-b-c_d", "a-b_c-d"),
    ];
    places.chain(longest).chain(others.map(|(one, other)| (one.to_string(), other.to_string()))).collect()
}

/// A byte other than the two, one more or one less; and bytes that differ from one of the two in a single bit.
fn apart_pairs() -> Vec<(String, String)> {
    let pairs = [
        ("a-b", "a-c"),
        ("a-b", "a_c"),
        ("a-b", "ab"),
        ("a_b", "ab"),
        ("a-b", "a-b-"),
        ("a-b", "a_b_"),
        ("a-b", "a--b"),
        ("a-b", "A-b"),
        ("a-b", "A_b"),
        ("a-b", "b-a"),
        ("a-b", "amb"),
        ("a_b", "aOb"),
        ("a_b", "aWb"),
        ("a-b", "a0b"),
        ("eight-bytes", "eight_byteS"),
    ];
    pairs.map(|(one, other)| (one.to_string(), other.to_string())).to_vec()
}

const PLACES: &[Place] = &[
    // Definitions of every kind share one set of names.
    Place { text: "{'command':'%1'}{'command':'%2'}", met: 6, apart: 0 },
    Place { text: "{'enum':'%1','data':[]}{'struct':'%2','data':{}}", met: 6, apart: 0 },
    Place { text: "{'struct':'%1','data':{}}{'enum':'%a','data':[]}{'command':'%2'}", met: 6, apart: 0 },
    Place { text: "{'alternate':'%1','data':{'x':'str'}}{'enum':'%2','data':['x']}", met: 6, apart: 0 },
    Place {
        text: "{'enum':'%a','data':['x']}{'struct':'%2','data':{}}
               {'union':'%1','base':{'t':'%a'},'discriminator':'t','data':{'x':'%2'}}",
        met: 6,
        apart: 0,
    },
    // Values.
    Place { text: "{'enum':'%a','data':['%1','%2']}", met: 6, apart: 0 },
    Place { text: "{'enum':'%a','data':['x','%1','y','%2','z']}", met: 6, apart: 0 },
    // Members: of a struct, of a command's data, of a union's base; optional ones too.
    Place { text: "{'struct':'%a','data':{'%1':'int','%2':'int'}}", met: 6, apart: 0 },
    Place { text: "{'struct':'%a','data':{'*%1':'int','x':'str','*%2':['int']}}", met: 6, apart: 0 },
    Place { text: "{'command':'%a','data':{'%1':'int','x':'int','*%2':'int'}}", met: 6, apart: 0 },
    Place {
        text: "{'enum':'%a','data':['x']}{'struct':'%b','data':{}}
               {'union':'%c','base':{'%1':'%a','*%2':'int'},'discriminator':'%1','data':{'x':'%b'}}",
        met: 6,
        apart: 0,
    },
    // Branches: with values that meet too, and with a value for neither.
    Place {
        text: "{'enum':'%a','data':['%1','%2']}{'struct':'%b','data':{}}
               {'union':'%c','base':{'t':'%a'},'discriminator':'t','data':{'%1':'%b','%2':'%b'}}",
        met: 6,
        apart: 0,
    },
    Place {
        text: "{'enum':'%a','data':['x']}{'struct':'%b','data':{}}
               {'union':'%c','base':{'t':'%a'},'discriminator':'t','data':{'%1':'%b','%2':'%b'}}",
        met: 6,
        apart: 9,
    },
    // Alternatives.
    Place { text: "{'alternate':'%a','data':{'%1':'bool','%2':'null'}}", met: 6, apart: 0 },
    // A member and an inherited one, from the base or from further up.
    Place {
        text: "{'struct':'%a','data':{'%1':'int'}}{'struct':'%b','base':'%a','data':{'%2':'int'}}",
        met: 8,
        apart: 0,
    },
    Place {
        text: "{'struct':'%b','base':'%a','data':{'y':'int','*%1':'str'}}{'struct':'%a','data':{'x':'int','%2':'int'}}",
        met: 8,
        apart: 0,
    },
    Place {
        text: "{'struct':'%a','data':{'*%1':'int'}}{'struct':'%b','base':'%a','data':{}}
               {'struct':'%c','base':'%b','data':{'x':'int','%2':'int'}}{'struct':'%d','base':'%c','data':{}}",
        met: 8,
        apart: 0,
    },
    // A branch's member and one of the base: the discriminator or another, either of them inherited.
    Place {
        text: "{'enum':'%a','data':['x']}{'struct':'%b','data':{'%2':'int'}}
               {'union':'%c','base':{'%1':'%a'},'discriminator':'%1','data':{'x':'%b'}}",
        met: 9,
        apart: 0,
    },
    Place {
        text: "{'enum':'%a','data':['x','y']}{'struct':'%d','data':{}}{'struct':'%b','data':{'k':'int','*%2':'int'}}
               {'union':'%c','base':{'t':'%a','*%1':'str'},'discriminator':'t','data':{'x':'%d','y':'%b'}}",
        met: 9,
        apart: 0,
    },
    Place {
        text: "{'enum':'%a','data':['x']}{'struct':'%b','data':{'%2':'int'}}{'struct':'%d','base':'%b','data':{}}
               {'union':'%c','base':{'t':'%a','%1':'int'},'discriminator':'t','data':{'x':'%d'}}",
        met: 9,
        apart: 0,
    },
    Place {
        text: "{'enum':'%a','data':['x']}{'struct':'%b','data':{'%2':'int'}}{'struct':'%d','data':{'%1':'%a'}}
               {'struct':'%1','base':'%d','data':{}}
               {'union':'%c','base':'%1','discriminator':'%1','data':{'x':'%b'}}",
        met: 9,
        apart: 0,
    },
    // Names of two lists may meet: members of two branches or two structs, a value and a member, a name and one inside.
    Place {
        text: "{'enum':'%a','data':['x','y']}{'struct':'%b','data':{'%1':'int'}}{'struct':'%d','data':{'%2':'int'}}
               {'union':'%c','base':{'t':'%a'},'discriminator':'t','data':{'x':'%b','y':'%d'}}",
        met: 0,
        apart: 0,
    },
    Place { text: "{'struct':'%a','data':{'%1':'int'}}{'command':'%b','data':{'%2':'int'}}", met: 0, apart: 0 },
    Place { text: "{'enum':'%a','data':['%1']}{'struct':'%b','data':{'%2':'%a'}}", met: 0, apart: 0 },
    Place { text: "{'command':'%1','data':{'%2':'int'}}", met: 0, apart: 0 },
    Place { text: "{'alternate':'%1','data':{'%2':'str'}}", met: 0, apart: 0 },
    // A name that refers finds exactly its own: a type, a base, data, a return, a branch's struct.
    Place { text: "{'struct':'%a','data':{'x':'%1'}}{'enum':'%2','data':[]}", met: 7, apart: 7 },
    Place { text: "{'struct':'%a','data':{'*x':['%1']}}{'struct':'%2','data':{}}", met: 7, apart: 7 },
    Place { text: "{'alternate':'%a','data':{'x':'%1'}}{'struct':'%2','data':{}}", met: 7, apart: 7 },
    Place { text: "{'struct':'%a','base':'%1','data':{}}{'struct':'%2','data':{}}", met: 7, apart: 7 },
    Place { text: "{'command':'%a','data':'%1'}{'struct':'%2','data':{}}", met: 7, apart: 7 },
    Place { text: "{'command':'%a','returns':['%1']}{'struct':'%2','data':{}}", met: 7, apart: 7 },
    Place {
        text: "{'enum':'%a','data':['x']}{'struct':'%b','data':{}}{'struct':'%2','data':{'t':'%a'}}
               {'union':'%c','base':'%1','discriminator':'t','data':{'x':'%b'}}",
        met: 7,
        apart: 7,
    },
    Place {
        text: "{'enum':'%a','data':['x']}{'struct':'%2','data':{}}
               {'union':'%c','base':{'t':'%a'},'discriminator':'t','data':{'x':'%1'}}",
        met: 7,
        apart: 7,
    },
    // So does a branch, and a discriminator.
    Place {
        text: "{'enum':'%a','data':['%2']}{'struct':'%b','data':{}}
               {'union':'%c','base':{'t':'%a'},'discriminator':'t','data':{'%1':'%b'}}",
        met: 9,
        apart: 9,
    },
    Place {
        text: "{'enum':'%a','data':['x']}{'struct':'%b','data':{}}
               {'union':'%c','base':{'%2':'%a'},'discriminator':'%1','data':{'x':'%b'}}",
        met: 9,
        apart: 9,
    },
];
