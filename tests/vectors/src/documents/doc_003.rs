//! Document 003, the text on schemas that counts.

use super::Message::{self, Reads};
use super::Schema::{self, Refused, Rows};
use super::*;
use crate::pieces::Piece::{After, Bytes, Lines, Own};

pub const DOCUMENT: Document =
    Document { name: "003", framed: false, schemas: SCHEMAS, joined: JOINED, messages: MESSAGES, left_out: LEFT_OUT };

/// Parts that stand in several examples.
const MY_ENUM: Piece = Lines(220, 220);
const MY_TYPE: Piece = Lines(293, 294);
const FORMATS: Piece = Lines(304, 308);
const DRIVER_AND_OPTIONS: Piece = Lines(365, 370);
const BLOCKDEV_REF: Piece = Lines(417, 419);
const FIRST_COMMAND: Piece = Lines(497, 498);
const MY_TYPE_RETURNED: Piece = Lines(499, 499);
const SECOND_COMMAND: Piece = Lines(500, 501);
const COMMANDS: Piece = Lines(497, 501);
const MIGRATE_RECOVER: Piece = Lines(550, 551);
const CAPABILITY: Piece = Lines(584, 585);
const QUERY_BLOCKSTATS: Piece = Lines(1042, 1064);
const MY_COMMAND: Piece = Lines(1424, 1429);

/// What the union's branches name and the document doesn't define.
const FILE_AND_QCOW2: Piece = Own("{'struct':'BlockdevOptionsFile','data':{'filename':'str'}}
     {'struct':'BlockdevOptionsQcow2','data':{'backing':'str','*lazy-refcounts':'bool'}}");

const SCHEMAS: &[Schema] = &[
    Refused(&[Lines(147, 147)], 4, "include is left out"),
    Rows(&[MY_ENUM], 4),
    Rows(&[Own("{'struct':'S','data':{'m':"), Bytes(9055, 9062), Own("}}")], 2),
    Rows(&[MY_TYPE], 4),
    Rows(&[Lines(304, 305)], 2),
    Refused(&[Lines(306, 308)], 7, UNKNOWN),
    Rows(&[Lines(365, 365)], 3),
    Refused(&[Lines(366, 370)], 7, UNKNOWN),
    Refused(&[BLOCKDEV_REF], 7, UNKNOWN),
    Rows(&[FIRST_COMMAND], 4),
    Rows(&[MY_TYPE_RETURNED], 2),
    Refused(&[SECOND_COMMAND], 7, UNKNOWN),
    Refused(&[Lines(532, 534)], 4, "'gen' is a flag left out"),
    Rows(&[MIGRATE_RECOVER], 3),
    Rows(&[CAPABILITY], 2),
    Refused(&[Lines(586, 588)], 4, "'allow-preconfig' is a flag left out"),
    Refused(&[Lines(657, 658)], 4, "events are left out"),
    Refused(&[Lines(704, 706)], 4, "features are left out"),
    Refused(
        &[COMMAND_NAMED, Bytes(27283, 27308), NAME_END],
        5,
        "a downstream name starts with no letter and has a dot",
    ),
    Refused(&[Lines(804, 805)], 4, "'if' is left out"),
    Refused(&[Lines(819, 821)], 4, "a member's type is an object, for its 'if'"),
    Refused(&[Lines(831, 833)], 4, "an enum value is an object, for its 'if'"),
    Refused(&[Lines(840, 843)], 4, "features are left out"),
    // Comments alone: an empty schema.
    Rows(&[Lines(862, 863)], 0),
    Rows(&[Lines(880, 889)], 0),
    Rows(&[Lines(904, 907)], 0),
    Rows(&[Lines(911, 913)], 0),
    Rows(&[Lines(919, 921)], 0),
    Rows(&[Lines(940, 953)], 0),
    Rows(&[Lines(979, 980)], 0),
    Rows(&[Lines(992, 995)], 0),
    Rows(&[Lines(1005, 1009)], 0),
    Rows(&[Lines(1074, 1077)], 0),
    Rows(&[Lines(1083, 1085)], 0),
    Rows(&[Lines(1090, 1092)], 0),
    Rows(&[Lines(1097, 1098)], 0),
    Rows(&[Lines(1102, 1106)], 0),
    Rows(&[Lines(1110, 1110)], 0),
    Rows(&[Lines(1114, 1116)], 0),
    Refused(&[QUERY_BLOCKSTATS], 7, UNKNOWN),
    Rows(&[Lines(1424, 1425)], 4),
    Refused(&[Lines(1427, 1429)], 7, UNKNOWN),
    Refused(&[Lines(1431, 1431)], 4, "events are left out"),
];

const JOINED: &[Schema] = &[
    Rows(&[FORMATS], 4),
    Refused(&[DRIVER_AND_OPTIONS], 7, "the branches' structs stand nowhere in the document"),
    Rows(&[DRIVER_AND_OPTIONS, FILE_AND_QCOW2], 14),
    Rows(&[BLOCKDEV_REF, DRIVER_AND_OPTIONS, FILE_AND_QCOW2], 17),
    Rows(&[COMMANDS], 7),
    Refused(&[MY_TYPE, MY_TYPE_RETURNED], 6, "two sections define one name"),
    Refused(&[Lines(584, 588)], 4, "'allow-preconfig' is a flag left out"),
    Rows(&[BLOCK_STATS, QUERY_BLOCKSTATS], 6),
    Rows(&[MY_COMMAND], 7),
    Refused(&[Lines(1424, 1431)], 4, "events are left out"),
    // All of the document that isn't left out: 4, 4, 4, 9, 5, 3, 4, 1, 3, 2, 3, 3 and 7 rows.
    Rows(
        &[
            MY_ENUM,
            MY_TYPE,
            FORMATS,
            DRIVER_AND_OPTIONS,
            FILE_AND_QCOW2,
            BLOCKDEV_REF,
            FIRST_COMMAND,
            SECOND_COMMAND,
            MIGRATE_RECOVER,
            CAPABILITY,
            BLOCK_STATS,
            QUERY_BLOCKSTATS,
            MY_COMMAND,
        ],
        52,
    ),
];

const MESSAGES: &[Message] = &[
    Reads(&[COMMANDS], &[After("=> ", 505, 506)], 0, 2),
    Reads(&[COMMANDS], &[After("=> ", 508, 508)], 6, 1),
    Reads(&[BLOCK_STATS, QUERY_BLOCKSTATS], &[After("#     -> ", 1057, 1057)], 3, 1),
    // Objects on the wire, as what a command of ours takes.
    Reads(&[FORMATS, TAKES_COW], &[TAKE, Lines(313, 314), TAKEN], 4, 3),
    Reads(&[DRIVER_AND_OPTIONS, FILE_AND_QCOW2, TAKES_OPTIONS], &[TAKE_VALUE, Lines(374, 375), VALUE_TAKEN], 14, 5),
    Reads(&[DRIVER_AND_OPTIONS, FILE_AND_QCOW2, TAKES_OPTIONS], &[TAKE_VALUE, Lines(376, 377), VALUE_TAKEN], 14, 6),
    Reads(&[DRIVER_AND_OPTIONS, FILE_AND_QCOW2, BLOCKDEV_REF, TAKES_REF], &[TAKE, Lines(436, 436), TAKEN], 17, 3),
    Reads(&[DRIVER_AND_OPTIONS, FILE_AND_QCOW2, BLOCKDEV_REF, TAKES_REF], &[TAKE, Lines(437, 439), TAKEN], 17, 6),
    Message::Refused(&[COMMANDS], &[After("<= ", 507, 507)], 26, NO_ENVELOPE),
    Message::Refused(&[COMMANDS], &[After("<= ", 509, 509)], 26, NO_ENVELOPE),
    Message::Refused(STOP, &[Lines(662, 664)], 26, NO_ENVELOPE),
    Message::Refused(STOP, &[Lines(1201, 1202)], 26, NO_ENVELOPE),
    Message::Refused(STOP, &[Lines(1220, 1221)], 26, NO_ENVELOPE),
    Message::Refused(STOP, &[Lines(1244, 1248)], 26, NO_ENVELOPE),
    Message::Refused(STOP, &[Lines(1255, 1258)], 26, NO_ENVELOPE),
    Message::Refused(STOP, &[Lines(1271, 1278)], 26, NO_ENVELOPE),
    Message::Refused(STOP, &[Lines(1291, 1294)], 26, NO_ENVELOPE),
    Message::Refused(STOP, &[Lines(1305, 1306)], 26, NO_ENVELOPE),
    Message::Refused(STOP, &[Lines(1319, 1324)], 26, NO_ENVELOPE),
    Message::Refused(STOP, &[Lines(1333, 1333)], 26, NO_ENVELOPE),
];

const LEFT_OUT: &[(Piece, &str)] = &[
    (Lines(91, 91), FORM),
    (Lines(99, 99), FORM),
    (Lines(103, 104), FORM),
    (Lines(143, 143), FORM),
    (Lines(166, 171), FORM),
    (Lines(202, 210), FORM),
    (Lines(215, 215), FORM),
    (Lines(254, 255), FORM),
    (Lines(268, 277), FORM),
    (Lines(289, 289), FORM),
    (Lines(328, 336), FORM),
    (Lines(357, 357), FORM),
    (Lines(397, 403), FORM),
    (Lines(413, 413), FORM),
    (Lines(453, 467), FORM),
    (Lines(633, 641), FORM),
    (Lines(685, 687), FORM),
    (Lines(696, 697), FORM),
    (Lines(786, 789), FORM),
    (Lines(797, 800), FORM),
    (Lines(809, 811), C_CODE),
    (Lines(1024, 1040), DOTS),
    (Lines(1058, 1060), DOTS),
    (Lines(1462, 2040), C_CODE),
];
