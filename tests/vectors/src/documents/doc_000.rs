//! Document 000, an older text on schemas. It has lost its line ends, so that a comment runs to its end.

use super::Message::{self, Reads};
use super::Schema::{self, Refused, Rows};
use super::*;
use crate::pieces::Piece::{Bytes, Own};

pub const DOCUMENT: Document =
    Document { name: "000", framed: false, schemas: SCHEMAS, joined: JOINED, messages: MESSAGES, left_out: LEFT_OUT };

/// Parts that stand in several examples.
const MY_TYPE: Piece = Bytes(8424, 8513);
const FORMATS: Piece = Bytes(10372, 10562);
const FILE_AND_QCOW2: Piece = Bytes(11332, 11492);
const DRIVER_AND_OPTIONS: Piece = Bytes(13144, 13397);
const BLOCKDEV_REF: Piece = Bytes(15117, 15212);
const COMMANDS: Piece = Bytes(18015, 18203);
const MY_TYPE_RETURNED: Piece = Bytes(18092, 18143);
const QUERY_BLOCKSTATS: Piece = Bytes(30495, 30591);

const SCHEMAS: &[Schema] = &[
    Refused(&[Bytes(4972, 5006)], 4, "include is left out"),
    Rows(&[Bytes(6478, 6540)], 4),
    Rows(&[MY_TYPE], 4),
    Rows(&[Bytes(10372, 10443)], 2),
    Refused(&[Bytes(10444, 10562)], 7, UNKNOWN),
    Rows(&[Bytes(11332, 11398)], 2),
    Rows(&[Bytes(11399, 11492)], 3),
    Refused(&[Bytes(11493, 11605)], 4, "a simple union has no base and no discriminator"),
    Rows(&[Bytes(13144, 13201)], 3),
    Refused(&[Bytes(13202, 13397)], 7, UNKNOWN),
    Refused(&[Bytes(14421, 14482)], 4, "a simple union has no base and no discriminator"),
    Rows(&[Bytes(14512, 14554)], 3),
    Rows(&[Bytes(14555, 14605)], 2),
    Rows(&[Bytes(14606, 14656)], 2),
    Refused(&[Bytes(14657, 14777)], 2, "a colon stands where a comma must"),
    Refused(&[BLOCKDEV_REF], 7, UNKNOWN),
    Rows(&[Bytes(18015, 18091)], 4),
    Rows(&[MY_TYPE_RETURNED], 2),
    Refused(&[Bytes(18144, 18203)], 7, UNKNOWN),
    Refused(&[Bytes(19415, 19494)], 4, "'gen' is a flag left out"),
    Rows(&[Bytes(20185, 20262)], 3),
    Refused(&[Bytes(21343, 21445)], 4, "'allow-preconfig' is a flag left out"),
    Refused(&[Bytes(21959, 22018)], 4, "events are left out"),
    Refused(&[Bytes(23156, 23251)], 4, "features are left out"),
    Refused(&[Bytes(23383, 23490)], 4, "features are left out"),
    Refused(&[Bytes(26143, 26245)], 4, "'if' is left out"),
    Refused(&[Bytes(26612, 26712)], 4, "a member's type is an object, for its 'if'"),
    Refused(&[Bytes(26831, 26915)], 4, "an enum value is an object, for its 'if'"),
    Refused(&[Bytes(27056, 27187)], 2, "a colon is missing after a key, before features could be judged"),
    // Comments alone: an empty schema.
    Rows(&[Bytes(27792, 27809)], 0),
    Rows(&[Bytes(27849, 27870)], 0),
    Rows(&[Bytes(27893, 27945)], 0),
    Rows(&[Bytes(27975, 28032)], 0),
    Rows(&[Bytes(28127, 28186)], 0),
    Rows(&[Bytes(28600, 28779)], 0),
    // Its comment runs over the definition, which stands in the same line.
    Rows(&[Bytes(30125, 30591)], 0),
    Refused(&[QUERY_BLOCKSTATS], 7, UNKNOWN),
    Rows(&[Bytes(40457, 40531)], 3),
    Refused(&[Bytes(40532, 40620)], 7, UNKNOWN),
    Refused(&[Bytes(40621, 40644)], 4, "events are left out"),
    Refused(
        &[COMMAND_NAMED, Bytes(25726, 25751), NAME_END],
        5,
        "a downstream name starts with no letter and has a dot",
    ),
];

const JOINED: &[Schema] = &[
    Rows(&[FORMATS], 4),
    Refused(&[Bytes(11332, 11605)], 4, "a simple union has no base and no discriminator"),
    Refused(&[DRIVER_AND_OPTIONS], 7, "the branches' structs stand in an earlier excerpt"),
    Rows(&[FILE_AND_QCOW2, DRIVER_AND_OPTIONS], 14),
    Rows(&[FILE_AND_QCOW2, DRIVER_AND_OPTIONS, BLOCKDEV_REF], 17),
    Rows(&[Bytes(14512, 14656)], 7),
    Refused(&[Bytes(14512, 14777)], 2, "a colon stands where a comma must"),
    Rows(&[COMMANDS], 7),
    Refused(&[MY_TYPE, MY_TYPE_RETURNED], 6, "two sections define one name"),
    Refused(
        &[Own("{'enum':'QMPCapability','data':['oob']}"), Bytes(21343, 21445)],
        4,
        "'allow-preconfig' is a flag left out",
    ),
    Rows(&[BLOCK_STATS, QUERY_BLOCKSTATS], 6),
    Rows(&[Bytes(40457, 40620)], 6),
    Refused(&[Bytes(40457, 40644)], 4, "events are left out"),
];

const MESSAGES: &[Message] = &[
    Reads(&[COMMANDS], &[Bytes(18267, 18334)], 0, 2),
    Reads(&[COMMANDS], &[Bytes(18359, 18393)], 6, 1),
    Reads(&[BLOCK_STATS, QUERY_BLOCKSTATS], &[Bytes(30420, 30453)], 3, 1),
    // Objects on the wire, as what a command of ours takes.
    Reads(&[FORMATS, TAKES_COW], &[TAKE, Bytes(10659, 10735), TAKEN], 4, 3),
    Reads(&[FILE_AND_QCOW2, TAKES_SIMPLE], &[TAKE_VALUE, Bytes(11852, 11918), VALUE_TAKEN], 17, 5),
    Reads(&[FILE_AND_QCOW2, TAKES_SIMPLE], &[TAKE_VALUE, Bytes(11919, 12009), VALUE_TAKEN], 17, 6),
    Reads(&[FILE_AND_QCOW2, DRIVER_AND_OPTIONS, TAKES_OPTIONS], &[TAKE_VALUE, Bytes(13431, 13506), VALUE_TAKEN], 14, 5),
    Reads(&[FILE_AND_QCOW2, DRIVER_AND_OPTIONS, TAKES_OPTIONS], &[TAKE_VALUE, Bytes(13507, 13607), VALUE_TAKEN], 14, 6),
    Reads(&[FILE_AND_QCOW2, DRIVER_AND_OPTIONS, BLOCKDEV_REF, TAKES_REF], &[TAKE, Bytes(16080, 16121), TAKEN], 17, 3),
    Reads(&[FILE_AND_QCOW2, DRIVER_AND_OPTIONS, BLOCKDEV_REF, TAKES_REF], &[TAKE, Bytes(16122, 16207), TAKEN], 17, 6),
    Message::Refused(&[COMMANDS], &[Bytes(18338, 18355)], 26, NO_ENVELOPE),
    Message::Refused(&[COMMANDS], &[Bytes(18397, 18438)], 26, NO_ENVELOPE),
    Message::Refused(STOP, &[Bytes(22050, 22168)], 26, NO_ENVELOPE),
    Message::Refused(STOP, &[Bytes(33966, 34073)], 26, NO_ENVELOPE),
    Message::Refused(STOP, &[Bytes(34710, 34786)], 26, NO_ENVELOPE),
    Message::Refused(STOP, &[Bytes(35663, 35852)], 26, NO_ENVELOPE),
    Message::Refused(STOP, &[Bytes(36398, 36708)], 26, NO_ENVELOPE),
    Message::Refused(STOP, &[Bytes(37098, 37391)], 26, NO_ENVELOPE),
    Message::Refused(STOP, &[Bytes(37959, 38075)], 26, NO_ENVELOPE),
    Message::Refused(STOP, &[Bytes(38458, 38522)], 26, NO_ENVELOPE),
    Message::Refused(STOP, &[Bytes(38815, 38900)], 26, NO_ENVELOPE),
    Message::Refused(STOP, &[Bytes(39176, 39240)], 26, NO_ENVELOPE),
];

const LEFT_OUT: &[(Piece, &str)] = &[
    (Bytes(4872, 4893), FORM),
    (Bytes(5581, 5599), FORM),
    (Bytes(6243, 6349), FORM),
    (Bytes(8059, 8115), FORM),
    (Bytes(10763, 10901), FORM),
    (Bytes(14809, 14846), FORM),
    (Bytes(16263, 16448), FORM),
    (Bytes(21558, 21629), FORM),
    (Bytes(29725, 30124), DOTS),
    (Bytes(30454, 30494), DOTS),
    (Bytes(41466, 53295), C_CODE),
];
