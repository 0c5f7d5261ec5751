//! Document 004, the oldest text on schemas.

use super::Message::{self, Reads};
use super::Schema::{self, Refused, Rows};
use super::*;
use crate::pieces::Piece::{After, Bytes, Lines};

pub const DOCUMENT: Document =
    Document { name: "004", framed: false, schemas: SCHEMAS, joined: JOINED, messages: MESSAGES, left_out: LEFT_OUT };

/// Parts that stand in several examples.
const QUERY_BLOCKSTATS: Piece = Lines(1474, 1496);
const MY_TYPE: Piece = Lines(1640, 1641);
const FORMATS: Piece = Lines(1679, 1682);
const FILE_AND_QCOW2: Piece = Lines(1744, 1746);
const DRIVER_AND_OPTIONS: Piece = Lines(1783, 1788);
const BLOCKDEV_REF: Piece = Lines(1829, 1831);
const COMMANDS: Piece = Lines(1892, 1896);
const MY_TYPE_RETURNED: Piece = Lines(1894, 1894);

const SCHEMAS: &[Schema] = &[
    // Comments alone: an empty schema.
    Rows(&[Lines(1370, 1370)], 0),
    Rows(&[Lines(1374, 1374)], 0),
    Rows(&[Lines(1378, 1379)], 0),
    Rows(&[Lines(1383, 1385)], 0),
    Rows(&[Lines(1391, 1393)], 0),
    Rows(&[Lines(1410, 1423)], 0),
    Refused(&[QUERY_BLOCKSTATS], 7, UNKNOWN),
    Refused(&[Lines(1602, 1602)], 4, "include is left out"),
    Rows(&[MY_TYPE], 4),
    Rows(&[Lines(1679, 1679)], 2),
    Refused(&[Lines(1680, 1682)], 7, UNKNOWN),
    Rows(&[Lines(1699, 1699)], 4),
    Rows(&[Lines(1744, 1744)], 2),
    Rows(&[Lines(1745, 1746)], 3),
    Refused(&[Lines(1748, 1750)], 4, "a simple union has no base and no discriminator"),
    Rows(&[Lines(1783, 1783)], 3),
    Refused(&[Lines(1784, 1788)], 7, UNKNOWN),
    Refused(&[Lines(1809, 1809)], 4, "a simple union has no base and no discriminator"),
    Rows(&[Lines(1813, 1813)], 3),
    Rows(&[Lines(1814, 1814)], 2),
    Rows(&[Lines(1815, 1815)], 2),
    Refused(&[Lines(1816, 1817)], 2, "a colon stands where a comma must"),
    Refused(&[BLOCKDEV_REF], 7, UNKNOWN),
    Rows(&[Lines(1892, 1893)], 4),
    Rows(&[MY_TYPE_RETURNED], 2),
    Refused(&[Lines(1895, 1896)], 7, UNKNOWN),
    Refused(&[Lines(1927, 1929)], 4, "'gen' is a flag left out"),
    Refused(&[Lines(1956, 1957)], 4, "events are left out"),
    Refused(
        &[COMMAND_NAMED, Bytes(32676, 32701), NAME_END],
        5,
        "a downstream name starts with no letter and has a dot",
    ),
    Rows(&[Lines(2217, 2218)], 3),
    Refused(&[Lines(2220, 2222)], 7, UNKNOWN),
    Refused(&[Lines(2224, 2224)], 4, "events are left out"),
];

const JOINED: &[Schema] = &[
    Rows(&[BLOCK_STATS, QUERY_BLOCKSTATS], 6),
    Rows(&[FORMATS], 4),
    Refused(&[Lines(1744, 1750)], 4, "a simple union has no base and no discriminator"),
    Refused(&[DRIVER_AND_OPTIONS], 7, "the branches' structs stand in an earlier excerpt"),
    Rows(&[FILE_AND_QCOW2, DRIVER_AND_OPTIONS], 14),
    Rows(&[FILE_AND_QCOW2, DRIVER_AND_OPTIONS, BLOCKDEV_REF], 17),
    Rows(&[Lines(1813, 1815)], 7),
    Refused(&[Lines(1813, 1817)], 2, "a colon stands where a comma must"),
    Rows(&[COMMANDS], 7),
    Refused(&[MY_TYPE, MY_TYPE_RETURNED], 6, "two sections define one name"),
    Rows(&[Lines(2217, 2222)], 6),
    Refused(&[Lines(2217, 2224)], 4, "events are left out"),
];

const MESSAGES: &[Message] = &[
    Reads(&[BLOCK_STATS, QUERY_BLOCKSTATS], &[After("# -> ", 1488, 1488)], 3, 1),
    Reads(&[COMMANDS], &[After("=> ", 1900, 1901)], 0, 2),
    Reads(&[COMMANDS], &[After("=> ", 1903, 1903)], 6, 1),
    // Objects on the wire, as what a command of ours takes.
    Reads(&[FORMATS, TAKES_COW], &[TAKE, Lines(1687, 1688), TAKEN], 4, 3),
    Reads(&[FILE_AND_QCOW2, TAKES_SIMPLE], &[TAKE_VALUE, Lines(1757, 1757), VALUE_TAKEN], 17, 5),
    Reads(&[FILE_AND_QCOW2, TAKES_SIMPLE], &[TAKE_VALUE, Lines(1758, 1759), VALUE_TAKEN], 17, 6),
    Reads(&[FILE_AND_QCOW2, DRIVER_AND_OPTIONS, TAKES_OPTIONS], &[TAKE_VALUE, Lines(1792, 1793), VALUE_TAKEN], 14, 5),
    Reads(&[FILE_AND_QCOW2, DRIVER_AND_OPTIONS, TAKES_OPTIONS], &[TAKE_VALUE, Lines(1794, 1795), VALUE_TAKEN], 14, 6),
    Reads(&[FILE_AND_QCOW2, DRIVER_AND_OPTIONS, BLOCKDEV_REF, TAKES_REF], &[TAKE, Lines(1848, 1848), TAKEN], 17, 3),
    Reads(&[FILE_AND_QCOW2, DRIVER_AND_OPTIONS, BLOCKDEV_REF, TAKES_REF], &[TAKE, Lines(1849, 1851), TAKEN], 17, 6),
    Message::Refused(&[COMMANDS], &[After("<= ", 1902, 1902)], 26, NO_ENVELOPE),
    Message::Refused(&[COMMANDS], &[After("<= ", 1904, 1904)], 26, NO_ENVELOPE),
    Message::Refused(STOP, &[Lines(1961, 1963)], 26, NO_ENVELOPE),
    Message::Refused(STOP, &[Lines(2054, 2055)], 26, NO_ENVELOPE),
    Message::Refused(STOP, &[Lines(2073, 2074)], 26, NO_ENVELOPE),
    Message::Refused(STOP, &[Lines(2097, 2101)], 26, NO_ENVELOPE),
    Message::Refused(STOP, &[Lines(2114, 2121)], 26, NO_ENVELOPE),
    Message::Refused(STOP, &[Lines(2135, 2141)], 26, NO_ENVELOPE),
    Message::Refused(STOP, &[Lines(2155, 2158)], 26, NO_ENVELOPE),
    Message::Refused(STOP, &[Lines(2169, 2170)], 26, NO_ENVELOPE),
    Message::Refused(STOP, &[Lines(2179, 2180)], 26, NO_ENVELOPE),
    Message::Refused(STOP, &[Lines(2189, 2189)], 26, NO_ENVELOPE),
];

const LEFT_OUT: &[(Piece, &str)] = &[
    (Lines(1456, 1472), DOTS),
    (Lines(1489, 1491), DOTS),
    (Lines(1598, 1598), FORM),
    (Lines(1618, 1618), FORM),
    (Lines(1632, 1632), FORM),
    (Lines(1693, 1694), FORM),
    (Lines(1730, 1732), FORM),
    (Lines(1822, 1822), FORM),
    (Lines(1856, 1858), FORM),
    (Lines(1943, 1944), FORM),
    (Lines(2241, 2612), C_CODE),
];
