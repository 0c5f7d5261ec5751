//! Document 001, the protocol: what client and server send each other.

use super::Message::{Reads, Refused};
use super::*;
use crate::pieces::Piece::{After, Lines, Own};

pub const DOCUMENT: Document =
    Document { name: "001", framed: true, schemas: &[], joined: &[], messages: MESSAGES, left_out: LEFT_OUT };

/// The commands that the examples name.
const QMP: &[Piece] = &[Own("{'enum':'QMPCapability','data':['oob']}
     {'command':'qmp_capabilities','data':{'*enable':['QMPCapability']}}
     {'command':'stop'}
     {'struct':'KvmInfo','data':{'enabled':'bool','present':'bool'}}
     {'command':'query-kvm','returns':'KvmInfo'}
     {'command':'migrate-pause','allow-oob':true}")];

const MESSAGES: &[Message] = &[
    Reads(QMP, &[After("-> ", 631, 631)], 2, 3),
    Reads(QMP, &[After("-> ", 649, 649)], 5, 1),
    Reads(QMP, &[After("-> ", 667, 667)], 9, 1),
    Refused(QMP, &[After("-> ", 685, 685)], 23, "no value after a key"),
    Reads(QMP, &[After("-> ", 721, 721)], 10, 1),
    Refused(&[Own("{'command':'migrate-pause'}")], &[After("-> ", 721, 721)], 28, "exec-oob without allow-oob"),
    // What the server sends.
    Refused(QMP, &[After("<- ", 613, 615)], 26, NO_ENVELOPE),
    Refused(QMP, &[After("<- ", 633, 633)], 26, NO_ENVELOPE),
    Refused(QMP, &[After("<- ", 651, 651)], 26, NO_ENVELOPE),
    Refused(QMP, &[After("<- ", 669, 669)], 26, NO_ENVELOPE),
    Refused(QMP, &[After("<- ", 687, 687)], 26, NO_ENVELOPE),
    Refused(QMP, &[After("<- ", 703, 705)], 26, NO_ENVELOPE),
    Refused(QMP, &[After("<- ", 723, 727)], 26, NO_ENVELOPE),
];

const LEFT_OUT: &[(Piece, &str)] = &[
    (Lines(213, 213), FORM),
    (Lines(265, 265), FORM),
    (Lines(277, 277), FORM),
    (Lines(405, 405), FORM),
    (Lines(443, 443), FORM),
    (Lines(493, 495), FORM),
    (Lines(885, 885), "a line for the human monitor, no message"),
];
