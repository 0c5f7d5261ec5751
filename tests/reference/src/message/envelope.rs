//! The envelope around a command (number 26).

use crate::strings::Token;
use crate::text::{children, Kind, Node};

pub struct Envelope<'a> {
    pub name: Token<'a>,
    /// Named under exec-oob, not execute.
    pub oob: bool,
    /// The node of the arguments, an object.
    pub arguments: Option<usize>,
}

impl<'a> Envelope<'a> {
    /// An object with exactly one of execute and exec-oob, a string; arguments, an object; id; no other key.
    pub fn read(message: &'a [u8], nodes: &[Node]) -> Option<Self> {
        let mut command = None;
        let mut arguments = None;
        if nodes[0].kind != Kind::Object {
            return None;
        }
        for key in children(nodes, 0) {
            let value = key + 1;
            match &*Token::new(message, nodes[key]).meaning() {
                b"execute" if command.is_none() => command = Some((value, false)),
                b"exec-oob" if command.is_none() => command = Some((value, true)),
                b"arguments" if nodes[value].kind == Kind::Object => arguments = Some(value),
                b"id" => {}
                _ => return None,
            }
        }
        let (value, oob) = command?;
        nodes[value].kind.is_string().then(|| Envelope { name: Token::new(message, nodes[value]), oob, arguments })
    }
}
