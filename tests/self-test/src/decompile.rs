//! A table written back as schema text. A table is sound exactly when some schema compiles to it, so this and `compile`
//! tell what `is_sound` should say.

use generate::model::BUILT_INS;
use reference::schema::compile;

/// Whether a schema compiles to these rows, but for where names start; nothing is said where that schema is too long.
pub fn is_compiled(words: &[u32], schema: &[u8]) -> Option<bool> {
    if !words.len().is_multiple_of(8) || words.len() > 1_024 * 8 || schema.len() > 32_768 {
        return Some(false);
    }
    let rows: Vec<[u32; 8]> = words.chunks(8).map(|row| row.try_into().unwrap()).collect();
    let table = Table { rows: &rows, schema };
    let Some(text) = table.text() else {
        return Some(false);
    };
    if text.len() > 32_768 {
        return None;
    }
    let answer = compile(&text, words.len());
    let same = |(row, compiled): (&[u32; 8], &[u32])| {
        row[0] == compiled[0] && row[2..] == compiled[2..] && (row[1] == 0 || compiled[1] != 0)
    };
    Some(answer.number == 0 && answer.count as usize == rows.len() && rows.iter().zip(answer.words.chunks(8)).all(same))
}

/// Rows and bytes of any content. Its functions give `None` where no text could say what the rows do.
struct Table<'a> {
    rows: &'a [[u32; 8]],
    schema: &'a [u8],
}

impl Table<'_> {
    fn text(&self) -> Option<Vec<u8>> {
        let mut text = Vec::new();
        let mut row = 0;
        while row < self.rows.len() {
            let (definition, next) = self.definition(row)?;
            text.extend(definition.into_bytes());
            row = next;
        }
        Some(text)
    }

    /// A definition, and the row after it.
    fn definition(&self, row: usize) -> Option<(String, usize)> {
        let name = self.name(row)?;
        let [kind, _, _, a, b, c, d, _] = self.rows[row];
        match kind {
            1 => {
                let (values, next) = self.list(row + 1, a, 2, |value| Some(format!("'{}'", self.name(value)?)))?;
                Some((format!("{{'enum':'{name}','data':[{values}]}}"), next))
            }
            3 => {
                let base = if b == 0 { String::new() } else { format!(",'base':'{}'", self.linked(b)?) };
                let (members, next) = self.members(row)?;
                Some((format!("{{'struct':'{name}','data':{members}{base}}}"), next))
            }
            5 => {
                let (base, next) = self.fields(row, a)?;
                let (branches, next) = self.list(next, b, 6, |branch| {
                    Some(format!("'{}':'{}'", self.name(branch)?, self.linked(self.rows[branch][3])?))
                })?;
                let discriminator = self.linked(c)?;
                let data = format!("'base':{base},'discriminator':'{discriminator}','data':{{{branches}}}");
                Some((format!("{{'union':'{name}',{data}}}"), next))
            }
            7 => {
                let (alternatives, next) = self.list(row + 1, a, 8, |row| {
                    Some(format!("'{}':'{}'", self.name(row)?, self.referred(self.rows[row][3])?))
                })?;
                Some((format!("{{'alternate':'{name}','data':{{{alternatives}}}}}"), next))
            }
            9 => {
                let (data, next) = if a == 0 { (String::new(), row + 1) } else { self.fields(row, a)? };
                let data = if a == 0 { data } else { format!(",'data':{data}") };
                let returns = if c == 0 { String::new() } else { format!(",'returns':{}", self.of_type(c, d)?) };
                let oob = if b == 1 { ",'allow-oob':true" } else { "" };
                Some((format!("{{'command':'{name}'{data}{returns}{oob}}}"), next))
            }
            _ => None,
        }
    }

    /// A union's base or a command's data: the inline struct that the link is to, or a name.
    fn fields(&self, owner: usize, link: u32) -> Option<(String, usize)> {
        let next = owner + 1;
        let inline = link as usize == next + 1 && self.rows.get(next).is_some_and(|row| row[..3] == [3, 0, 0]);
        match inline {
            true => self.members(next),
            false => Some((format!("'{}'", self.linked(link)?), next)),
        }
    }

    /// A struct's own members, and the row after them.
    fn members(&self, structure: usize) -> Option<(String, usize)> {
        let (members, next) = self.list(structure + 1, self.rows[structure][3], 4, |row| {
            let [_, _, _, reference, array, optional, ..] = self.rows[row];
            let star = if optional == 1 { "*" } else { "" };
            Some(format!("'{star}{}':{}", self.name(row)?, self.of_type(reference, array)?))
        })?;
        Some((format!("{{{members}}}"), next))
    }

    fn list(
        &self,
        first: usize,
        count: u32,
        kind: u32,
        write: impl Fn(usize) -> Option<String>,
    ) -> Option<(String, usize)> {
        let end = first + count as usize;
        let rows = self.rows.get(first..end)?;
        if rows.iter().any(|row| row[0] != kind) {
            return None;
        }
        let items: Option<Vec<String>> = (first..end).map(write).collect();
        Some((items?.join(","), end))
    }

    fn of_type(&self, reference: u32, array: u32) -> Option<String> {
        let name = self.referred(reference)?;
        Some(if array == 1 { format!("['{name}']") } else { format!("'{name}'") })
    }

    fn referred(&self, reference: u32) -> Option<String> {
        match reference {
            0 => None,
            1..=15 => Some(BUILT_INS[reference as usize - 1].to_string()),
            _ => self.name((reference - 16) as usize),
        }
    }

    fn linked(&self, link: u32) -> Option<String> {
        self.name((link as usize).checked_sub(1)?)
    }

    /// A name that can stand in a schema's string as it is.
    fn name(&self, row: usize) -> Option<String> {
        let [_, start, length, ..] = *self.rows.get(row)?;
        let bytes = self.schema.get(start as usize..start as usize + length as usize)?;
        let printable = bytes.iter().all(|byte| (0x20..0x7F).contains(byte) && !b"'\\".contains(byte));
        printable.then(|| String::from_utf8_lossy(bytes).into_owned())
    }
}
