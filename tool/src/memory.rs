//! Addresses, values and cells as people read them: `keelboats + 6`, `fleet[3][0]`, `"Windfall"`.

use crate::printer::{plus, Printer};
use crate::program::Text;

/// The memory of a run: where the objects lie, and how they were declared.
#[derive(Clone, Copy)]
pub struct Memory<'a> {
    pub printer: Printer<'a>,
    pub directory: &'a [u32],
    dimensions: &'a [Vec<u32>],
    /// The objects of the routines that run in turn with it.
    others: &'a [Neighbour],
}

/// An object of another routine, with the name that people know it by.
#[derive(Clone, Debug)]
pub struct Neighbour {
    pub first: u32,
    pub length: u32,
    pub name: String,
}

impl<'a> Memory<'a> {
    pub fn new(
        printer: Printer<'a>,
        text: &'a Text,
        directory: &'a [u32],
        others: &'a [Neighbour],
    ) -> Memory<'a> {
        Memory { printer, directory, dimensions: &text.map.dimensions, others }
    }

    /// First cell and length of an object.
    pub fn object(&self, object: usize) -> Option<(i64, i64)> {
        let pair = self.directory.chunks_exact(2).nth(object)?;
        Some((i64::from(pair[0]), i64::from(pair[1])))
    }

    pub fn name(&self, object: usize) -> &'a str {
        self.printer.object_name(object as i32)
    }

    /// The object that a cell lies in, and the number of the cell there.
    pub fn object_at(&self, cell: i64) -> Option<(usize, i64)> {
        let inside = |object: usize| {
            let (low, length) = self.object(object)?;
            (cell >= low && cell < low + length).then_some((object, cell - low))
        };
        (0..self.directory.len() / 2).find_map(inside)
    }

    /// The name of the object that a cell lies in, another routine's too.
    pub fn name_at(&self, cell: i64) -> Option<&'a str> {
        let within =
            |other: &&Neighbour| (0..i64::from(other.length)).contains(&(cell - i64::from(other.first)));
        let own = self.object_at(cell).map(|(object, _)| self.name(object));
        own.or_else(|| self.others.iter().find(within).map(|other| other.name.as_str()))
    }

    /// The value of a variable. Where the origin of a pointer is not known, an address inside of an object tells it.
    pub fn value(&self, variable: usize, value: u32, origin: Option<u32>) -> String {
        if !self.printer.table.is_pointer(variable as i32) {
            return value.to_string();
        }
        if value == 0 {
            return "NULL".to_string();
        }
        let found = match origin {
            Some(origin) => (origin as usize).checked_sub(1),
            None => self.object_at(i64::from(value)).map(|(object, _)| object),
        };
        match found.and_then(|object| Some((object, self.object(object)?))) {
            Some((object, (low, _))) => format!("{}{}", self.name(object), plus(i64::from(value) - low)),
            None => format!("cell {value}"),
        }
    }

    /// A cell of an object, in rows where the object was declared so: `fleet[3][0]`.
    pub fn element(&self, object: usize, index: i64) -> String {
        let name = self.name(object);
        match self.dimensions.get(object).map(Vec::as_slice) {
            Some([_, inner @ ..]) if !inner.is_empty() => {
                let mut rest = index;
                let mut element = String::new();
                for &length in inner.iter().rev() {
                    element.insert_str(0, &format!("[{}]", rest % i64::from(length.max(1))));
                    rest /= i64::from(length.max(1));
                }
                format!("{name}[{rest}]{element}")
            }
            _ => format!("{name}[{index}]"),
        }
    }

    /// `first[3] (cell 4)`.
    pub fn cell(&self, cell: usize) -> String {
        match self.object_at(cell as i64) {
            Some((object, index)) => format!("{} (cell {cell})", self.element(object, index)),
            None => format!("cell {cell}"),
        }
    }

    pub fn is_terminated(&self, object: usize) -> bool {
        self.printer.objects().get(object).is_some_and(|length| *length < 0)
    }

    /// What a terminated object holds up to its first 0, as a string; none where a cell is no byte of a text.
    pub fn text(&self, object: usize, cells: &[u32]) -> Option<String> {
        let (low, length) = self.object(object)?;
        let cells = cells.get(low as usize..(low + length) as usize)?;
        let bytes: Option<Vec<u8>> =
            cells.iter().take_while(|cell| **cell != 0).map(|cell| u8::try_from(*cell).ok()).collect();
        let text = String::from_utf8(bytes?).ok()?;
        (!text.chars().any(char::is_control)).then(|| format!("{text:?}"))
    }

    /// The number in a cell; of a name the letter too.
    pub fn number(&self, cell: usize, value: u32) -> String {
        let in_name = self.object_at(cell as i64).is_some_and(|(object, _)| self.is_terminated(object));
        match u8::try_from(value).ok().filter(|byte| in_name && byte.is_ascii_graphic()) {
            Some(byte) => format!("{value} '{}'", char::from(byte)),
            None => value.to_string(),
        }
    }
}
