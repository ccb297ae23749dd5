//! Images: a small text that says what a run is lent. Nothing is adjusted to be right: what does not fit is the library's to refuse.

use crate::diagnostics::{fail, Fallible, Pos};
use crate::library::Lent;
use crate::names::{Names, RoutineNames};
use crate::parser::Parser;
use crate::table::Table;
use crate::tokens::Kind;
use crate::tree::Name;

/// One cell more than a memory may have: lent in place of any greater one, so that the library refuses it.
const MOST_CELLS: u64 = (1 << 24) + 1;
const ALLOWANCE: u32 = 1_000_000;

/// An image as it was read, with the lines that refusals of a run point at.
#[derive(Debug, Default)]
pub struct Image {
    pub lent: Lent,
    /// The cells that the memory was to have.
    pub memory: u64,
    /// Where each object and each variable is given; the first line where it is not.
    pub objects: Vec<Pos>,
    pub variables: Vec<Pos>,
}

pub fn read_image(text: &str, tables: &[Table], names: &Names) -> Fallible<Image> {
    let mut laid = [lay_image(text, tables, names, 1)?];
    let cells = one_memory(&mut laid);
    let [Laid { mut image, .. }] = laid;
    image.lent.cells = cells;
    Ok(image)
}

/// An image whose objects have their places; the cells are lent apart from it, so that several images have one memory.
#[derive(Debug, Default)]
pub struct Laid {
    pub image: Image,
    /// The cell behind all its objects.
    pub end: u64,
    /// The cells that the memory is given.
    memory: Option<u32>,
    /// First cell and contents of objects.
    contents: Vec<(u32, Vec<u32>)>,
}

/// The memory of these images: as great as the greatest that is given, or up to the last object.
pub fn one_memory(laid: &mut [Laid]) -> Vec<u32> {
    let given = laid.iter().filter_map(|laid| laid.memory).max();
    let ends = laid.iter().map(|laid| laid.end).max();
    let memory = given.map_or(ends.unwrap_or(1), u64::from);
    let mut cells = vec![0; memory.min(MOST_CELLS) as usize];
    for laid in laid {
        laid.image.memory = memory;
        for (first, contents) in laid.contents.drain(..) {
            for (cell, value) in (first as usize..).zip(contents) {
                // What lies outside of the memory is not lent; the library refuses such an object.
                if let Some(slot) = cells.get_mut(cell) {
                    *slot = value;
                }
            }
        }
    }
    cells
}

/// Reads an image. Its first object lies at that cell, each next one touches the one before, unless it is given a place.
pub fn lay_image(text: &str, tables: &[Table], names: &Names, first_cell: u64) -> Fallible<Laid> {
    let (Some(first), Some(last), Some(routine)) = (tables.first(), tables.last(), names.routines.last())
    else {
        return fail(Pos { line: 1, column: 1 }, "there is no routine to run");
    };
    let start = Pos { line: 1, column: 1 };
    let mut reader = Reader {
        parser: Parser::new(text),
        lengths: first.objects.iter().map(|length| length.unsigned_abs()).collect(),
        objects: &names.objects,
        routine,
        memory: None,
        allowance: None,
        placed: vec![Placed { at: start, offset: None, cells: None }; first.objects.len()],
        given: vec![None; last.variables.len()],
    };
    while reader.parser.peek().kind != Kind::End {
        reader.item()?;
    }
    reader.laid(start, first_cell)
}

#[derive(Clone)]
struct Placed {
    at: Pos,
    offset: Option<u32>,
    cells: Option<Vec<u32>>,
}

/// The entry value of a variable.
#[derive(Clone, Copy)]
struct Given {
    at: Pos,
    object: Option<usize>,
    plus: i64,
}

struct Reader<'a> {
    parser: Parser<'a>,
    lengths: Vec<u32>,
    objects: &'a [String],
    routine: &'a RoutineNames,
    memory: Option<u32>,
    allowance: Option<u32>,
    placed: Vec<Placed>,
    given: Vec<Option<Given>>,
}

impl Reader<'_> {
    fn item(&mut self) -> Fallible<()> {
        let name = self.parser.name()?;
        let object = self.objects.iter().position(|object| *object == name.text);
        let variable = self.routine.variables.iter().position(|variable| *variable == name.text);
        let is_setting = matches!(name.text.as_str(), "memory" | "allowance");
        // An object or a variable may have that name: then a number tells them apart, one that is too great too.
        let has_number = matches!(self.parser.peek().kind, Kind::Number(_) | Kind::Wrong(_));
        match (object, variable) {
            _ if is_setting && has_number => self.setting(&name)?,
            (Some(object), _) => self.object(object, &name.text, name.at)?,
            (None, Some(variable)) => self.variable(variable, &name.text, name.at)?,
            (None, None) if is_setting => self.setting(&name)?,
            (None, None) => {
                let names: Vec<&str> =
                    self.objects.iter().chain(&self.routine.variables).map(String::as_str).collect();
                let message = format!(
                    "`{}` is no object and no variable of the routine that is run: there are {}",
                    name.text,
                    names.join(", ")
                );
                return fail(name.at, message);
            }
        }
        self.parser.expect_semicolon()
    }

    /// `memory NUMBER` or `allowance NUMBER`.
    fn setting(&mut self, name: &Name) -> Fallible<()> {
        let number = self.parser.number()?.value;
        let slot = if name.text == "memory" { &mut self.memory } else { &mut self.allowance };
        if slot.replace(number).is_some() {
            return fail(name.at, format!("`{}` is given twice", name.text));
        }
        Ok(())
    }

    /// `OBJECT [at NUMBER] [= cells]`.
    fn object(&mut self, object: usize, name: &str, at: Pos) -> Fallible<()> {
        let mut placed = Placed { at, offset: None, cells: None };
        if self.parser.peek().text == "at" {
            self.parser.take();
            placed.offset = Some(self.parser.number()?.value);
        }
        if self.parser.accept("=") {
            let cells_at = self.parser.at();
            let cells = self.cells()?;
            let length = self.lengths[object];
            if cells.len() > length as usize {
                return fail(cells_at, format!("`{name}` has {length} cells, {} are given", cells.len()));
            }
            placed.cells = Some(cells);
        }
        let before = &mut self.placed[object];
        if before.offset.is_some() || before.cells.is_some() {
            return fail(at, format!("`{name}` is given twice"));
        }
        *before = placed;
        Ok(())
    }

    /// `{ NUMBER, .. }` or a string, one cell a byte.
    fn cells(&mut self) -> Fallible<Vec<u32>> {
        if let Kind::Text(text) = &self.parser.peek().kind {
            let cells = text.iter().copied().map(u32::from).collect();
            self.parser.take();
            return Ok(cells);
        }
        self.parser.expect("{")?;
        let mut cells = Vec::new();
        while !self.parser.is("}") {
            cells.push(self.parser.number()?.value);
            if !self.parser.accept(",") && !self.parser.is("}") {
                return self.parser.unexpected("`,` or `}`");
            }
        }
        self.parser.expect("}")?;
        Ok(cells)
    }

    /// `VARIABLE = NUMBER | NULL | OBJECT [+ NUMBER]`, the number in cells.
    fn variable(&mut self, variable: usize, name: &str, at: Pos) -> Fallible<()> {
        self.parser.expect("=")?;
        let mut given = Given { at, object: None, plus: 0 };
        if let Some(number) = self.parser.accept_number() {
            given.plus = i64::from(number.value);
        } else if !self.parser.accept("NULL") {
            let object = self.parser.name()?;
            let Some(number) = self.objects.iter().position(|name| *name == object.text) else {
                return fail(object.at, format!("`{}` is no object", object.text));
            };
            given.object = Some(number);
            if self.parser.is("+") || self.parser.is("-") {
                let sign = if self.parser.take().text == "-" { -1 } else { 1 };
                given.plus = sign * i64::from(self.parser.number()?.value);
            }
        }
        if self.given[variable].replace(given).is_some() {
            return fail(at, format!("`{name}` is given twice"));
        }
        Ok(())
    }

    fn laid(self, start: Pos, first_cell: u64) -> Fallible<Laid> {
        let mut lent = Lent { allowance: self.allowance.unwrap_or(ALLOWANCE), ..Lent::default() };
        let mut end = first_cell;
        for (placed, length) in self.placed.iter().zip(&self.lengths) {
            let offset = placed.offset.map_or(end, u64::from);
            let Ok(word) = u32::try_from(offset) else {
                return fail(placed.at, "this object would begin beyond the last address");
            };
            lent.directory.extend([word, *length]);
            end = offset + u64::from(*length);
        }
        let ends = lent.directory.chunks_exact(2).map(|pair| u64::from(pair[0]) + u64::from(pair[1]));
        let end = ends.max().unwrap_or(1);
        for given in &self.given {
            let (value, origin) = given.as_ref().map_or(Ok((0, 0)), |given| entry(given, &lent.directory))?;
            lent.values.push(value);
            lent.origins.push(origin);
        }
        let objects = self.placed.iter().map(|placed| placed.at).collect();
        let variables = self.given.iter().map(|given| given.map_or(start, |given| given.at)).collect();
        let firsts = lent.directory.iter().step_by(2).copied();
        let contents = firsts.zip(self.placed).filter_map(|(first, placed)| Some((first, placed.cells?)));
        let contents = contents.collect();
        let image = Image { lent, memory: 0, objects, variables };
        Ok(Laid { image, end, memory: self.memory, contents })
    }
}

/// The value and the origin of a variable at entry.
fn entry(given: &Given, directory: &[u32]) -> Fallible<(u32, u32)> {
    let base = given.object.map_or(0, |object| i64::from(directory[2 * object]));
    let Ok(value) = u32::try_from(base + given.plus) else {
        return fail(given.at, format!("{} is no address", base + given.plus));
    };
    Ok((value, given.object.map_or(0, |object| object as u32 + 1)))
}
