//! What names stand for: objects, routines and named bounds of the file, variables of a routine.

use crate::diagnostics::{fail, Diagnostic, Fallible};
use crate::repair::Edit;
use crate::suggest::{did_you_mean, nearest};
use crate::tree::{Name, Routine, Type, Unit, Variable};
use std::collections::HashMap;

#[derive(Clone, Copy, Debug, PartialEq, Eq)]
pub enum Global {
    Object(usize),
    Routine(usize),
    Bound { routine: usize, row: usize },
}

/// Objects, routines and named bounds have one name space in the file.
pub struct Globals<'a>(HashMap<&'a str, Global>);

impl<'a> Globals<'a> {
    /// In the order of the text, so that the later of two is reported.
    pub fn of(unit: &'a Unit) -> Fallible<Globals<'a>> {
        let mut globals = Globals(HashMap::new());
        for (number, object) in unit.objects.iter().enumerate() {
            globals.declare(&object.name, Global::Object(number))?;
        }
        for (routine, tree) in unit.routines.iter().enumerate() {
            globals.declare(&tree.name, Global::Routine(routine))?;
            for (row, named) in tree.named.iter().enumerate() {
                globals.declare(&named.name, Global::Bound { routine, row })?;
            }
        }
        Ok(globals)
    }

    fn declare(&mut self, name: &'a Name, global: Global) -> Fallible<()> {
        match self.0.insert(&name.text, global) {
            Some(_) => fail(name.at, format!("`{}` is declared twice", name.text)),
            None => Ok(()),
        }
    }

    pub fn get(&self, name: &Name) -> Option<Global> {
        self.0.get(name.text.as_str()).copied()
    }
}

/// The names in one routine.
pub struct Scope<'a> {
    globals: &'a Globals<'a>,
    routine: usize,
    numbers: HashMap<&'a str, usize>,
    pub variables: Vec<&'a Variable>,
}

impl<'a> Scope<'a> {
    /// All variables of a routine are in scope in all of it.
    pub fn of(routine: usize, tree: &'a Routine, globals: &'a Globals<'a>) -> Fallible<Scope<'a>> {
        let variables: Vec<&Variable> = tree.parameters.iter().chain(&tree.locals).collect();
        let mut numbers = HashMap::new();
        for (number, variable) in variables.iter().enumerate() {
            let Name { text, at } = &variable.name;
            if let Some(global) = globals.get(&variable.name) {
                return fail(*at, format!("`{text}` is the name of {}", what(global)));
            }
            if numbers.insert(text.as_str(), number).is_some() {
                return fail(*at, format!("`{text}` is declared twice"));
            }
        }
        Ok(Scope { globals, routine, numbers, variables })
    }

    pub fn global(&self, name: &Name) -> Option<Global> {
        self.globals.get(name)
    }

    /// The number of a variable, whatever its type is.
    pub fn variable(&self, name: &Name) -> Fallible<usize> {
        self.find(name, "a variable")
    }

    fn find(&self, name: &Name, due: &str) -> Fallible<usize> {
        let Name { text, at } = name;
        match (self.numbers.get(text.as_str()), self.globals.get(name)) {
            (Some(&number), _) => Ok(number),
            (None, Some(global)) => fail(*at, format!("`{text}` is {}; {due} is due here", what(global))),
            (None, None) => self.undeclared(name),
        }
    }

    /// A name that stands for nothing, and one that is near it.
    fn undeclared<T>(&self, name: &Name) -> Fallible<T> {
        let names = self.numbers.keys().chain(self.globals.0.keys()).copied();
        let near = nearest(&name.text, names);
        let wrong =
            Diagnostic::new(name.at, format!("`{}` is not declared{}", name.text, did_you_mean(near)));
        Err(wrong.repaired_by(near.map(|near| Edit::word(name.at, &name.text, near))))
    }

    pub fn integer(&self, name: &Name) -> Fallible<i32> {
        let number = self.find(name, "an integer")?;
        if self.is_pointer(number) {
            return fail(name.at, format!("`{}` is a pointer; an integer is due here", name.text));
        }
        Ok(number as i32)
    }

    pub fn pointer(&self, name: &Name) -> Fallible<usize> {
        let number = self.find(name, "a pointer")?;
        if !self.is_pointer(number) {
            return fail(name.at, format!("`{}` is an integer; a pointer is due here", name.text));
        }
        Ok(number)
    }

    pub fn is_pointer(&self, variable: usize) -> bool {
        self.variables[variable].shape != Type::Integer
    }

    pub fn is_terminated(&self, variable: usize) -> bool {
        matches!(self.variables[variable].shape, Type::Pointer { terminated: true, .. })
    }

    /// The size word of a pointer as it was written.
    pub fn row(&self, pointer: usize) -> Option<u32> {
        match self.variables[pointer].shape {
            Type::Pointer { row, .. } => row,
            Type::Integer => None,
        }
    }

    /// Cells in an element.
    pub fn size(&self, pointer: usize) -> i64 {
        i64::from(self.row(pointer).unwrap_or(1))
    }

    /// The row of a bound that this routine names.
    pub fn named_row(&self, name: &Name) -> Fallible<usize> {
        let Name { text, at } = name;
        match self.globals.get(name) {
            Some(Global::Bound { routine, row }) if routine == self.routine => Ok(row),
            Some(Global::Bound { .. }) => fail(*at, format!("`{text}` is named in another routine")),
            Some(other) => fail(*at, format!("`{text}` is {}; a named bound is due here", what(other))),
            None if self.numbers.contains_key(text.as_str()) => {
                fail(*at, format!("`{text}` is a variable; a named bound is due here"))
            }
            None => self.undeclared(name),
        }
    }
}

fn what(global: Global) -> &'static str {
    match global {
        Global::Object(_) => "an object",
        Global::Routine(_) => "a routine",
        Global::Bound { .. } => "a named bound",
    }
}
