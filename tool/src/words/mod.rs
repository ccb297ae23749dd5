//! Trees to words: tables, the list of loop facts, the map of positions, the names.

mod bounds;
mod facts;
mod scope;
mod statements;

use crate::diagnostics::{fail, Diagnostic, Fallible, Pos};
use crate::files::TEXT;
use crate::map::{Map, RoutineMap};
use crate::names::{Names, RoutineNames};
use crate::parser::{Parser, MOST_ERRORS};
use crate::table::Table;
use crate::tree::{Object, Routine, Type, Unit};
use bounds::{word, Ends};
use scope::{Globals, Scope};
use statements::Body;

/// What a text is in words.
#[derive(Debug)]
pub struct Assembly {
    /// A table for each routine.
    pub tables: Vec<Vec<i32>>,
    /// The list of loop facts, four words an entry.
    pub facts: Vec<i32>,
    pub map: Map,
    pub names: Names,
    pub warnings: Vec<Diagnostic>,
    pub first_comment: Option<Pos>,
}

/// The words of a text, or its first error.
pub fn assemble(text: &str) -> Fallible<Assembly> {
    assemble_all(text)
        .map_err(|errors| errors.into_iter().next().expect("an error, where there is no assembly"))
}

/// The words of a text, or its errors in the order of the text, so many at most as are told.
pub fn assemble_all(text: &str) -> Result<Assembly, Vec<Diagnostic>> {
    let start = Pos { line: 1, column: 1 };
    TEXT.may_have(text.len()).map_err(|message| vec![Diagnostic::new(start, message)])?;
    let mut parser = Parser::new(text);
    let tree = parser.unit();
    let mut errors = parser.errors();
    // Where declarations were passed over, what names stand for is not known.
    let assembly = if parser.has_gap() { None } else { unit(&tree, &mut errors) };
    match assembly.filter(|_| errors.is_empty()) {
        Some(assembly) => Ok(Assembly { first_comment: parser.first_comment(), ..assembly }),
        None => {
            errors.sort_by_key(|wrong| wrong.at);
            errors.dedup();
            errors.truncate(MOST_ERRORS);
            Err(errors)
        }
    }
}

/// The words of a tree; what is wrong is kept, and then there may be none.
fn unit(unit: &Unit, errors: &mut Vec<Diagnostic>) -> Option<Assembly> {
    let globals = Globals::of(unit).map_err(|wrong| errors.push(wrong)).ok()?;
    let mut kept = |wrong: Diagnostic| errors.push(wrong);
    let objects: Vec<i32> =
        unit.objects.iter().filter_map(|tree| object(tree).map_err(&mut kept).ok()).collect();
    let mut assembly = Assembly {
        tables: Vec::new(),
        facts: Vec::new(),
        map: Map::default(),
        names: Names {
            objects: unit.objects.iter().map(|object| object.name.text.clone()).collect(),
            routines: Vec::new(),
        },
        warnings: Vec::new(),
        first_comment: None,
    };
    assembly.map.objects = unit.objects.iter().map(|object| object.name.at).collect();
    let dimensions = |object: &Object| object.dimensions.iter().map(|number| number.value).collect();
    assembly.map.dimensions = unit.objects.iter().map(dimensions).collect();
    for (number, tree) in unit.routines.iter().enumerate() {
        // Objects of a set are those of routine 0.
        let objects: &[i32] = if number == 0 { &objects } else { &[] };
        if let Err(wrong) = routine(unit, number, tree, &globals, objects, &mut assembly, errors) {
            errors.push(wrong);
        }
    }
    Some(assembly)
}

/// The product of the dimensions; below 0 for a terminated object.
fn object(object: &Object) -> Fallible<i32> {
    let product =
        object.dimensions.iter().fold(1i64, |product, n| product.saturating_mul(i64::from(n.value)));
    if product > i64::from(i32::MAX) {
        let name = &object.name.text;
        let at = object.dimensions[0].at;
        return fail(at, format!("object `{name}` has {product} cells; an object has 1 to 1,000,000"));
    }
    word(if object.terminated { -product } else { product }, object.dimensions[0].at)
}

fn routine(
    unit: &Unit,
    number: usize,
    tree: &Routine,
    globals: &Globals,
    objects: &[i32],
    assembly: &mut Assembly,
    errors: &mut Vec<Diagnostic>,
) -> Fallible<()> {
    let scope = Scope::of(number, tree, globals)?;
    let mut kept = |wrong: Diagnostic| errors.push(wrong);
    let variables =
        (0..scope.variables.len()).filter_map(|v| variable(&scope, v).map_err(&mut kept).ok()).collect();
    let named = tree.named.iter().map(|named| scope.named_bounds(named)).collect::<Fallible<Vec<Ends>>>()?;
    let mut body = Body::new(unit, &scope, tree, named);
    body.block(&tree.body, false);
    errors.append(&mut body.errors);
    result(&scope, tree)?;
    let has_rows = tree.has_rows || !tree.named.is_empty() || body.has_where;
    let table = Table {
        objects: objects.to_vec(),
        variables,
        statements: body.records,
        rows: has_rows.then_some(body.rows),
    };
    assembly.tables.push(table.words());
    assembly.facts.append(&mut body.facts);
    assembly.warnings.append(&mut body.warnings);
    let variable_names = scope.variables.iter().map(|v| v.name.text.clone());
    assembly.names.routines.push(RoutineNames {
        name: tree.name.text.clone(),
        has_result: tree.result.is_some(),
        parameters: tree.parameters.len(),
        variables: variable_names.collect(),
        rows: tree.named.iter().map(|named| named.name.text.clone()).collect(),
    });
    assembly.map.routines.push(RoutineMap {
        name: tree.name.at,
        end: tree.end,
        variables: scope.variables.iter().map(|v| v.name.at).collect(),
        statements: body.positions,
        ends: body.ends,
        rows: body.row_positions,
        facts: body.fact_positions,
        loops: body.loops,
        then_ends: body.then_ends,
    });
    Ok(())
}

/// The eight words of a variable.
fn variable(scope: &Scope, v: usize) -> Fallible<[i32; 8]> {
    let variable = scope.variables[v];
    let mut record = [0; 8];
    let Type::Pointer { terminated, row } = variable.shape else { return Ok(record) };
    record[0] = if terminated { 2 } else { 1 };
    record[1] = row.unwrap_or(0) as i32;
    let bounds = variable.bounds.as_ref().expect("the parser asks a pointer for its bounds");
    record[2..].copy_from_slice(&scope.bounds(v, bounds)?);
    Ok(record)
}

/// The result of a routine is its last variable, an integer.
fn result(scope: &Scope, tree: &Routine) -> Fallible<()> {
    let Some(name) = &tree.result else { return Ok(()) };
    let number = scope.variable(name)?;
    let last = scope.variables.len() - 1;
    if number != last {
        let last = &scope.variables[last].name.text;
        return fail(name.at, format!("the result of a routine is its last variable, `{last}`"));
    }
    scope.integer(name).map(|_| ())
}
