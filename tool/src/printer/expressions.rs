//! Ends, bounds, cells, conditions and facts in the text's notation.

use super::Printer;
use crate::tree::RELATIONS;

/// " + k" or " - k"; nothing for 0.
pub fn plus(k: i64) -> String {
    match k {
        0 => String::new(),
        k if k < 0 => format!(" - {}", k.unsigned_abs()),
        k => format!(" + {k}"),
    }
}

impl Printer<'_> {
    pub fn pointer_type(&self, pointer: i32) -> &'static str {
        if self.table.is_terminated(pointer) {
            "nt_array_ptr"
        } else {
            "array_ptr"
        }
    }

    /// The pointer as one to cells, where its elements are greater.
    fn in_cells(&self, q: i32) -> String {
        let name = self.name(q);
        if self.table.size(q) > 1 {
            format!("({}<unsigned>){name}", self.pointer_type(q))
        } else {
            name.to_string()
        }
    }

    /// q and k cells: whole elements by C's arithmetic, the rest by a cast to cells.
    pub fn moved(&self, q: i32, k: i64) -> String {
        let size = i64::from(self.table.size(q));
        if k % size == 0 {
            format!("{}{}", self.name(q), plus(k / size))
        } else {
            format!("{}{}", self.in_cells(q), plus(k))
        }
    }

    /// An end of a pointer with elements of so many cells.
    pub fn end(&self, [q, n]: [i32; 2], k: i64, size: i32) -> String {
        if n == -1 {
            return self.moved(q, k);
        }
        let (integer, size_of_q) = (self.name(n), self.table.size(q));
        if size_of_q == size && k % i64::from(size) == 0 {
            return format!("{} + {integer}{}", self.name(q), plus(k / i64::from(size)));
        }
        let product = if size == 1 { String::new() } else { format!("{size} * ") };
        format!("{} + {product}{integer}{}", self.in_cells(q), plus(k))
    }

    pub fn ends(&self, [q, n, k, r, m, j]: [i32; 6], size: i32) -> String {
        let (lower, upper) = (self.end([q, n], i64::from(k), size), self.end([r, m], i64::from(j), size));
        format!("bounds({lower}, {upper})")
    }

    /// Bounds of p: a count where they are one.
    pub fn bounds(&self, p: i32, ends: [i32; 6]) -> String {
        let size = self.table.size(p);
        let [q, n, k, r, m, j] = ends;
        if (q, n, k, r) == (p, -1, 0, p) {
            if m != -1 && j == 0 {
                return format!("count({})", self.name(m));
            }
            if m == -1 && j >= 0 && j % size == 0 {
                return format!("count({})", j / size);
            }
        }
        self.ends(ends, size)
    }

    /// The bounds that a pointer is declared with.
    pub fn declared(&self, p: i32) -> String {
        self.bounds(p, self.table.own_bounds(p as usize))
    }

    /// `p[i + k]`, or `p[i + m][c]` where elements are rows.
    pub fn cell(&self, p: i32, i: i32, k: i32) -> String {
        let row = self.table.variables[p as usize][1];
        let (element, column) = match row {
            0 => (k, String::new()),
            _ => (k.div_euclid(row), format!("[{}]", k.rem_euclid(row))),
        };
        let index = match i {
            -1 => element.to_string(),
            _ => format!("{}{}", self.name(i), plus(i64::from(element))),
        };
        format!("{}[{index}]{column}", self.name(p))
    }

    pub fn condition(&self, [left, relation, form, right]: [i32; 4]) -> String {
        let right = match form {
            0 => self.name(right).to_string(),
            _ if self.table.is_pointer(left) => "NULL".to_string(),
            _ => (right as u32).to_string(),
        };
        format!("{} {} {right}", self.name(left), RELATIONS[relation as usize].0)
    }

    /// x <= y + k, -1 for zero.
    pub fn fact(&self, x: i32, y: i32, k: i64) -> String {
        let (x_name, y_name) = (|| self.name(x), || self.name(y));
        let pointer = self.table.is_pointer(if x == -1 { y } else { x });
        match (x, y, k) {
            (_, -1, 0) if pointer => format!("{} == NULL", x_name()),
            (_, -1, k) => format!("{} <= {k}", x_name()),
            (-1, _, -1) if pointer => format!("{} != NULL", y_name()),
            (-1, _, k) => format!("{} >= {}", y_name(), -k),
            (_, _, -1) => format!("{} < {}", x_name(), y_name()),
            (_, _, k) if pointer => format!("{} <= {}", x_name(), self.moved(y, k)),
            (_, _, k) => format!("{} <= {}{}", x_name(), y_name(), plus(k)),
        }
    }
}
