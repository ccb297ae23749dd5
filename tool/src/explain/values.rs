//! Ends and addresses in numbers, for stops and for entries that are refused.

/// A whole number, and how it comes about: `5 + 6 = 11`.
pub struct Worked {
    pub value: i64,
    pub shown: String,
}

/// The end (q, n, k) of a pointer with elements of so many cells, by these values.
pub fn end([q, n, k]: [i32; 3], size: i32, values: &[u32]) -> Worked {
    let pointer = i64::from(values[q as usize]);
    let integer = if n == -1 { 0 } else { i64::from(values[n as usize]) };
    let value = pointer + i64::from(size) * integer + i64::from(k);
    let mut shown = pointer.to_string();
    if n != -1 {
        let product = if size == 1 { String::new() } else { format!("{size} * ") };
        shown.push_str(&format!(" + {product}{integer}"));
    }
    if k != 0 {
        shown.push_str(&format!(" {} {}", if k < 0 { '-' } else { '+' }, k.unsigned_abs()));
    }
    if n != -1 || k != 0 {
        shown.push_str(&format!(" = {value}"));
    }
    Worked { value, shown }
}
