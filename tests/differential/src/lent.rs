//! Lists as a caller lends them, with cells around them that no call may touch.

use std::fmt::{self, Debug};

/// Cells before and behind a list, where a write outside of it would show.
const MARGIN: usize = 4;

/// So many cells at the end of a list that say nothing new are written out as their number.
const LONG: usize = 256;

/// What a cell holds before a call: different from cell to cell, and never an answer.
pub trait Mark: Copy + Debug + PartialEq {
    fn mark(cell: usize) -> Self;
    /// A list as it can be written into a program again.
    fn literal(list: &[Self]) -> String;
}

impl Mark for i64 {
    fn mark(cell: usize) -> Self {
        -7_000_000_000_000_000_000 - cell as i64
    }

    fn literal(list: &[Self]) -> String {
        format!("{list:?}")
    }
}

impl Mark for u64 {
    fn mark(cell: usize) -> Self {
        17_000_000_000_000_000_000 + cell as u64
    }

    fn literal(list: &[Self]) -> String {
        format!("{list:?}")
    }
}

impl Mark for u8 {
    fn mark(cell: usize) -> Self {
        128 + (cell % 128) as u8
    }

    fn literal(list: &[Self]) -> String {
        format!("b\"{}\"", list.escape_ascii())
    }
}

/// A lent list and the cells around it. Two are equal if all of these are.
#[derive(Clone, PartialEq, Eq)]
pub struct Lent<T> {
    cells: Vec<T>,
    length: usize,
    null: bool,
}

impl<T: Mark> Lent<T> {
    /// A list lent for an answer.
    pub fn blank(length: usize) -> Self {
        Lent {
            cells: (0..length + 2 * MARGIN).map(T::mark).collect(),
            length,
            null: false,
        }
    }

    /// A list that holds `values`.
    pub fn holding(values: &[T]) -> Self {
        let mut lent = Lent::blank(values.len());
        lent.put(values);
        lent
    }

    /// The same list, lent as a null pointer if it is empty and that is wanted.
    pub fn or_null(mut self, wanted: bool) -> Self {
        self.null = wanted && self.length == 0;
        self
    }

    /// Puts values into the first places; the others stay as they were.
    pub fn put(&mut self, values: &[T]) {
        self.list_mut()[..values.len()].copy_from_slice(values);
    }

    pub fn list(&self) -> &[T] {
        &self.cells[MARGIN..MARGIN + self.length]
    }

    fn list_mut(&mut self) -> &mut [T] {
        &mut self.cells[MARGIN..MARGIN + self.length]
    }

    pub fn length(&self) -> usize {
        self.length
    }

    /// The pointer that is lent. It may be written through, also where the header says
    /// that nothing is: what a call did is seen afterwards.
    pub fn pointer(&mut self) -> *mut T {
        if self.null {
            std::ptr::null_mut()
        } else {
            self.list_mut().as_mut_ptr()
        }
    }
}

impl<T: Mark> Debug for Lent<T> {
    /// The list; the cells around it only where one of them has changed.
    fn fmt(&self, out: &mut fmt::Formatter) -> fmt::Result {
        let untouched = |cell: usize| self.cells[cell] == T::mark(cell);
        let mut margins = (0..MARGIN).chain(MARGIN + self.length..self.cells.len());
        let list = self.list();
        let indices = || (0..list.len()).rev();
        let blank = indices()
            .take_while(|&index| untouched(MARGIN + index))
            .count();
        let alike = indices()
            .take_while(|&index| list.last() == list.get(index))
            .count();
        match list.last() {
            Some(_) if blank > LONG => {
                let head = T::literal(&list[..list.len() - blank]);
                write!(out, "{head} and {blank} cells as they were")?;
            }
            Some(last) if alike > LONG => {
                let head = T::literal(&list[..list.len() - alike]);
                write!(out, "{head} and {alike} cells of {last:?}")?;
            }
            _ => write!(out, "{}", T::literal(list))?,
        }
        if margins.all(untouched) {
            Ok(())
        } else {
            write!(out, " within margins: {}", T::literal(&self.cells))
        }
    }
}

#[cfg(test)]
mod tests {
    use super::*;

    #[test]
    fn a_write_outside_the_list_shows() {
        let mut lent = Lent::holding(&[1_i64, 2]);
        assert_eq!(lent, Lent::holding(&[1, 2]));
        lent.cells[MARGIN + 2] = 0;
        assert_ne!(lent, Lent::holding(&[1, 2]));
        assert!(format!("{lent:?}").contains("margins"));
    }

    #[test]
    fn a_long_end_is_written_out_as_its_number() {
        let mut lent = Lent::<u8>::blank(1_000);
        assert_eq!(format!("{lent:?}"), "b\"\" and 1000 cells as they were");
        lent.put(b"ab");
        assert_eq!(format!("{lent:?}"), "b\"ab\" and 998 cells as they were");
        let alike = Lent::holding(&[b"ab".as_slice(), &[7; 998]].concat());
        assert_eq!(format!("{alike:?}"), "b\"ab\" and 998 cells of 7");
        assert_eq!(format!("{:?}", Lent::holding(&[5_u64; 3])), "[5, 5, 5]");
        assert_eq!(format!("{:?}", Lent::<u64>::blank(0)), "[]");
    }

    #[test]
    fn only_an_empty_list_is_a_null_pointer() {
        assert!(Lent::<i64>::blank(0).or_null(true).pointer().is_null());
        assert!(!Lent::<i64>::blank(0).or_null(false).pointer().is_null());
        assert!(!Lent::<i64>::blank(1).or_null(true).pointer().is_null());
    }
}
