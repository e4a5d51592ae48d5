//! Counted points.

use std::marker::PhantomData;

/// A group of points.
pub struct Group {
    pub title: &'static str,
    pub points: Vec<Point>,
}

pub struct Point {
    pub name: String,
    pub reached: u64,
    /// why it cannot be reached
    pub never: Option<&'static str>,
}

impl Group {
    fn new(title: &'static str, names: Vec<String>) -> Self {
        let points = names.into_iter().map(|name| Point { name, reached: 0, never: None }).collect();
        Self { title, points }
    }
}

/// Points that have names in the code.
pub trait Named: Copy + Into<usize> {
    const NAMES: &'static [&'static str];
}

pub struct Counts<P> {
    pub group: Group,
    of: PhantomData<P>,
}

impl<P: Named> Counts<P> {
    pub fn new(title: &'static str) -> Self {
        Self { group: Group::new(title, P::NAMES.iter().map(|name| name.to_string()).collect()), of: PhantomData }
    }

    pub fn never(mut self, point: P, why: &'static str) -> Self {
        self.group.points[point.into()].never = Some(why);
        self
    }

    pub fn hit(&mut self, point: P) {
        self.hit_nth(point, 0);
    }

    pub fn hit_if(&mut self, point: P, condition: bool) {
        if condition {
            self.hit(point);
        }
    }

    /// The point that stands so many places after this one.
    pub fn hit_nth(&mut self, point: P, nth: usize) {
        self.group.points[point.into() + nth].reached += 1;
    }
}

/// A point for each row and column.
pub struct Grid {
    pub group: Group,
    columns: usize,
}

impl Grid {
    pub fn new(title: &'static str, rows: &[impl AsRef<str>], columns: &[impl AsRef<str>]) -> Self {
        Self { group: Group::new(title, product(rows, columns)), columns: columns.len() }
    }

    /// Those rows and columns for which `which` holds cannot be reached.
    pub fn never(mut self, why: &'static str, which: fn(usize, usize) -> bool) -> Self {
        for (i, point) in self.group.points.iter_mut().enumerate() {
            if which(i / self.columns, i % self.columns) {
                point.never = Some(why);
            }
        }
        self
    }

    pub fn hit(&mut self, row: usize, column: usize) {
        self.group.points[row * self.columns + column].reached += 1;
    }
}

/// Every row with every column.
pub fn product(rows: &[impl AsRef<str>], columns: &[impl AsRef<str>]) -> Vec<String> {
    let with = |row: &str| -> Vec<String> { columns.iter().map(|c| format!("{row}{}", c.as_ref())).collect() };
    rows.iter().flat_map(|row| with(row.as_ref())).collect()
}
