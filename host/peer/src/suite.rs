//! Carries out a plan by SuiteSparse. A matrix with several roles is one object in all of them, C too.

use crate::plan::{Plan, Step};
use second::grid::Grid;
use std::collections::BTreeMap;
use suitesparse::{
    apply, assign, ewise_add, ewise_mult, extract, kronecker, mxm, reduce, reduce_rows, select, vxm, Binary,
    Descriptor, Error, Matrix, Monoid, Semiring, Vector, WriteBack,
};

/// Row, column and value.
pub type Triple = (u32, u32, i32);

/// Every semiring and every sum of flags, made once.
pub struct Tools {
    semirings: Vec<(Monoid, Binary, Semiring)>,
    descriptors: Vec<Descriptor>,
}

impl Tools {
    pub fn new() -> Result<Self, Error> {
        let mut semirings = Vec::new();
        for &monoid in Monoid::ALL {
            for &op in Binary::ALL {
                semirings.push((monoid, op, Semiring::new(monoid, op)?));
            }
        }
        let descriptors = (0..32).map(Descriptor::new).collect::<Result<_, _>>()?;
        Ok(Tools { semirings, descriptors })
    }

    fn semiring(&self, monoid: Monoid, op: Binary) -> &Semiring {
        let found = self.semirings.iter().find(|entry| (entry.0, entry.1) == (monoid, op));
        &found.expect("every pair is there").2
    }

    /// The entries of C after the call, row by row and from left to right.
    pub fn carry_out(&self, plan: &Plan, grids: &[Option<Grid>]) -> Result<Vec<Triple>, Error> {
        match plan.step {
            Step::Vxm(monoid, op) => self.vxm(plan, self.semiring(monoid, op), grids),
            Step::ReduceRows(monoid) => self.reduce_rows(plan, monoid, grids),
            _ => self.on_matrices(plan, grids),
        }
    }

    fn write_back<'a, T>(&'a self, plan: &Plan, made: &'a BTreeMap<usize, T>) -> WriteBack<'a, T> {
        WriteBack {
            mask: plan.mask.map(|mask| &made[&mask]),
            accumulator: plan.accumulator,
            descriptor: &self.descriptors[plan.flags as usize],
        }
    }

    fn on_matrices(&self, plan: &Plan, grids: &[Option<Grid>]) -> Result<Vec<Triple>, Error> {
        let roles = [plan.a, plan.b, plan.c].into_iter().chain(plan.mask);
        let made = make(roles, grids, matrix_of)?;
        let (a, b, c) = (&made[&plan.a], &made[&plan.b], &made[&plan.c]);
        let write = self.write_back(plan, &made);
        match &plan.step {
            Step::Mxm(monoid, op) | Step::Vxm(monoid, op) => mxm(c, write, self.semiring(*monoid, *op), a, b)?,
            Step::EwiseMult(op) => ewise_mult(c, write, *op, a, b)?,
            Step::EwiseAdd(op) => ewise_add(c, write, *op, a, b)?,
            Step::Apply(kind) => apply(c, write, *kind, a)?,
            Step::Extract(rows, cols) => extract(c, write, a, rows, cols)?,
            Step::Select(op, scalar) => select(c, write, *op, *scalar, a)?,
            Step::Assign(rows, cols) => assign(c, write, a, rows, cols)?,
            Step::Kronecker(op) => kronecker(c, write, *op, a, b)?,
            Step::ReduceRows(_) => unreachable!("it has a vector for C"),
        }
        c.triples()
    }

    /// The vector, C and the mask are vectors, one for each position; the matrix is an object of its own.
    fn vxm(&self, plan: &Plan, semiring: &Semiring, grids: &[Option<Grid>]) -> Result<Vec<Triple>, Error> {
        let made = make([plan.a, plan.c].into_iter().chain(plan.mask), grids, vector_of)?;
        let matrix = make([plan.b].into_iter(), grids, matrix_of)?;
        let (u, a, w) = (&made[&plan.a], &matrix[&plan.b], &made[&plan.c]);
        vxm(w, self.write_back(plan, &made), semiring, u, a)?;
        Ok(w.pairs()?.into_iter().map(|(j, value)| (0, j, value)).collect())
    }
}

impl Tools {
    /// C and the mask are vectors, one for each position; the matrix is an object of its own.
    fn reduce_rows(&self, plan: &Plan, monoid: Monoid, grids: &[Option<Grid>]) -> Result<Vec<Triple>, Error> {
        let made = make([plan.c].into_iter().chain(plan.mask), grids, vector_of)?;
        let matrix = make([plan.a].into_iter(), grids, matrix_of)?;
        let w = &made[&plan.c];
        reduce_rows(w, self.write_back(plan, &made), monoid, &matrix[&plan.a])?;
        Ok(w.pairs()?.into_iter().map(|(j, value)| (0, j, value)).collect())
    }

    /// All values of a matrix added up; none if the number is no monoid.
    pub fn total(&self, grid: &Grid, monoid: u32) -> Result<Option<i32>, Error> {
        match Monoid::numbered(monoid) {
            Some(monoid) => reduce(monoid, &matrix_of(grid)?).map(Some),
            None => Ok(None),
        }
    }
}

/// One object for each position, whatever roles it has.
fn make<T>(
    roles: impl Iterator<Item = usize>,
    grids: &[Option<Grid>],
    object: impl Fn(&Grid) -> Result<T, Error>,
) -> Result<BTreeMap<usize, T>, Error> {
    let mut made = BTreeMap::new();
    for role in roles {
        if let (Some(Some(grid)), false) = (grids.get(role), made.contains_key(&role)) {
            made.insert(role, object(grid)?);
        }
    }
    Ok(made)
}

pub fn triples(grid: &Grid) -> Vec<Triple> {
    grid.cells.iter().map(|(&(i, j), &value)| (i, j, value)).collect()
}

fn matrix_of(grid: &Grid) -> Result<Matrix, Error> {
    Matrix::from_triples(grid.rows, grid.cols, &triples(grid))
}

/// Of a grid of one row.
fn vector_of(grid: &Grid) -> Result<Vector, Error> {
    let pairs: Vec<(u32, i32)> = grid.cells.iter().map(|(&(_, j), &value)| (j, value)).collect();
    Vector::from_pairs(grid.cols, &pairs)
}
