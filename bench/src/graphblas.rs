//! Pair questions by SuiteSparse:GraphBLAS: the baseline's register and reader, its relations matrices of that library (`graphblas.c`).

use crate::expression::{self, Expression};
use crate::register::{Edit, Register};
use crate::sheet::Link;
use crate::system::{Peer, Refusal, Reply, System};
use std::ffi::c_void;

pub const PEER: Peer = Peer { name: "graphblas", load };

type Matrix = *mut c_void;

extern "C" {
    fn graphblas_start();
    fn graphblas_pairs(n: u64, from: *const u64, to: *const u64, count: u64) -> Matrix;
    fn graphblas_union(a: Matrix, b: Matrix) -> Matrix;
    fn graphblas_product(a: Matrix, b: Matrix) -> Matrix;
    fn graphblas_transpose(a: Matrix) -> Matrix;
    fn graphblas_closure(a: Matrix) -> Matrix;
    fn graphblas_list(a: Matrix, list: *mut u32) -> u64;
}

/// What `graphblas_list` adds to the number of pairs that are not ascending yet.
const UNSORTED: u64 = 1 << 63;

struct Sparse(Register);

fn load(n: u32, links: &[Link]) -> Result<Box<dyn System>, Refusal> {
    let mut register = Register::fresh(n)?;
    links.iter().try_for_each(|&link| register.add(link))?;
    unsafe { graphblas_start() };
    Ok(Box::new(Sparse(register)))
}

impl System for Sparse {
    fn pairs(&mut self, text: &[u8], list: &mut [u32]) -> Result<usize, Refusal> {
        let relation = self.relation(&expression::read(text)?);
        assert!(self.0.n() * self.0.n() <= list.len(), "the list has room for every pair");
        let count = unsafe { graphblas_list(relation, list.as_mut_ptr()) };
        let written = (count & !UNSORTED) as usize;
        if count & UNSORTED != 0 {
            list[..written].sort_unstable();
        }
        Ok(written)
    }

    /// Chains and edits are the baseline's.
    fn chain(&mut self, from: u32, to: u32, text: &[u8], list: &mut [u32]) -> Reply {
        self.0.chain(from, to, text, list)
    }

    fn add(&mut self, link: Link) -> Result<(), Refusal> {
        self.0.edit(Edit::Add(link))
    }

    fn remove(&mut self, link: Link) -> Result<(), Refusal> {
        self.0.edit(Edit::Remove(link))
    }
}

impl Sparse {
    fn matrix(&self, pairs: impl Iterator<Item = (usize, usize)>) -> Matrix {
        let (from, to): (Vec<u64>, Vec<u64>) = pairs.map(|(from, to)| (from as u64, to as u64)).unzip();
        unsafe { graphblas_pairs(self.0.n() as u64, from.as_ptr(), to.as_ptr(), from.len() as u64) }
    }

    fn identity(&self) -> Matrix {
        self.matrix((0..self.0.n()).map(|record| (record, record)))
    }

    fn relation(&self, expression: &Expression) -> Matrix {
        let of = |part: &Expression| self.relation(part);
        unsafe {
            match expression {
                Expression::Letter(label) => self.matrix(self.0.labelled(*label)),
                Expression::NoneOf(members) => self.matrix(members.others().flat_map(|letter| {
                    let links = self.0.labelled(letter / 2);
                    links.map(move |(from, to)| if letter % 2 == 0 { (from, to) } else { (to, from) })
                })),
                Expression::Inverse(inner) => graphblas_transpose(of(inner)),
                Expression::Alternative(left, right) => graphblas_union(of(left), of(right)),
                Expression::Sequence(left, right) => graphblas_product(of(left), of(right)),
                Expression::Star(inner) => graphblas_union(graphblas_closure(of(inner)), self.identity()),
                Expression::Plus(inner) => graphblas_closure(of(inner)),
                Expression::Optional(inner) => graphblas_union(of(inner), self.identity()),
            }
        }
    }
}
