//! "The group book" as K9 found it, in two areas, parents and sizes: what the book of one area answers is held to this one's answers.

use crate::{plain, Refusal};

#[derive(Clone, Debug, PartialEq, Eq)]
pub struct Book {
    pub parents: Vec<usize>,
    pub sizes: Vec<usize>,
}

impl Book {
    fn check(&self, vertices: &[usize]) -> Result<(), Refusal> {
        if self.parents.len() != self.sizes.len() || self.parents.len() > 65_536 {
            return Err(plain(8));
        }
        if vertices.iter().any(|&v| v >= self.parents.len()) {
            return Err(plain(10));
        }
        Ok(())
    }

    /// The head and the number of moves: the walk may not leave the area and ends in 16 steps.
    fn walk(&self, v: usize) -> Result<(usize, usize), Refusal> {
        let mut at = v;
        for moves in 0..=16 {
            let parent = self.parents[at];
            if parent == at {
                return Ok((at, moves));
            }
            if parent >= self.parents.len() {
                return Err(plain(9));
            }
            at = parent;
        }
        Err(plain(9))
    }

    pub fn open(&mut self) -> Result<(), Refusal> {
        self.check(&[])?;
        for (v, (parent, size)) in self.parents.iter_mut().zip(&mut self.sizes).enumerate() {
            *parent = v;
            *size = 1;
        }
        Ok(())
    }

    /// Whether the join merged two groups.
    pub fn join(&mut self, u: usize, v: usize) -> Result<bool, Refusal> {
        self.check(&[u, v])?;
        let (g, h) = (self.walk(u)?.0, self.walk(v)?.0);
        if g == h {
            return Ok(false);
        }
        let (a, b) = (self.sizes[g], self.sizes[h]);
        let sum = a.checked_add(b).filter(|&s| a > 0 && b > 0 && s <= self.parents.len()).ok_or(plain(9))?;
        let (top, under) = if a > b || (a == b && g < h) { (g, h) } else { (h, g) };
        self.parents[under] = top;
        self.sizes[top] = sum;
        Ok(true)
    }

    pub fn head(&self, v: usize) -> Result<(usize, usize), Refusal> {
        self.check(&[v])?;
        self.walk(v)
    }

    pub fn same(&self, u: usize, v: usize) -> Result<bool, Refusal> {
        self.check(&[u, v])?;
        Ok(self.walk(u)?.0 == self.walk(v)?.0)
    }

    pub fn size(&self, v: usize) -> Result<usize, Refusal> {
        let (head, _) = self.head(v)?;
        let size = self.sizes[head];
        if size == 0 || size > self.parents.len() {
            return Err(plain(9));
        }
        Ok(size)
    }

    pub fn count(&self) -> Result<usize, Refusal> {
        self.check(&[])?;
        Ok(self.parents.iter().enumerate().filter(|&(v, &p)| v == p).count())
    }

    /// The largest k with 2 to the k at most the group's size.
    pub fn limit(&self, v: usize) -> Result<usize, Refusal> {
        let size = self.size(v)?;
        Ok((0..64).take_while(|&k| 1usize << k <= size).last().unwrap())
    }
}
