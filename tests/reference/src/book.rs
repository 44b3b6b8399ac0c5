//! "The group book" in one area (K9): an entry is a parent at an ordinary vertex, and at a head, being negative, minus the group's size.

use crate::{plain, Refusal};

#[derive(Clone, Debug, PartialEq, Eq)]
pub struct Book {
    pub entries: Vec<i64>,
}

impl Book {
    fn check(&self, vertices: &[usize]) -> Result<(), Refusal> {
        if self.entries.len() > 65_536 {
            return Err(plain(8));
        }
        if vertices.iter().any(|&v| v >= self.entries.len()) {
            return Err(plain(10));
        }
        Ok(())
    }

    /// The head and the number of moves: the walk may not leave the area and ends in 16 steps.
    fn walk(&self, v: usize) -> Result<(usize, usize), Refusal> {
        let mut at = v;
        for moves in 0..=16 {
            let entry = *self.entries.get(at).ok_or(plain(9))?;
            if entry < 0 {
                return Ok((at, moves));
            }
            at = entry as usize;
        }
        Err(plain(9))
    }

    /// The size of a head's group. Its entry may not be below minus the length; the least number has no negative among signed ones.
    fn size_at(&self, head: usize) -> Result<usize, Refusal> {
        let size = self.entries[head].unsigned_abs() as usize;
        if size > self.entries.len() {
            return Err(plain(9));
        }
        Ok(size)
    }

    pub fn open(&mut self) -> Result<(), Refusal> {
        self.check(&[])?;
        self.entries.fill(-1);
        Ok(())
    }

    /// Whether the join merged two groups.
    pub fn join(&mut self, u: usize, v: usize) -> Result<bool, Refusal> {
        self.check(&[u, v])?;
        let (g, h) = (self.walk(u)?.0, self.walk(v)?.0);
        if g == h {
            return Ok(false);
        }
        let (a, b) = (self.size_at(g)?, self.size_at(h)?);
        if a + b > self.entries.len() {
            return Err(plain(9));
        }
        let (top, under) = if a > b || (a == b && g < h) { (g, h) } else { (h, g) };
        self.entries[under] = top as i64;
        self.entries[top] = -((a + b) as i64);
        Ok(true)
    }

    pub fn head(&self, v: usize) -> Result<(usize, usize), Refusal> {
        self.check(&[v])?;
        self.walk(v)
    }

    pub fn same(&self, u: usize, v: usize) -> Result<bool, Refusal> {
        self.check(&[u, v])?;
        Ok(self.walk(u)?.0 == self.walk(v)?.0)
    }

    pub fn size(&self, v: usize) -> Result<usize, Refusal> {
        let (head, _) = self.head(v)?;
        self.size_at(head)
    }

    /// The heads in the area.
    pub fn count(&self) -> Result<usize, Refusal> {
        self.check(&[])?;
        Ok(self.entries.iter().filter(|&&entry| entry < 0).count())
    }

    /// The largest k with 2 to the k at most the group's size.
    pub fn limit(&self, v: usize) -> Result<usize, Refusal> {
        let size = self.size(v)?;
        Ok((0..64).take_while(|&k| 1usize << k <= size).last().unwrap())
    }
}
