//! "Lists": identifiers, lines, and the two files.

use crate::places::{self, Form};
use crate::{plain, Limits, Refusal};

#[derive(Clone, Copy, Debug, PartialEq, Eq)]
pub enum Ident {
    Malformed,
    Outside,
    Value(i64),
}

/// An identifier is `0`, or an optional `-`, a digit 1 to 9 and more digits.
pub fn ident(word: &[u8]) -> Ident {
    if word == b"0" {
        return Ident::Value(0);
    }
    let digits = if word.first() == Some(&b'-') { &word[1..] } else { word };
    let first_is_good = matches!(digits.first(), Some(b'1'..=b'9'));
    if !first_is_good || !digits.iter().all(u8::is_ascii_digit) {
        return Ident::Malformed;
    }
    match std::str::from_utf8(word).unwrap().parse::<i64>() {
        Ok(z) => Ident::Value(z),
        Err(_) => Ident::Outside,
    }
}

/// A line without its LF, and whether it had one.
pub struct Line<'a> {
    pub bytes: &'a [u8],
    pub ended: bool,
}

pub fn lines(file: &[u8]) -> Vec<Line<'_>> {
    let mut found = Vec::new();
    let mut rest = file;
    while !rest.is_empty() {
        match rest.iter().position(|&b| b == b'\n') {
            Some(i) => {
                found.push(Line { bytes: &rest[..i], ended: true });
                rest = &rest[i + 1..];
            }
            None => {
                found.push(Line { bytes: rest, ended: false });
                rest = &[];
            }
        }
    }
    found
}

/// The identifiers of a line's words: form before range.
pub fn idents(words: &[&[u8]]) -> Result<Vec<i64>, u64> {
    let read: Vec<Ident> = words.iter().map(|w| ident(w)).collect();
    if read.contains(&Ident::Malformed) {
        return Err(2);
    }
    read.iter().map(|i| if let Ident::Value(z) = i { Ok(*z) } else { Err(3) }).collect()
}

pub fn vertex_line(line: &Line) -> Result<i64, u64> {
    if !line.ended {
        return Err(2);
    }
    Ok(idents(&[line.bytes])?[0])
}

/// Two identifiers with one space between.
pub fn edge_line(line: &Line) -> Result<(i64, i64), u64> {
    let words: Vec<&[u8]> = line.bytes.split(|&b| b == b' ').collect();
    if !line.ended || words.len() != 2 {
        return Err(2);
    }
    let z = idents(&words)?;
    Ok((z[0], z[1]))
}

/// A graph: identifiers in file order, and each vertex's neighbours both ways, rising.
#[derive(Clone, Debug, PartialEq, Eq)]
pub struct Graph {
    pub ids: Vec<i64>,
    pub out: Vec<Vec<usize>>,
    pub into: Vec<Vec<usize>>,
}

impl Graph {
    pub fn arcs(&self) -> usize {
        self.out.iter().map(Vec::len).sum()
    }

    /// Offsets and targets of one way.
    pub fn stored(way: &[Vec<usize>]) -> (Vec<usize>, Vec<usize>) {
        let mut offsets = vec![0];
        let mut targets = Vec::new();
        for part in way {
            targets.extend_from_slice(part);
            offsets.push(targets.len());
        }
        (offsets, targets)
    }
}

/// How many places the five areas of a load have.
#[derive(Clone, Copy)]
pub struct Room {
    pub ids: usize,
    pub out_offsets: usize,
    pub out_targets: usize,
    pub in_offsets: usize,
    pub in_sources: usize,
}

pub const ROOM_ENOUGH: Room =
    Room { ids: usize::MAX, out_offsets: usize::MAX, out_targets: usize::MAX, in_offsets: usize::MAX, in_sources: usize::MAX };

pub fn load(mode: u64, vertices: &[u8], edges: &[u8], limits: Limits, room: Room) -> Result<Graph, Refusal> {
    if mode > 1 {
        return Err(plain(12));
    }
    let ids = vertex_file(vertices, limits.vertices)?;
    let n = ids.len();
    if room.ids < n || room.out_offsets < n + 1 || room.in_offsets < n + 1 {
        return Err(plain(8));
    }
    let pairs = edge_file(mode, edges, limits.edges, &ids)?;
    let mut graph = Graph { out: vec![Vec::new(); n], into: vec![Vec::new(); n], ids };
    for (u, v) in pairs {
        graph.out[u].push(v);
        graph.into[v].push(u);
        if mode == 0 {
            graph.out[v].push(u);
            graph.into[u].push(v);
        }
    }
    graph.out.iter_mut().chain(graph.into.iter_mut()).for_each(|part| part.sort_unstable());
    if room.out_targets < graph.arcs() || room.in_sources < graph.arcs() {
        return Err(plain(8));
    }
    Ok(graph)
}

fn vertex_file(file: &[u8], most: usize) -> Result<Vec<i64>, Refusal> {
    let mut ids: Vec<i64> = Vec::new();
    for (i, line) in lines(file).iter().enumerate() {
        let refused = |number| places::refused(number, 1, i + 1, Form::Vertex, line);
        if i >= most {
            return Err(refused(1));
        }
        let z = vertex_line(line).map_err(refused)?;
        if ids.last().map_or(false, |&last| z <= last) {
            return Err(refused(4));
        }
        ids.push(z);
    }
    Ok(ids)
}

fn edge_file(mode: u64, file: &[u8], most: usize, ids: &[i64]) -> Result<Vec<(usize, usize)>, Refusal> {
    let mut edges = Vec::new();
    let mut before: Option<(i64, i64)> = None;
    for (i, line) in lines(file).iter().enumerate() {
        let refused = |number| places::refused(number, 2, i + 1, Form::Pair, line);
        if i >= most {
            return Err(refused(1));
        }
        let (a, b) = edge_line(line).map_err(refused)?;
        if a == b {
            return Err(refused(5));
        }
        if mode == 0 && a > b {
            return Err(refused(6));
        }
        if before.map_or(false, |last| (a, b) <= last) {
            return Err(refused(4));
        }
        let place = |z| ids.iter().position(|&x| x == z);
        match (place(a), place(b)) {
            (Some(u), Some(v)) => edges.push((u, v)),
            _ => return Err(refused(7)),
        }
        before = Some((a, b));
    }
    Ok(edges)
}

/// A graph as it is lent: stated counts and five areas.
#[derive(Clone, Debug, PartialEq, Eq)]
pub struct Lent {
    pub vertices: usize,
    pub arcs: usize,
    pub ids: Vec<i64>,
    pub out_offsets: Vec<usize>,
    pub out_targets: Vec<usize>,
    pub in_offsets: Vec<usize>,
    pub in_sources: Vec<usize>,
}

impl Lent {
    pub fn of(g: &Graph) -> Lent {
        let (out_offsets, out_targets) = Graph::stored(&g.out);
        let (in_offsets, in_sources) = Graph::stored(&g.into);
        Lent { vertices: g.ids.len(), arcs: g.arcs(), ids: g.ids.clone(), out_offsets, out_targets, in_offsets, in_sources }
    }

    /// The graph, where it is sound; else refusal 9.
    pub fn graph(&self) -> Result<Graph, Refusal> {
        let unsound = || plain(9);
        let (n, m) = (self.vertices, self.arcs);
        if n > 65_536 || m > 2_097_152 || self.ids.len() < n || self.ids[..n].windows(2).any(|w| w[0] >= w[1]) {
            return Err(unsound());
        }
        let out = parts(n, m, &self.out_offsets, &self.out_targets).ok_or_else(unsound)?;
        let into = parts(n, m, &self.in_offsets, &self.in_sources).ok_or_else(unsound)?;
        let arcs = |way: &[Vec<usize>]| -> Vec<(usize, usize)> {
            way.iter().enumerate().flat_map(|(u, part)| part.iter().map(move |&w| (u, w))).collect()
        };
        let mut reversed: Vec<(usize, usize)> = arcs(&into).into_iter().map(|(v, u)| (u, v)).collect();
        reversed.sort_unstable();
        if arcs(&out) != reversed {
            return Err(unsound());
        }
        Ok(Graph { ids: self.ids[..n].to_vec(), out, into })
    }
}

/// One way of a lent graph, vertex by vertex, where its offsets and parts are as they should be.
fn parts(n: usize, m: usize, offsets: &[usize], targets: &[usize]) -> Option<Vec<Vec<usize>>> {
    if offsets.len() <= n || targets.len() < m || offsets[0] != 0 || offsets[n] != m || offsets[..=n].windows(2).any(|w| w[0] > w[1]) {
        return None;
    }
    let way: Vec<Vec<usize>> = offsets[..=n].windows(2).map(|w| targets[w[0]..w[1]].to_vec()).collect();
    let good = |(v, part): (usize, &Vec<usize>)| part.iter().all(|&w| w < n && w != v) && part.windows(2).all(|w| w[0] < w[1]);
    if way.iter().enumerate().all(good) {
        Some(way)
    } else {
        None
    }
}
