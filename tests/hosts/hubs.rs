//! hubs [CASES]: coefficients of graphs with long lists (change K4), through the host call. Vertices whose arcs go to a run of others, to
//! every so many, to half or to all of them, so that lists of many lengths are walked together, with many members passed at once and with
//! few. Graph and areas stand between pages that may not be touched. The fractions are those of the independent implementation; and where a
//! list does not rise the graph is refused, and all three areas are zero.

mod fence;

use fence::Fenced;
use reference::dice::Dice;
use reference::kernels;
use reference::lists::Graph;
use trace_engine::calls;

const UNSOUND: u64 = 9 * 1_000_000_000_000_000;

/// The vertices that the arcs of one vertex go to, before the vertex itself is left out: rising.
fn targets(dice: &mut Dice, n: usize) -> Vec<usize> {
    let from = dice.below(n);
    match dice.below(8) {
        0 => Vec::new(),
        1 => vec![from],
        2 => (from..n).take(dice.below(n)).collect(),
        3 => (from..n).step_by(1 + dice.below(9)).collect(),
        4 => (0..n).filter(|_| dice.one_in(2)).collect(),
        5 => (0..n).collect(),
        _ => (0..n).filter(|_| dice.one_in(12)).collect(),
    }
}

fn graph(dice: &mut Dice) -> Graph {
    let n = 2 + if dice.one_in(60) { dice.below(300) } else { dice.below(60) };
    let few = dice.one_in(2);
    let mut out = vec![Vec::new(); n];
    for (v, part) in out.iter_mut().enumerate() {
        *part = if few && !dice.one_in(6) { vec![dice.below(n)] } else { targets(dice, n) };
        part.retain(|&w| w != v);
    }
    if dice.one_in(2) {
        let back = reversed(&out);
        out.iter_mut().zip(back).for_each(|(part, more)| part.extend(more));
        out.iter_mut().for_each(|part| part.sort_unstable());
        out.iter_mut().for_each(Vec::dedup);
    }
    Graph { ids: (0..n as i64).collect(), into: reversed(&out), out }
}

fn reversed(way: &[Vec<usize>]) -> Vec<Vec<usize>> {
    let mut back = vec![Vec::new(); way.len()];
    for (v, part) in way.iter().enumerate() {
        part.iter().for_each(|&w| back[w].push(v));
    }
    back
}

/// A list that has two members or more gets one of them twice, or two exchanged.
fn damaged(dice: &mut Dice, way: &mut [Vec<usize>]) -> bool {
    let long: Vec<usize> = (0..way.len()).filter(|&v| way[v].len() > 1).collect();
    if long.is_empty() {
        return false;
    }
    let part = &mut way[*dice.pick(&long)];
    let i = dice.below(part.len() - 1);
    if dice.one_in(2) {
        part[i] = part[i + 1];
    } else {
        part.swap(i, i + 1);
    }
    true
}

fn main() {
    let cases = std::env::args().nth(1).map_or(6_000, |c| c.parse().unwrap());
    let (mut longest, mut refused) = (0, 0);
    for seed in 0..cases {
        let (mut dice, at_end) = (Dice::new(seed), seed % 2 == 0);
        let mut g = graph(&mut dice);
        let n = g.ids.len();
        let right = kernels::lcc(&g);
        longest = longest.max(g.out.iter().map(Vec::len).max().unwrap());
        let arcs = g.arcs();
        let wrong = dice.one_in(5) && if dice.one_in(2) { damaged(&mut dice, &mut g.out) } else { damaged(&mut dice, &mut g.into) };
        refused += usize::from(wrong);

        let ((oo, ot), (io, is)) = (Graph::stored(&g.out), Graph::stored(&g.into));
        let (oo, ot, io, is) = (Fenced::of(&oo, at_end), Fenced::of(&ot, at_end), Fenced::of(&io, at_end), Fenced::of(&is, at_end));
        let ids = Fenced::of(&g.ids, at_end);
        let size = calls::Size { vertices: n, arcs };
        let lent = calls::Lent { size, ids: &ids, out_offsets: &oo, out_targets: &ot, in_offsets: &io, in_sources: &is };
        let mut area = || Fenced::of(&vec![seed as usize; n + dice.below(3)], at_end);
        let (mut tops, mut bottoms, mut work) = (area(), area(), area());
        let said = calls::lcc(&lent, &mut tops, &mut bottoms, &mut work);

        assert_eq!(said, if wrong { UNSOUND } else { 0 }, "seed {}", seed);
        let held = |k: usize, v: usize| if wrong || v >= n { 0 } else { [right[v].0, right[v].1][k] as usize };
        assert!(tops.iter().enumerate().all(|(v, &x)| x == held(0, v)), "numerators, seed {}", seed);
        assert!(bottoms.iter().enumerate().all(|(v, &x)| x == held(1, v)), "denominators, seed {}", seed);
        assert!(work.iter().all(|&x| x == 0), "the working area, seed {}", seed);
    }
    assert!(cases < 1_000 || longest > 200 && refused > 100);
    println!("hubs: {} graphs, lists of up to {}, {} refused; the coefficients are the independent ones", cases, longest, refused);
}
