//! orders [CASES]: claims whose lines come in any order (change K7), through both host calls: in order, backwards and shuffled, with a line
//! doubled, missing, surplus, unknown or replaced by a copy of another, with up to two values wrong, and with damaged bytes. Graph, claim
//! and the six areas stand between pages that may not be touched, and the areas hold anything before a call. Every answer, and what every
//! area holds, is as the independent implementation says; and another order of a complete claim changes neither whether it matches nor the
//! vertex that is reported.

mod fence;
#[allow(dead_code)] // the random lists, claims and damage are used here, the rest by `compare`
mod inputs;

use fence::Fenced;
use reference::claims::{self, Verdict};
use reference::dice::Dice;
use reference::lists::{self, Graph};
use reference::{at, kernels, plain, Refusal, DESK, LIBRARY};
use trace_engine::calls;

/// A graph between fences.
struct Held {
    size: calls::Size,
    ids: Fenced<i64>,
    out_offsets: Fenced<usize>,
    out_targets: Fenced<usize>,
    in_offsets: Fenced<usize>,
    in_sources: Fenced<usize>,
}

impl Held {
    fn of(g: &Graph, at_end: bool) -> Held {
        let ((oo, ot), (io, is)) = (Graph::stored(&g.out), Graph::stored(&g.into));
        Held {
            size: calls::Size { vertices: g.ids.len(), arcs: g.arcs() },
            ids: Fenced::of(&g.ids, at_end),
            out_offsets: Fenced::of(&oo, at_end),
            out_targets: Fenced::of(&ot, at_end),
            in_offsets: Fenced::of(&io, at_end),
            in_sources: Fenced::of(&is, at_end),
        }
    }

    fn lent(&self) -> calls::Lent<'_> {
        calls::Lent {
            size: self.size,
            ids: &self.ids,
            out_offsets: &self.out_offsets,
            out_targets: &self.out_targets,
            in_offsets: &self.in_offsets,
            in_sources: &self.in_sources,
        }
    }
}

/// The six areas of a verdict, of any content.
struct Six {
    signed: [Fenced<i64>; 2],
    numbers: [Fenced<usize>; 4],
}

impl Six {
    fn of(dice: &mut Dice, places: [usize; 6], at_end: bool) -> Six {
        let mut area = |k: usize| (0..places[k]).map(|_| dice.next() as i64 >> dice.below(64)).collect::<Vec<i64>>();
        let signed = [0, 1].map(|k| Fenced::of(&area(k), at_end));
        let numbers = [2, 3, 4, 5].map(|k| Fenced::of(&area(k).iter().map(|&x| x as usize).collect::<Vec<usize>>(), at_end));
        Six { signed, numbers }
    }

    fn judge(&mut self, g: &calls::Lent<'_>, asked: &Asked<'_>, claim: &[u8]) -> u64 {
        let ([result, claimed], [first, second, third, lines]) = (&mut self.signed, &mut self.numbers);
        calls::judge(g, asked.kernel, asked.parameter, claim, &mut calls::Areas { result, claimed, first, second, third, lines })
    }

    /// The results stand in the areas that they belong to, and everything else is zero.
    fn hold(&self, results: &Results) -> bool {
        let ([result, claimed], [first, second, third, lines]) = (&self.signed, &self.numbers);
        let clear = [third, lines].into_iter().all(|area| area.iter().all(|&x| x == 0)) && claimed.iter().all(|&x| x == 0);
        clear && held(result, &results.numbers) && held(first, &results.numerators) && held(second, &results.denominators)
    }
}

/// An area holds a list and zeros behind it.
fn held<T: Copy + Default + PartialEq>(area: &[T], list: &[T]) -> bool {
    area.starts_with(list) && area[list.len()..].iter().all(|&x| x == T::default())
}

/// What a kernel leaves in its result areas.
#[derive(Default)]
struct Results {
    numbers: Vec<i64>,
    numerators: Vec<usize>,
    denominators: Vec<usize>,
}

/// A graph, a kernel and its parameter: what claims are about.
struct Asked<'a> {
    g: &'a Graph,
    kernel: u64,
    parameter: i64,
}

impl Asked<'_> {
    fn results(&self) -> Result<Results, Refusal> {
        let mut results = Results::default();
        match self.kernel {
            1 => results.numbers = kernels::bfs(self.g, self.parameter)?,
            2 => results.numbers = kernels::wcc(self.g),
            3 => results.numbers = kernels::cdlp(self.g, self.parameter)?,
            _ => (results.numerators, results.denominators) = kernels::lcc(self.g).iter().map(|r| (r.0 as usize, r.1 as usize)).unzip(),
        }
        Ok(results)
    }

    /// What a verdict has to say of a claim, and what the areas hold then.
    fn right(&self, claim: &[u8], room: bool) -> (Result<Verdict, Refusal>, Results) {
        let judged = self.results().and_then(|results| match room {
            true => Ok((claims::verdict(self.g, self.kernel, self.parameter, claim, LIBRARY)?, results)),
            false => Err(plain(8)),
        });
        match judged {
            Ok((verdict, results)) => (Ok(verdict), results),
            Err(refusal) => (Err(refusal), Results::default()),
        }
    }

    /// The lent graph judged with areas of so many places: the answer and every area are right.
    fn judged(&self, dice: &mut Dice, claim: &[u8], places: [usize; 6], at_end: bool) -> Result<Verdict, Refusal> {
        let mut six = Six::of(dice, places, at_end);
        let said = six.judge(&Held::of(self.g, at_end).lent(), self, &Fenced::of(claim, at_end));
        let (right, results) = self.right(claim, places.iter().all(|&k| k >= self.g.ids.len()));
        let (ids, text) = (&self.g.ids[..self.g.ids.len().min(90)], String::from_utf8_lossy(&claim[..claim.len().min(4_000)]));
        let story = || format!("kernel {} {} on {:?}\n{}", self.kernel, self.parameter, ids, text);
        assert_eq!(said, coded(right, 1_000_000_000_000_000), "{}", story());
        assert!(six.hold(&results), "{}", story());
        right
    }
}

/// A coded answer, of the calls at library limits or of the host verdict by its unit.
fn coded(said: Result<Verdict, Refusal>, unit: u64) -> u64 {
    match said {
        Ok(v) => v.number * unit + 3 * (unit / 10) + v.line as u64,
        Err(r) => r.number * unit + r.file * (unit / 10) + r.line,
    }
}

/// How the lines of a claim are put.
const HOW: [&str; 9] = ["in order", "backwards", "shuffled", "doubled", "missing", "surplus", "unknown", "copied", "damaged"];

/// A number that is no identifier, next to one or anywhere.
fn unknown(dice: &mut Dice, ids: &[i64]) -> i64 {
    loop {
        let id = match dice.below(3) {
            0 => dice.pick(ids).wrapping_add(1),
            1 => dice.pick(ids).wrapping_sub(1),
            _ => dice.next() as i64 >> dice.below(64),
        };
        if !ids.contains(&id) {
            return id;
        }
    }
}

/// The identifier of a line with the value of any line.
fn other_value(dice: &mut Dice, id: &str, lines: &[String]) -> String {
    format!("{} {}", id, dice.pick(lines).split_once(' ').unwrap().1)
}

/// Puts the lines so; where the claim gets incomplete by it, at which line. There are two lines at least, but for the first three ways.
fn arrange(dice: &mut Dice, ids: &[i64], lines: &mut Vec<String>, how: &str) -> Option<usize> {
    let before = *dice.pick(&HOW[..3]);
    match how {
        "in order" => (),
        "backwards" => lines.reverse(),
        "shuffled" => dice.shuffle(lines),
        _ => _ = arrange(dice, ids, lines, before),
    }
    let (i, j, at) = (dice.below(lines.len()), dice.below(lines.len()), dice.below(lines.len() + 1));
    match how {
        "doubled" => {
            let again = if dice.one_in(2) { lines[i].clone() } else { other_value(dice, lines[i].split(' ').next().unwrap(), lines) };
            lines.insert(at, again);
            Some(at.max(i + usize::from(i >= at)) + 1)
        }
        "missing" => {
            lines.remove(i);
            Some(lines.len() + 1)
        }
        "surplus" => {
            let id = unknown(dice, ids).to_string();
            lines.insert(at, other_value(dice, &id, lines));
            Some(at + 1)
        }
        "unknown" => {
            let id = unknown(dice, ids).to_string();
            lines[i] = other_value(dice, &id, lines);
            Some(i + 1)
        }
        "copied" if i != j => {
            lines[i] = lines[j].clone();
            Some(i.max(j) + 1)
        }
        _ => None,
    }
}

/// How often each way of putting lines and each outcome of each kernel came up: a match, incomplete, wrong, refused, without room. And how
/// often, of BFS and CDLP, a line at fault stood before the one reported.
#[derive(Default)]
struct Tally {
    how: [usize; 9],
    outcomes: [[usize; 5]; 4],
    late: usize,
}

impl Tally {
    fn count(&mut self, how: usize, kernel: u64, said: Result<Verdict, Refusal>) {
        let outcome = match said {
            Ok(v) => [0, 20, 21].iter().position(|&number| number == v.number).unwrap(),
            Err(r) => 3 + usize::from(r.number == 8),
        };
        self.how[how] += 1;
        self.outcomes[kernel as usize - 1][outcome] += 1;
    }

    fn print(&self, cases: u64) {
        let [matched, incomplete, wrong, refused, short] = [0, 1, 2, 3, 4].map(|k| self.outcomes.iter().map(|row| row[k]).sum::<usize>());
        println!(
            "orders: {} claims by both calls, {} match, {} incomplete, {} wrong ({} not at their first line at fault), {} refused, \
            {} without room; the engine and the independent implementation agree",
            cases, matched, incomplete, wrong, self.late, refused, short
        );
        let all = self.how.iter().chain(self.outcomes.iter().flatten()).chain([&self.late]);
        assert!(cases < 10_000 || all.into_iter().all(|&count| count > 20), "{:?} {:?} {}", self.how, self.outcomes, self.late);
    }
}

/// Whether a line before the one reported has a value that is not the result's.
fn at_fault_before(asked: &Asked<'_>, lines: &[String], line: usize) -> bool {
    let results = asked.results().unwrap_or_default().numbers;
    lines[..line - 1].iter().any(|text| {
        let words: Vec<i64> = text.split_whitespace().map(|word| word.parse().unwrap()).collect();
        results[asked.g.ids.iter().position(|&id| id == words[0]).unwrap()] != words[1]
    })
}

/// Other orders of a complete claim, by both calls: a verdict stays, and its vertex.
fn law(dice: &mut Dice, asked: &Asked<'_>, lines: &[String], said: Verdict, verdict: &dyn Fn(&[u8]) -> u64, at_end: bool) {
    let mut other = lines.to_vec();
    dice.shuffle(&mut other);
    let claim = other.concat().into_bytes();
    let now = asked.judged(dice, &claim, [asked.g.ids.len(); 6], at_end).unwrap();
    assert_eq!(verdict(&claim), coded(Ok(now), 1_000_000));
    let vertex = |lines: &[String], v: Verdict| v.line.checked_sub(1).map(|i| lines[i].clone());
    assert_eq!((now.number, vertex(&other, now)), (said.number, vertex(lines, said)), "{:?} and {:?}", lines, other);
}

/// One claim, judged on the files by the one call and on the loaded graph by the other.
fn one(seed: u64, tally: &mut Tally) {
    let (mut dice, at_end) = (Dice::new(seed), seed % 2 == 0);
    let dice = &mut dice;
    let l = inputs::lists(dice);
    let g = &lists::load(l.mode, &l.vertices, &l.edges, DESK, lists::ROOM_ENOUGH).unwrap();
    let (n, kernel) = (g.ids.len(), 1 + dice.below(4) as u64);
    let parameter = if kernel == 1 && n > 0 { *dice.pick(&g.ids) } else { dice.below(4) as i64 };
    let asked = Asked { g, kernel, parameter };
    let mut lines = inputs::claim_lines(dice, g, kernel, parameter);
    let how = dice.below(if lines.len() < 2 { 3 } else { HOW.len() });
    let incomplete = arrange(dice, &g.ids, &mut lines, HOW[how]);
    let mut claim = lines.concat().into_bytes();
    if HOW[how] == "damaged" {
        (0..1 + dice.below(2)).for_each(|_| inputs::damage(dice, &mut claim));
    }

    let verdict = |claim: &[u8]| {
        let (vertices, edges) = (Fenced::of(&l.vertices, at_end), Fenced::of(&l.edges, at_end));
        calls::verdict(&vertices, &edges, &Fenced::of(claim, at_end), l.mode, kernel, parameter)
    };
    let mut places = [0; 6].map(|_| n + dice.below(6).saturating_sub(3));
    if n > 0 && dice.one_in(16) {
        let short = dice.below(6);
        places[short] = n - 1;
    }
    let said = asked.judged(dice, &claim, places, at_end);
    tally.count(how, kernel, said);
    let right = asked.right(&claim, true).0;
    assert_eq!(verdict(&claim), coded(right, 1_000_000), "{}", String::from_utf8_lossy(&claim));

    if let (Ok(v), true) = (right, HOW[how] != "damaged") {
        assert!(incomplete.map_or(v.number != 20, |line| (v.number, v.line) == (20, line)), "{} gave {:?} of {:?}", HOW[how], v, lines);
        if v.number != 20 {
            law(dice, &asked, &lines, v, &verdict, at_end);
        }
        tally.late += usize::from(v.number == 21 && kernel % 2 == 1 && at_fault_before(&asked, &lines, v.line));
    }
}

/// A graph of so many vertices with a few arcs each, its identifiers far apart.
fn large(dice: &mut Dice, n: usize) -> Graph {
    let step = u64::MAX / n as u64;
    let ids = (0..n).map(|v| (i64::MIN as i128 + (v as u64 * step + dice.next() % step) as i128) as i64).collect();
    let mut out: Vec<Vec<usize>> = (0..n).map(|_| (0..dice.below(4)).map(|_| dice.below(n)).collect()).collect();
    let mut into = vec![Vec::new(); n];
    for (v, part) in out.iter_mut().enumerate() {
        part.retain(|&w| w != v);
        part.sort_unstable();
        part.dedup();
        part.iter().for_each(|&w| into[w].push(v));
    }
    Graph { ids, out, into }
}

/// The lines of a right claim, in vertex order.
fn right_lines(asked: &Asked<'_>) -> Vec<String> {
    let results = asked.results().unwrap_or_default();
    let fractions = results.numerators.iter().zip(&results.denominators).map(|(&a, &b)| format!("{:.12}", a as f64 / b as f64));
    let values = results.numbers.iter().map(i64::to_string).chain(fractions);
    asked.g.ids.iter().zip(values).map(|(id, value)| format!("{} {}\n", id, value)).collect()
}

/// A claim of very many lines put in each way, once right and once with two values wrong. A line more than there can be is refused.
fn many(seed: u64, n: usize, kernel: u64) {
    let (mut dice, at_end) = (Dice::new(seed), seed % 2 == 0);
    let dice = &mut dice;
    let g = &large(dice, n);
    let asked = Asked { g, kernel, parameter: if kernel == 1 { g.ids[n / 2] } else { 3 } };
    let right = right_lines(&asked);
    for (how, wrong) in HOW[..8].iter().flat_map(|how| [(how, 0), (how, 2)]) {
        let mut lines = right.clone();
        for v in [dice.below(n), dice.below(n)].into_iter().take(wrong) {
            lines[v] = format!("{} 1234567\n", g.ids[v]);
        }
        let line = arrange(dice, &g.ids, &mut lines, how);
        let said = asked.judged(dice, lines.concat().as_bytes(), [n; 6], at_end).map(|v| (v.number, v.line));
        match line {
            _ if lines.len() > 65_536 => assert_eq!(said.unwrap_err(), at(1, 3, 65_537)),
            Some(line) => assert_eq!(said, Ok((20, line))),
            None => assert_eq!(said.unwrap().0, if wrong == 0 { 0 } else { 21 }),
        }
    }
}

fn main() {
    let cases = std::env::args().nth(1).map_or(12_000, |word| word.parse().unwrap());
    let mut tally = Tally::default();
    (0..cases).for_each(|seed| one(seed, &mut tally));
    tally.print(cases);
    for (seed, n, kernel) in [(1, 65_536, 1), (2, 65_536, 3), (3, 65_536, 4), (4, 4_096, 2), (5, 65_535, 1)] {
        many(seed, n, kernel);
    }
}
