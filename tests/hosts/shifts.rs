//! shifts [CASES]: the order of entry (change K11), through the host calls. The slips of a random shift are entered by two clerks, each in
//! an order of their own, either way round, with repeats, refused slips and questions between, in areas of any content between pages that
//! may not be touched. Every same-group, group-size, group-count and step-limit call answers alike in both books, and what the pairs alone
//! say; and no call but an opening turns a "same group" into "apart".

mod fence;

use fence::Fenced;
use reference::dice::Dice;
use reference::groups::groups;
use trace_engine::calls;

const REFUSAL: u64 = 1_000_000_000_000_000;
const NO_ROOM: u64 = 8 * REFUSAL;
const NOT_THERE: u64 = 10 * REFUSAL;

type Pair = (usize, usize);

/// A clerk's book, and some pairs that are watched: whether they were of one group at the last look.
struct Clerk {
    dice: Dice,
    book: Fenced<i64>,
    watched: Vec<(Pair, bool)>,
}

impl Clerk {
    /// An area of any content, opened.
    fn new(seed: u64, n: usize, at_end: bool) -> Clerk {
        let mut dice = Dice::new(seed);
        let content: Vec<i64> = (0..n).map(|_| dice.next() as i64 >> dice.below(64)).collect();
        let watched = (0..12 * n.min(1)).map(|_| ((dice.below(n), dice.below(n)), false)).collect();
        let mut clerk = Clerk { dice, book: Fenced::of(&content, at_end), watched };
        clerk.open();
        clerk
    }

    fn open(&mut self) {
        assert_eq!(calls::book_open(&mut self.book), 0);
        self.watched.iter_mut().for_each(|(_, same)| *same = false);
    }

    /// No watched pair has come apart.
    fn look(&mut self) {
        for ((u, v), same) in &mut self.watched {
            let now = calls::book_same(&self.book, *u, *v) == 1;
            assert!(now || !*same, "{} and {} came apart in {:?}", u, v, &self.book[..]);
            *same = now;
        }
    }

    /// A slip, either way round; a join of two vertices is accepted.
    fn enter(&mut self, (u, v): Pair) {
        let (u, v) = if self.dice.one_in(2) { (u, v) } else { (v, u) };
        let apart = calls::book_same(&self.book, u, v) == 0;
        assert_eq!(calls::book_join(&mut self.book, u, v), u64::from(apart));
        self.look();
    }

    /// A question, or a slip with a number that is no vertex: nothing changes.
    fn interrupt(&mut self) {
        let (n, before) = (self.book.len(), self.book.to_vec());
        let (some, none) = (self.dice.below(n + 1), self.dice.beyond(n));
        match self.dice.below(7) {
            0 => assert_eq!(calls::book_join(&mut self.book, some, none), NOT_THERE),
            1 => assert_eq!(calls::book_join(&mut self.book, none, some), NOT_THERE),
            2 => _ = calls::book_head(&self.book, some),
            3 => _ = calls::book_same(&self.book, some, none),
            4 => _ = calls::book_size(&self.book, some),
            5 => _ = calls::book_limit(&self.book, some),
            _ => _ = calls::book_count(&self.book),
        }
        assert_eq!(&self.book[..], &before[..]);
        self.look();
    }

    /// The slips of a shift: each once at least, in any order; before them, at times, others, and a new opening.
    fn shift(&mut self, pairs: &[Pair]) {
        let n = self.book.len();
        if n > 0 && self.dice.one_in(4) {
            for _ in 0..self.dice.below(n) {
                let pair = (self.dice.below(n), self.dice.below(n));
                self.enter(pair);
            }
            self.open();
        }
        let mut slips = pairs.to_vec();
        for _ in 0..self.dice.below(pairs.len() + 1) {
            slips.push(*self.dice.pick(pairs));
        }
        self.dice.shuffle(&mut slips);
        for slip in slips {
            while self.dice.one_in(4 + n / 64) {
                self.interrupt();
            }
            self.enter(slip);
        }
    }
}

/// What the size and step limit calls answer.
fn readings(book: &[i64], v: usize) -> (u64, u64) {
    (calls::book_size(book, v), calls::book_limit(book, v))
}

/// The four calls answer alike, and what the pairs say.
fn agree(one: &[i64], other: &[i64], pairs: &[Pair], dice: &mut Dice) {
    let n = one.len();
    let group = groups(n, pairs);
    let mut sizes = vec![0; n];
    group.iter().for_each(|&g| sizes[g] += 1);
    let count = sizes.iter().filter(|&&size| size > 0).count() as u64;
    assert_eq!((calls::book_count(one), calls::book_count(other)), (count, count), "{:?}", pairs);
    for v in 0..n {
        let size: u64 = sizes[group[v]];
        let limit = (0..64).take_while(|&k| 1 << k <= size).last().unwrap();
        assert_eq!((readings(one, v), readings(other, v)), ((size, limit), (size, limit)), "{} of {:?}", v, pairs);
    }
    let asked: Vec<Pair> = match n {
        0..=64 => (0..n * n).map(|i| (i / n, i % n)).collect(),
        _ => (0..200_000).map(|_| (dice.below(n), dice.below(n))).collect(),
    };
    for (u, v) in asked {
        let same = u64::from(group[u] == group[v]);
        assert_eq!((calls::book_same(one, u, v), calls::book_same(other, u, v)), (same, same), "{} and {} of {:?}", u, v, pairs);
    }
    let (some, none) = (dice.below(n + 1), dice.beyond(n));
    for book in [one, other] {
        assert_eq!(readings(book, none), (NOT_THERE, NOT_THERE));
        assert_eq!((calls::book_same(book, some, none), calls::book_same(book, none, some)), (NOT_THERE, NOT_THERE));
    }
}

/// A shift of so many random slips in a book of n, entered twice; whether some head differs.
fn shift(seed: u64, n: usize, slips: usize) -> bool {
    let mut dice = Dice::new(seed);
    let pairs: Vec<Pair> = (0..slips * n.min(1)).map(|_| (dice.below(n), dice.below(n))).collect();
    let mut one = Clerk::new(dice.next(), n, seed % 2 == 0);
    let mut other = Clerk::new(dice.next(), n, seed % 2 == 1);
    one.shift(&pairs);
    other.shift(&pairs);
    agree(&one.book, &other.book, &pairs, &mut dice);
    (0..n).any(|v| calls::book_head(&one.book, v) != calls::book_head(&other.book, v))
}

fn main() {
    let cases = std::env::args().nth(1).map_or(24_000, |word| word.parse().unwrap());
    let differ = (0..cases).filter(|&seed| shift(seed, seed as usize % 42, Dice::new(seed + 7).below(60))).count();
    println!("shifts: {} entered in two orders, the books agree; heads or walks differed in {}", cases, differ);
    assert!(differ > 0 || cases < 10, "no order made a difference to the heads");

    // the largest book: many groups, one large among small ones, and one
    for (seed, slips) in [(1, 20_000), (2, 40_000), (3, 120_000), (4, 600_000)] {
        assert!(shift(seed, 65_536, slips));
    }

    // one place too many: neither area opens, and each of the four calls is 8 in both, before 10
    for mut long in [vec![-1; 65_537], (0..65_537).collect::<Vec<i64>>()] {
        let before = long.clone();
        assert_eq!((calls::book_open(&mut long), calls::book_join(&mut long, 0, 1), calls::book_count(&long)), (NO_ROOM, NO_ROOM, NO_ROOM));
        for (u, v) in [(0, 1), (0, 65_537), (65_537, 0)] {
            assert_eq!((readings(&long, v), calls::book_same(&long, u, v)), ((NO_ROOM, NO_ROOM), NO_ROOM));
        }
        assert_eq!(long, before);
    }
}
