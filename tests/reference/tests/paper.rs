//! The paper's own examples.

use reference::dice::Dice;
use reference::groups::groups;
use reference::places::{self, Form};
use reference::{at, book::Book, claims, kernels, lists, plain, sheet, two_areas, Refusal, DESK, LIBRARY};

const SHEET: &str = "directed\n5\n-3\n2\n5\n9\n20\n5\n2 5\n2 9\n5 2\n5 9\n9 20\n4\nbfs 2\nwcc\ncdlp 2\nlcc\n";

fn graph() -> lists::Graph {
    lists::load(1, b"-3\n2\n5\n9\n20\n", b"2 5\n2 9\n5 2\n5 9\n9 20\n", DESK, lists::ROOM_ENOUGH).unwrap()
}

#[test]
fn the_sheet_prints_what_the_paper_shows() {
    let shown = "bfs 2\n5\n-3 9223372036854775807\n2 0\n5 1\n9 1\n20 2\n\
        wcc\n5\n-3 -3\n2 2\n5 2\n9 2\n20 2\n\
        cdlp 2\n5\n-3 -3\n2 2\n5 5\n9 2\n20 2\n\
        lcc\n5\n-3 0/1\n2 1/2\n5 1/2\n9 1/3\n20 0/1\n";
    assert_eq!(sheet::output(SHEET.as_bytes()), shown);
}

#[test]
fn identifiers_p1_to_p3() {
    assert_eq!(lists::ident(b"-9223372036854775808"), lists::Ident::Value(i64::MIN));
    assert_eq!(lists::ident(b"9223372036854775808"), lists::Ident::Outside);
    for word in [&b"-0"[..], b"+1", b"007", b"", b"-", b"1 "] {
        assert_eq!(lists::ident(word), lists::Ident::Malformed);
    }
}

#[test]
fn one_round_of_cdlp_p8() {
    assert_eq!(kernels::cdlp(&graph(), 1).unwrap(), [-3, 5, 2, 2, 9]);
}

#[test]
fn coefficients_on_the_line_p9_p10() {
    let close = |a, b, text: &str| claims::close(a, b, claims::decimal(text.as_bytes()).unwrap());
    assert!(close(1, 2, "0.50005") && !close(1, 2, "0.500051"));
    assert!(close(1, 3, "0.3333") && !close(1, 3, "0.3332999"));
    assert!(close(0, 1, "0.0e-99") && !close(0, 1, "1e-99") && close(1, 1, "1000000e-06"));
}

#[test]
fn seventeen_digits_k1() {
    let decimal = |text: &str| claims::decimal(text.as_bytes());
    assert_eq!(decimal("2.476533217845853e-08"), Some(claims::Decimal { digits: 2_476_533_217_845_853, up: 0, down: 23 }));
    assert_eq!(decimal("99999999999999999e+99"), Some(claims::Decimal { digits: 99_999_999_999_999_999, up: 99, down: 0 }));
    for long in ["100000000000000000", "0.12345678901234567", "1.00000000000000000e+00"] {
        assert_eq!(decimal(long), None);
    }
}

#[test]
fn labels_p11() {
    assert_eq!(claims::first_unlike(&[1, 1, 2], &[7, 7, 3]), None);
    assert_eq!(claims::first_unlike(&[1, 1, 2], &[7, 7, 7]), Some(2));
    let said = |claim: &[u8]| claims::host_verdict(b"1\n2\n3\n", b"1 2\n", claim, 1, 2, 0);
    assert_eq!((said(b"1 7\n2 7\n3 3\n"), said(b"1 7\n2 7\n3 7\n")), (300_000, 21_300_003));
}

/// The verdict on a claim about the sheet's graph: its number and its line. A bar stands for each line's end.
fn judged(kernel: u64, parameter: i64, claim: &str) -> (u64, usize) {
    let v = claims::verdict(&graph(), kernel, parameter, claim.replace('|', "\n").as_bytes(), DESK).unwrap();
    (v.number, v.line)
}

/// Lines in any order, each vertex once.
#[test]
fn complete_claims_k7() {
    let far = "-3 9223372036854775807|";
    for depths in [format!("{}2 0|5 1|9 1|20 2|", far), format!("20 2|9 1|5 1|2 0|{}", far), format!("9 1|{}20 2|2 0|5 1|", far)] {
        assert_eq!(judged(1, 2, &depths), (0, 0));
    }
    assert_eq!((judged(3, 2, "5 5|20 2|-3 -3|2 2|9 2|"), judged(4, 0, "9 0.3333|20 0|5 0.5|-3 0|2 0.5|")), ((0, 0), (0, 0)));
    assert_eq!((judged(2, 0, "20 7|-3 8|9 7|5 7|2 7|"), judged(2, 0, "20 2|9 2|5 2|2 2|-3 -3|")), ((0, 0), (0, 0)));

    // of several vertices at fault the smallest, on whatever line it stands
    assert_eq!(judged(1, 2, "20 3|9 2|5 1|2 0|-3 9223372036854775807|"), (21, 2));
    assert_eq!(judged(1, 2, "20 2|9 1|5 1|2 1|-3 0|"), (21, 5));
    assert_eq!(judged(3, 2, "20 1|9 1|-3 1|5 1|2 1|"), (21, 3));
    assert_eq!(judged(4, 0, "9 0.3332999|20 0|5 0.500051|-3 0|2 0.5|"), (21, 3));

    // components -3 and 2 2 2 2: where 20 is split off, it disagrees with 2; where all are merged, 2 disagrees with -3
    assert_eq!((judged(2, 0, "20 1|9 7|5 7|2 7|-3 8|"), judged(2, 0, "2 7|5 7|9 7|20 7|-3 7|")), ((21, 1), (21, 1)));
    // 5 disagrees with 2, whose line comes last
    assert_eq!(judged(2, 0, "20 1|9 1|5 1|-3 8|2 7|"), (21, 3));
}

#[test]
fn incomplete_claims_k7() {
    // one missing, and all
    assert_eq!((judged(1, 2, "20 2|9 1|5 1|2 0|"), judged(4, 0, "")), ((20, 5), (20, 1)));
    // a line twice, at once or at the end; with another line in place of a vertex's
    assert_eq!((judged(3, 2, "5 5|5 5|20 2|-3 -3|2 2|9 2|"), judged(3, 2, "5 5|20 2|-3 -3|2 2|9 2|5 5|")), ((20, 2), (20, 6)));
    assert_eq!((judged(3, 2, "5 5|20 2|5 4|2 2|9 2|"), judged(2, 0, "5 5|5 5|5 5|5 5|5 5|")), ((20, 3), (20, 2)));
    // a vertex that is not there: surplus, or in place of a vertex's line, and before it a line twice or behind it
    assert_eq!((judged(4, 0, "-3 0|2 0|5 0|9 0|20 0|21 0|"), judged(4, 0, "0 0|-3 0|2 0|5 0|9 0|20 0|")), ((20, 6), (20, 1)));
    assert_eq!((judged(2, 0, "2 7|2 7|4 7|"), judged(2, 0, "2 7|4 7|2 7|"), judged(2, 0, "-4 1|")), ((20, 2), (20, 2), (20, 1)));
    // an incomplete claim has no mismatch, and one that is refused is not incomplete
    assert_eq!(judged(1, 2, "20 9|9 9|5 9|2 9|"), (20, 5));
    let refusal = claims::verdict(&graph(), 1, 2, b"7 7\n7 7\n1  1\n", DESK).unwrap_err();
    assert_eq!(refusal, Refusal { number: 2, file: 3, line: 3, column: 3 });
    // an empty graph has the empty claim alone
    assert_eq!((claims::host_verdict(b"", b"", b"", 1, 2, 0), claims::host_verdict(b"", b"", b"1 1\n", 1, 2, 0)), (300_000, 20_300_001));
}

/// The coverage rule, sentence by sentence, on lines that name vertices, some of them twice or unknown.
#[test]
fn coverage_k7() {
    for seed in 0..20_000 {
        let (mut dice, n) = (Dice::new(seed), seed as usize % 7);
        let ids: Vec<i64> = (0..n as i64).collect();
        let mut named = ids.clone();
        dice.shuffle(&mut named);
        named.truncate(n - dice.below(3).min(n));
        for _ in 0..*dice.pick(&[0, 0, 1, 2]) {
            named.insert(dice.below(named.len() + 1), dice.below(n + 2) as i64 - 1);
        }
        let at_fault = (0..named.len()).find(|&i| !ids.contains(&named[i]) || named[..i].contains(&named[i]));
        let right = match at_fault {
            Some(i) => Err(i + 1),
            None if ids.iter().all(|id| named.contains(id)) => Ok(()),
            None => Err(named.len() + 1),
        };
        let lines = claims::lines_of(&ids, &named);
        assert_eq!(lines.as_ref().map(|_| ()).map_err(|&line| line), right, "{:?}", named);
        assert!(lines.map_or(true, |lines| lines.iter().zip(&ids).all(|(&line, &id)| named[line - 1] == id)));
    }
}

/// Another order of a complete claim: the same verdict, of the same vertex.
#[test]
fn another_order_k7() {
    let g = graph();
    for seed in 0..8_000 {
        let (mut dice, kernel) = (Dice::new(seed), 1 + seed % 4);
        let value =
            |dice: &mut Dice| if kernel == 4 { *dice.pick(&["0", "0.5", "0.3333"]) } else { *dice.pick(&["-3", "0", "1", "2", "5"]) };
        let right = [
            ["9223372036854775807", "0", "1", "1", "2"],
            ["1", "2", "2", "2", "2"],
            ["-3", "2", "5", "2", "2"],
            ["0", "0.5", "0.5", "0.3333", "0"],
        ];
        let wrong = *dice.pick(&[0, 1, 2, 5]);
        let mut values = right[kernel as usize - 1];
        (0..wrong).for_each(|_| values[dice.below(5)] = value(&mut dice));
        let mut lines: Vec<String> = g.ids.iter().zip(values).map(|(id, value)| format!("{} {}\n", id, value)).collect();
        let judged = |lines: &[String]| claims::verdict(&g, kernel, 2, lines.concat().as_bytes(), DESK).unwrap();
        let before = judged(&lines);
        let vertex = lines.get(before.line.wrapping_sub(1)).cloned();
        dice.shuffle(&mut lines);
        let now = judged(&lines);
        assert_eq!((now.number, lines.get(now.line.wrapping_sub(1)).cloned()), (before.number, vertex), "{:?}", lines);
        assert!(now.number != 20 && (now.number == 0) == (now.line == 0));
    }
}

/// As many lines as the library takes, backwards: right, with the smallest vertex wrong, with the largest one missing, and one too many.
#[test]
fn many_lines_k7() {
    let vertices = (0..65_536).map(|v| format!("{}\n", v)).collect::<String>();
    let g = lists::load(1, vertices.as_bytes(), b"", LIBRARY, lists::ROOM_ENOUGH).unwrap();
    for kernel in [1, 3, 4] {
        let value = |v: usize| match kernel {
            1 if v > 0 => kernels::UNREACHABLE,
            3 => v as i64,
            _ => 0,
        };
        let claim = |to: usize, wrong: usize| -> String {
            (0..to).rev().map(|v| format!("{} {}\n", v, if v == wrong { 7 } else { value(v) })).collect()
        };
        let judged = |claim: String| claims::verdict(&g, kernel, 0, claim.as_bytes(), LIBRARY).map(|v| (v.number, v.line));
        assert_eq!((judged(claim(65_536, 65_536)), judged(claim(65_536, 0))), (Ok((0, 0)), Ok((21, 65_536))));
        assert_eq!((judged(claim(65_535, 0)), judged(claim(65_537, 0))), (Ok((20, 65_536)), Err(at(1, 3, 65_537))));
    }
}

#[test]
fn four_vertices_p12() {
    let mut book = Book { entries: vec![9; 4] };
    book.open().unwrap();
    assert_eq!(book.entries, [-1, -1, -1, -1]);
    assert_eq!([book.join(0, 1), book.join(2, 3), book.join(1, 3)], [Ok(true), Ok(true), Ok(true)]);
    assert_eq!((&book.entries[..], book.count()), (&[-4, 0, 0, 2][..], Ok(1)));
    let mut two = two_areas::Book { parents: vec![9; 4], sizes: vec![9; 4] };
    two.open().unwrap();
    assert_eq!([two.join(0, 1), two.join(2, 3), two.join(1, 3)], [Ok(true), Ok(true), Ok(true)]);
    assert_eq!((two.count(), two), (Ok(1), two_areas::Book { parents: vec![0, 0, 0, 2], sizes: vec![4, 1, 2, 1] }));
}

/// One call of the seven to both books: they answer alike, and the one area holds the parents and the heads' sizes of the two.
fn books_agree(one: &mut Book, two: &mut two_areas::Book, call: usize, u: usize, v: usize) {
    match call {
        0 => assert_eq!(one.open(), two.open()),
        1 => assert_eq!(one.head(v), two.head(v)),
        2 => assert_eq!(one.same(u, v), two.same(u, v)),
        3 => assert_eq!(one.size(v), two.size(v)),
        4 => assert_eq!(one.count(), two.count()),
        5 => assert_eq!(one.limit(v), two.limit(v)),
        _ => assert_eq!(one.join(u, v), two.join(u, v)),
    }
    let entry = |(v, (&parent, &size)): (usize, (&usize, &usize))| if parent == v { -(size as i64) } else { parent as i64 };
    let entries = two.parents.iter().zip(&two.sizes).enumerate().map(entry);
    assert!(entries.eq(one.entries.iter().copied()), "call {} of {} {}: {:?} {:?}", call, u, v, one, two);
}

/// Series of calls from an opening, over any content before it, with further openings and with vertices that are not there.
#[test]
fn one_area_answers_as_two_k9() {
    for seed in 0..4_100 {
        let (mut dice, n) = (Dice::new(seed), seed as usize % 41);
        let mut one = Book { entries: (0..n).map(|_| dice.next() as i64).collect() };
        let (parents, sizes) = (0..n).map(|_| (dice.next() as usize, dice.next() as usize)).unzip();
        let mut two = two_areas::Book { parents, sizes };
        books_agree(&mut one, &mut two, 0, 0, 0);
        for _ in 0..dice.below(150) {
            let call = if dice.one_in(100) { 0 } else { 1 + dice.below(10) };
            books_agree(&mut one, &mut two, call, dice.below(n + 2), dice.below(n + 2));
        }
    }
    // 65,536 places open; one more is 8 to every call, before 10
    for (n, said) in [(65_536, Ok(())), (65_537, Err(plain(8)))] {
        let mut one = Book { entries: vec![-1; n] };
        let mut two = two_areas::Book { parents: (0..n).collect(), sizes: vec![1; n] };
        assert_eq!(one.open(), said);
        (0..7).for_each(|call| books_agree(&mut one, &mut two, call, 0, n));
    }
}

/// Areas that no series of calls leaves behind.
#[test]
fn damaged_books_k9() {
    let (book, unsound) = (|entries: &[i64]| Book { entries: entries.to_vec() }, plain(9));

    // an entry that names its own place is a parent, and that walk does not end
    let mut own = book(&[-2, 0, 2]);
    assert_eq!((own.head(2), own.same(0, 2), own.size(2), own.limit(2)), (Err(unsound), Err(unsound), Err(unsound), Err(unsound)));
    assert_eq!((own.join(1, 2), own.join(2, 1), own.join(2, 2)), (Err(unsound), Err(unsound), Err(unsound)));
    assert_eq!((own.head(1), own.size(1), own.count(), own), (Ok((0, 1)), Ok(2), Ok(1), book(&[-2, 0, 2])));

    // the least number at a head: 9 where its size is needed, and nowhere else
    let mut least = book(&[i64::MIN, 0, -1]);
    assert_eq!((least.head(1), least.same(0, 1), least.same(1, 2), least.count()), (Ok((0, 1)), Ok(true), Ok(false), Ok(2)));
    assert_eq!((least.size(1), least.limit(1), least.size(2)), (Err(unsound), Err(unsound), Ok(1)));
    assert_eq!((least.join(1, 2), least.join(2, 0), least.join(0, 1)), (Err(unsound), Err(unsound), Ok(false)));
    assert_eq!(least, book(&[i64::MIN, 0, -1]));

    // minus the length is a size, one below it is none
    let (whole, more) = (book(&[-3, 0, -1]), book(&[-4, 0, -1]));
    assert_eq!((whole.size(1), whole.limit(1), more.size(1), more.limit(1)), (Ok(3), Ok(1), Err(unsound), Err(unsound)));

    // sizes that make up the length merge, one more is 9
    let (mut full, mut over) = (book(&[-2, 0, -1]), book(&[-2, 0, -2]));
    assert_eq!((full.join(2, 1), full), (Ok(true), book(&[-3, 0, 0])));
    assert_eq!((over.join(2, 1), over), (Err(unsound), book(&[-2, 0, -2])));

    // the walk from each vertex has as many moves as its number says: 16 are found, 17 are not
    let walks = Book { entries: (-1..17).collect() };
    assert_eq!((walks.head(15), walks.head(16), walks.head(17)), (Ok((0, 15)), Ok((0, 16)), Err(unsound)));
    assert_eq!((walks.same(15, 16), walks.same(16, 17), walks.size(16), walks.size(17)), (Ok(true), Err(unsound), Ok(1), Err(unsound)));

    // a parent at the length, past it, and the largest number: the walk leaves the area
    for outside in [2, 3, i64::MAX] {
        let out = book(&[-1, outside]);
        assert_eq!((out.head(1), out.same(1, 0), out.head(0), out.count()), (Err(unsound), Err(unsound), Ok((0, 0)), Ok(1)));
    }

    // a vertex that isn't there comes before a walk that does not end
    assert_eq!((book(&[0]).join(0, 1), book(&[0]).join(0, 0)), (Err(plain(10)), Err(unsound)));
}

/// A book that held other things, opened, and these slips entered.
fn entered(n: usize, slips: &[(usize, usize)]) -> Book {
    let mut book = Book { entries: vec![7; n] };
    book.open().unwrap();
    for &(u, v) in slips {
        book.join(u, v).unwrap();
    }
    book
}

/// The same pairs in any order, either way round, with repeats: heads and walks may differ, what is told of groups does not, and is what
/// the pairs alone say.
#[test]
fn order_of_entry_k11() {
    let (one, other) = (entered(3, &[(0, 1), (1, 2)]), entered(3, &[(2, 1), (1, 0), (1, 2)]));
    assert_eq!([one.head(0), one.head(1), one.head(2)], [Ok((0, 0)), Ok((0, 1)), Ok((0, 1))]);
    assert_eq!([other.head(0), other.head(1), other.head(2)], [Ok((1, 1)), Ok((1, 0)), Ok((1, 1))]);
    for book in [one, other] {
        assert_eq!((book.same(0, 2), book.size(0), book.count(), book.limit(2)), (Ok(true), Ok(3), Ok(1), Ok(1)));
        assert_eq!((book.same(0, 3), book.size(3), book.limit(3)), (Err(plain(10)), Err(plain(10)), Err(plain(10))));
    }
    for seed in 0..2_000 {
        let (mut dice, n) = (Dice::new(seed), 1 + seed as usize % 30);
        let pairs: Vec<(usize, usize)> = (0..dice.below(2 * n)).map(|_| (dice.below(n), dice.below(n))).collect();
        let group = groups(n, &pairs);
        let size = |v: usize| (0..n).filter(|&u| group[u] == group[v]).count();
        let mut slips: Vec<(usize, usize)> = pairs.iter().flat_map(|&(u, v)| [(u, v), (v, u)]).collect();
        dice.shuffle(&mut slips);
        for book in [entered(n, &pairs), entered(n, &slips)] {
            assert_eq!(book.count(), Ok((0..n).filter(|&v| group[v] == v).count()));
            for v in 0..n {
                assert_eq!((book.size(v), book.limit(v)), (Ok(size(v)), Ok((size(v) as f64).log2() as usize)));
                (0..n).for_each(|u| assert_eq!(book.same(u, v), Ok(group[u] == group[v])));
            }
        }
    }
}

#[test]
fn columns_k2() {
    use Form::{Coefficient, Pair, Vertex};
    let examples: &[(Form, &[u8], (u64, u64))] = &[
        (Vertex, b"\n", (2, 1)),
        (Vertex, b"12", (2, 3)),
        (Vertex, b"12\t\n", (2, 3)),
        (Vertex, b"1 2\n", (2, 2)),
        (Vertex, b"-0\n", (2, 2)),
        (Vertex, b"-\n", (2, 2)),
        (Vertex, b"00\n", (2, 2)),
        (Vertex, b"007\n", (2, 2)),
        (Vertex, b"+1\n", (2, 1)),
        (Vertex, b"12\r\n", (2, 3)),
        (Vertex, b"12\0\n", (2, 3)),
        (Vertex, b"\xff\n", (2, 1)),
        (Vertex, b"99999999999999999999x\n", (2, 21)),
        (Vertex, b"99999999999999999999\n", (3, 0)),
        (Vertex, b"99999999999999999999", (2, 21)),
        (Vertex, b"12\n", (0, 0)),
        (Pair, b"\n", (2, 1)),
        (Pair, b"7\n", (2, 2)),
        (Pair, b"7", (2, 2)),
        (Pair, b"7 \n", (2, 3)),
        (Pair, b"7  8\n", (2, 3)),
        (Pair, b"7\t8\n", (2, 2)),
        (Pair, b"7 8 9\n", (2, 4)),
        (Pair, b"7 8 \n", (2, 4)),
        (Pair, b"7 8\r\n", (2, 4)),
        (Pair, b" 7 8\n", (2, 1)),
        (Pair, b"9223372036854775808 02\n", (2, 22)),
        (Pair, b"9223372036854775808 2\n", (3, 0)),
        (Coefficient, b"7 \n", (2, 3)),
        (Coefficient, b"7 .5\n", (2, 3)),
        (Coefficient, b"7 -1\n", (2, 3)),
        (Coefficient, b"7 1.\n", (2, 5)),
        (Coefficient, b"7 01\n", (2, 4)),
        (Coefficient, b"7 1.2.3\n", (2, 6)),
        (Coefficient, b"7 1e5\n", (2, 5)),
        (Coefficient, b"7 1e+5\n", (2, 7)),
        (Coefficient, b"7 12345678901234567.\n", (2, 20)),
        (Coefficient, b"7 12345678901234567e+00\n", (0, 0)),
        (Coefficient, b"7 1.23456789012345678\n", (2, 21)),
        (Coefficient, b"9223372036854775808 1.\n", (2, 23)),
    ];
    for &(form, file, said) in examples {
        assert_eq!(places::fault(form, &lists::lines(file)[0]), said, "{:?} {:?}", form, String::from_utf8_lossy(file));
    }
}

/// The four numbers of a refused sheet, load, job and claim; the host call's number has no column.
#[test]
fn four_numbers_k2() {
    assert_eq!(sheet::output(b"directed\n1\n1\t\n0\n0\n"), "refused 2 1 1 2\n");
    assert_eq!(sheet::output(b"directed\n2\n1\n2\n1\n1  2\n0\n"), "refused 2 2 1 3\n");
    assert_eq!(sheet::output(b"directed\n1\n1\n0\n2\nbfs 2\nwcc\n"), "refused 10 0 0 0\nwcc\n1\n1 1\n");
    assert_eq!(sheet::output(b"directed\n1\n1\n0\n1\nwcc"), "refused 2 4 6 0\n");
    let refusal = |claim: &[u8]| claims::verdict(&graph(), 4, 0, claim, DESK).unwrap_err();
    assert_eq!(refusal(b"-3 0\n2 1.\n"), Refusal { number: 2, file: 3, line: 2, column: 5 });
    assert_eq!(refusal(b"-3 0\n9223372036854775808 1\n"), Refusal { number: 3, file: 3, line: 2, column: 0 });
    assert_eq!(claims::host_verdict(b"1\n", b"", b"1\t1\n", 1, 2, 0), 2_300_001);
}

/// Whether the bytes can go on to a good line, by trying ends: wherever a good line is cut, one of these can follow. Which line is good,
/// the test of a whole line's form says, which knows no columns.
fn goes_on(form: Form, front: &[u8]) -> bool {
    [&b""[..], b"\n", b"0\n", b"1\n", b"00\n", b"+00\n", b" 0\n", b"1 0\n"].into_iter().any(|end| {
        let file = [front, end].concat();
        let line = &lists::lines(&file)[..];
        line.len() == 1 && line[0].ended && places::fault(form, &line[0]).0 != 2
    })
}

/// All lines that begin so and have up to so many bytes more: the column by the table is the one by trying. `bad` is the column where the
/// front part goes wrong, if it does.
fn columns_agree(form: Form, front: &mut Vec<u8>, bad: Option<u64>, more: usize) {
    let bad = bad.or_else(|| if goes_on(form, front) { None } else { Some(front.len() as u64) });
    let ended = front.last() == Some(&b'\n');
    let at_end = if ended { 0 } else { front.len() as u64 + 1 };
    if !front.is_empty() {
        let line = lists::Line { bytes: &front[..front.len() - usize::from(ended)], ended };
        assert_eq!(places::column(form, &line), bad.unwrap_or(at_end), "{:?} {:?}", form, String::from_utf8_lossy(front));
        assert_eq!(places::fault(form, &line).0 == 2, !ended || bad.is_some());
    }
    if more > 0 && !ended {
        for &byte in b"019-.e+ \t\n" {
            front.push(byte);
            columns_agree(form, front, bad, more - 1);
            front.pop();
        }
    }
}

#[test]
fn columns_by_trying() {
    let fronts: [&[u8]; 8] =
        [b"", b"-9", b"7 ", b"7 1e", b"7 123456789012345", b"7 0.12345678901234", b"7 12345678901234.5", b"99999999999999999999 "];
    for form in [Form::Vertex, Form::Pair, Form::Coefficient] {
        for front in fronts {
            let bad = (1..front.len()).find(|&k| !goes_on(form, &front[..k])).map(|k| k as u64);
            columns_agree(form, &mut front.to_vec(), bad, if front.is_empty() { 5 } else { 4 });
        }
    }
}
