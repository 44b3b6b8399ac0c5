//! A recall traced, a list refused, a claim judged, and a group book kept.

use trace_engine::{verdict, Book, Graph, Kernel, Mode, Refusal};

const LOTS: &[u8] = b"101\n102\n103\n201\n202\n203\n301\n302\n303\n";
const TRANSFERS: &[u8] = b"101 201\n102 201\n102 202\n103 203\n201 301\n202 302\n203 303\n";

fn main() -> Result<(), Refusal> {
    let graph = Graph::load(Mode::Directed, LOTS, TRANSFERS)?;
    println!("{} lots, {} transfers", graph.identifiers().len(), graph.arcs());
    for (lot, depth) in graph.identifiers().iter().zip(graph.depths(102)?) {
        match depth {
            i64::MAX => println!("{}: nothing of vat 102 got here", lot),
            hops => println!("{}: {} transfers from vat 102", lot, hops),
        }
    }
    for (lot, group) in graph.identifiers().iter().zip(graph.components()?) {
        println!("{}: group of {}", lot, group);
    }

    let refused = Graph::load(Mode::Undirected, LOTS, b"101 201\n202 102\n").unwrap_err();
    println!("refused: {}", refused);

    let claim = b"101 1\n102 1\n103 1\n201 1\n202 1\n203 1\n301 1\n302 1\n303 1\n";
    println!("the claim that all hang together: {:?}", verdict(Mode::Directed, LOTS, TRANSFERS, Kernel::Wcc, claim)?);
    let backwards = b"303 1\n302 1\n301 1\n203 1\n202 1\n201 1\n103 1\n102 1\n101 1\n";
    println!("the same claim, written backwards: {:?}", graph.judge(Kernel::Wcc, backwards)?);

    let mut book = Book::open(4)?;
    for (u, v) in [(0, 1), (2, 3), (1, 3), (0, 2)] {
        println!("join {} and {}: {}", u, v, if book.join(u, v)? { "merged" } else { "of one group already" });
    }
    println!("{} group, of {}; the head of 3 is {:?}", book.count()?, book.size(3)?, book.head(3)?);
    Ok(())
}
