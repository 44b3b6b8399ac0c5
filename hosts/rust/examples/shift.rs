//! Two clerks enter the same slips of a shift in different orders. What their books tell of groups agrees; the heads, which only name the
//! groups within one book, need not, and are not to be compared.

use trace_engine::{Book, Refusal};

/// The book of a clerk who enters these slips.
fn entered(slips: &[(usize, usize)]) -> Result<Book, Refusal> {
    let mut book = Book::open(7)?;
    for &(u, v) in slips {
        book.join(u, v)?;
    }
    Ok(book)
}

fn main() -> Result<(), Refusal> {
    let one = entered(&[(0, 1), (2, 3), (1, 2), (4, 5)])?;
    let other = entered(&[(5, 4), (1, 2), (4, 5), (3, 2), (1, 0), (2, 3)])?;
    for (clerk, book) in [("one clerk", &one), ("the other", &other)] {
        println!("{}: {} groups; lots 0 and 3 in one: {}; lots 0 and 4: {}", clerk, book.count()?, book.same(0, 3)?, book.same(0, 4)?);
        for lot in 0..7 {
            let (head, moves) = book.head(lot)?;
            let (size, limit) = (book.size(lot)?, book.step_limit(lot)?);
            println!("  lot {}: a group of {}, step limit {}; its head is {} (moves: {})", lot, size, limit, head, moves);
        }
    }
    let told = |book: &Book, lot: usize| (book.size(lot), book.step_limit(lot), [0, 1, 2, 3, 4, 5, 6].map(|u| book.same(u, lot)));
    println!("the lists agree: {}", one.count() == other.count() && (0..7).all(|lot| told(&one, lot) == told(&other, lot)));
    Ok(())
}
