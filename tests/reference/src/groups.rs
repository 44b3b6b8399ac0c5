//! The groups of a book by its pairs alone, without parents and heads: "a chain of joins accepted in that series links them".

/// Of each of n vertices the smallest one that a chain of these pairs links it with.
pub fn groups(n: usize, pairs: &[(usize, usize)]) -> Vec<usize> {
    let mut beside = vec![Vec::new(); n];
    for &(u, v) in pairs {
        beside[u].push(v);
        beside[v].push(u);
    }
    let mut group = vec![n; n];
    for first in 0..n {
        let mut open = if group[first] == n { vec![first] } else { Vec::new() };
        while let Some(v) = open.pop() {
            if group[v] == n {
                group[v] = first;
                open.extend(&beside[v]);
            }
        }
    }
    group
}
