//! The listing of a record's haplotypes. The Rust has no such call: this one is written apart from the definitions and
//! from the model, and stores every path's string.
use crate::record::{edges, put_u32, sequences};

const MOST_PATHS: usize = 1024;

/// How many strings there are, the offset and length of each, and the strings. None: there are more than 1,024 paths.
pub fn listing(record: &[u8]) -> Option<Vec<u8>> {
    let mut strings = path_strings(record)?;
    strings.sort();
    strings.dedup();
    let mut out = vec![];
    put_u32(&mut out, strings.len());
    let mut at = 4 + 8 * strings.len();
    for s in &strings {
        put_u32(&mut out, at);
        put_u32(&mut out, s.len());
        at += s.len();
    }
    strings.iter().for_each(|s| out.extend(s));
    Some(out)
}

/// What each end-to-end path spells. None: there are more than 1,024; they are not counted further.
fn path_strings(record: &[u8]) -> Option<Vec<Vec<u8>>> {
    let sequences = sequences(record);
    let mut followers = vec![vec![]; sequences.len()];
    let mut entered = vec![false; sequences.len()];
    for e in edges(record) {
        followers[e.from].push(e.to);
        entered[e.to] = true;
    }
    let mut found = vec![];
    for start in (0..sequences.len()).filter(|&v| !entered[v]) {
        // The path so far, with how many followers of each vertex were taken, and what it spells.
        let mut path = vec![(start, 0)];
        let mut spelled = sequences[start].to_vec();
        while let Some((v, taken)) = path.last_mut() {
            if let Some(&next) = followers[*v].get(*taken) {
                *taken += 1;
                path.push((next, 0));
                spelled.extend(sequences[next]);
                continue;
            }
            if followers[*v].is_empty() {
                if found.len() == MOST_PATHS {
                    return None;
                }
                found.push(spelled.clone());
            }
            spelled.truncate(spelled.len() - sequences[*v].len());
            path.pop();
        }
    }
    Some(found)
}
