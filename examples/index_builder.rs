//! An index builder: four threads load pairs of a term and a document, and a reader counts the
//! documents of a term while they load.
//!
//! A key is the term in the high bits and the document in the low bits. So the documents of a term
//! are one range of keys. Each loader attaches a worker of its own, because it makes many calls. A
//! set has a fixed number of nodes: a key that is only inserted takes two, and the set itself five.

use nm_set::{Fault, Set};
use std::thread::scope;

const LOADERS: u64 = 4;
const DOCUMENTS: u64 = 20_000;
const TERMS: u64 = 250;

/// The terms of a document, each once.
fn terms_of(document: u64) -> [u64; 3] {
    [
        document % 7,
        7 + document % 11,
        18 + document * document % (TERMS - 18),
    ]
}

fn key_of(term: u64, document: u64) -> u64 {
    term << 32 | document
}

struct Index {
    pairs: Set,
}

impl Index {
    fn new(pairs: u32) -> Result<Index, Fault> {
        Ok(Index {
            pairs: Set::with_nodes(2 * pairs + 5)?,
        })
    }

    /// Loads every fourth document, by one worker. Fails with `Full` if there are too many pairs.
    fn load(&self, part: u64) -> Result<(), Fault> {
        let mut worker = self.pairs.attach()?;
        for document in (part..DOCUMENTS).step_by(LOADERS as usize) {
            for term in terms_of(document) {
                worker.insert(key_of(term, document))?;
            }
        }
        Ok(())
    }

    /// Iterates over the documents of a term. One that is loaded meanwhile may be left out.
    fn documents(&self, term: u64) -> impl Iterator<Item = Result<u64, Fault>> + '_ {
        let pairs = self.pairs.range(key_of(term, 0)..key_of(term + 1, 0));
        pairs.map(|pair| pair.map(|key| key % (1 << 32)))
    }

    fn count(&self, term: u64) -> Result<usize, Fault> {
        self.documents(term)
            .try_fold(0, |count, document| document.map(|_| count + 1))
    }
}

fn main() -> Result<(), Fault> {
    let index = &Index::new(3 * DOCUMENTS as u32)?;
    scope(|scope| {
        let loaders = [0, 1, 2, 3].map(|part| scope.spawn(move || index.load(part)));
        let mut seen = 0;
        while loaders.iter().any(|loader| !loader.is_finished()) {
            let found = index.count(3)?;
            assert!(found >= seen, "no document is ever removed");
            seen = found;
        }
        println!("a count of the documents of term 3 has grown to {seen}");
        loaders
            .into_iter()
            .try_for_each(|loader| loader.join().expect("no loader panics"))
    })?;
    for term in 0..TERMS {
        let expected = (0..DOCUMENTS).filter(|&it| terms_of(it).contains(&term));
        assert!(index.documents(term).eq(expected.map(Ok)));
    }
    println!("loaded {} pairs", index.pairs.len()?);
    Ok(())
}
