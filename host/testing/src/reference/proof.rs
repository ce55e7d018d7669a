//! Bound proofs: the plain run, refusals 7 to 9 and 14 to 18.

use super::clauses::{walk, walk_with_tail, Literal, Sink, Sizes};
use super::instance::Instance;
use super::number::read_number;
use super::refusal::refuse;
use timetable::engine::Refusal;

/// The first byte of a step that adds a clause.
pub const ADD: u8 = 97;
/// The first byte of a step that deletes clauses.
pub const DELETE: u8 = 100;

/// Checks that no timetable that keeps the hard constraints costs `bound` or
/// less. Gives the number of steps, or 1 to 9, 14 to 19, 22. The store's lengths
/// are the numbers of words, rows and bytes lent.
pub fn check(
    file: &[u8],
    bound: u64,
    proof: &[u8],
    words_lent: u64,
    rows_lent: u64,
    bytes_lent: u64,
) -> Result<u64, Refusal> {
    plain_run(
        file,
        Some(bound),
        proof,
        [words_lent, rows_lent, bytes_lent],
    )
}

/// Checks that no timetable keeps the hard constraints, whatever it costs: the
/// same without the tail. Gives the number of steps, or 1 to 6, 8, 9, 14 to 19, 22.
pub fn check_hard(file: &[u8], proof: &[u8], lent: [u64; 3]) -> Result<u64, Refusal> {
    plain_run(file, None, proof, lent)
}

/// The plain run over the hard clauses, with the tail for a bound if there is one.
fn plain_run(
    file: &[u8],
    bound: Option<u64>,
    proof: &[u8],
    [words_lent, rows_lent, bytes_lent]: [u64; 3],
) -> Result<u64, Refusal> {
    let instance = Instance::read(file)?;
    let sizes = Sizes::of(&instance, bound)?;
    if words_lent < sizes.words || rows_lent < sizes.clauses || bytes_lent < sizes.variables {
        return refuse(9, 0);
    }
    let mut store = Store {
        words: Vec::with_capacity(sizes.words as usize),
        rows: Vec::with_capacity(sizes.clauses as usize),
        highest: 0,
    };
    match bound {
        Some(bound) => walk_with_tail(&instance, bound, &mut store),
        None => walk(&instance, &mut store),
    }
    debug_assert!(store.words.len() as u64 == sizes.words);
    debug_assert!(store.rows.len() as u64 == sizes.clauses);
    let run = Run {
        store,
        words_lent,
        rows_lent,
        assignment: Assignment::new(sizes.variables as usize),
        literals: Vec::new(),
        ids: Vec::new(),
    };
    run.all(Reader { proof, position: 0 })
}

/// Reads step bytes and numbers of a proof.
struct Reader<'a> {
    proof: &'a [u8],
    position: usize,
}

impl Reader<'_> {
    fn at_end(&self) -> bool {
        self.position == self.proof.len()
    }

    fn byte(&mut self) -> Option<u8> {
        let byte = *self.proof.get(self.position)?;
        self.position += 1;
        Some(byte)
    }

    fn number(&mut self) -> Option<u32> {
        let (value, next) = read_number(self.proof, self.position)?;
        self.position = next;
        Some(value)
    }

    /// Numbers up to a 0.
    fn ids(&mut self, ids: &mut Vec<u32>) -> Option<()> {
        loop {
            match self.number()? {
                0 => return Some(()),
                id => ids.push(id),
            }
        }
    }
}

struct Row {
    id: u32,
    first: usize,
    length: u32,
    live: bool,
}

/// The clauses with their ids; rows stand by ascending id.
struct Store {
    words: Vec<Literal>,
    rows: Vec<Row>,
    /// The highest id so far. Only the empty clause, which ends the run, has no row.
    highest: u32,
}

impl Sink for Store {
    fn hard(&mut self, clause: &[Literal]) {
        self.append(self.highest + 1, clause);
    }

    fn soft(&mut self, _weight: u32, _unit: Literal) {}
}

impl Store {
    fn append(&mut self, id: u32, clause: &[Literal]) {
        self.rows.push(Row {
            id,
            first: self.words.len(),
            length: clause.len() as u32,
            live: true,
        });
        self.words.extend_from_slice(clause);
        self.highest = id;
    }

    /// The row of the live clause `id`, at least 1. Without gaps in the ids it
    /// is row id − 1.
    fn find(&self, id: u32) -> Option<usize> {
        let guess = id as usize - 1;
        let index = match self.rows.get(guess) {
            Some(row) if row.id == id => guess,
            _ => self.rows.binary_search_by_key(&id, |row| row.id).ok()?,
        };
        self.rows[index].live.then_some(index)
    }

    fn clause(&self, row: usize) -> &[Literal] {
        let row = &self.rows[row];
        &self.words[row.first..][..row.length as usize]
    }
}

/// A partial assignment: for each literal code, whether that literal is false.
struct Assignment {
    falsified: Vec<bool>,
    trail: Vec<Literal>,
}

impl Assignment {
    fn new(variables: usize) -> Self {
        Assignment {
            falsified: vec![false; 2 * (variables + 1)],
            trail: Vec::new(),
        }
    }

    fn is_false(&self, literal: Literal) -> bool {
        self.falsified[literal.code() as usize]
    }

    fn set_false(&mut self, literal: Literal) {
        self.falsified[literal.code() as usize] = true;
        self.trail.push(literal);
    }

    fn variables(&self) -> usize {
        self.falsified.len() / 2 - 1
    }

    fn clear(&mut self) {
        for literal in self.trail.drain(..) {
            self.falsified[literal.code() as usize] = false;
        }
    }

    fn state(&self, clause: &[Literal]) -> State {
        let mut open = None;
        for &literal in clause {
            if self.is_false(literal) {
                continue;
            }
            if self.is_false(!literal) || open.is_some() {
                return State::Other;
            }
            open = Some(literal);
        }
        match open {
            Some(literal) => State::Unit(literal),
            None => State::False,
        }
    }
}

/// A clause under the assignment.
enum State {
    /// All literals are false.
    False,
    /// One literal is open, the others are false.
    Unit(Literal),
    Other,
}

/// A step that was read; its lists stand in the run.
enum Step {
    Add { id: u32 },
    Delete,
}

/// The state of the plain run. Words and rows used are the store's lengths.
struct Run {
    store: Store,
    words_lent: u64,
    rows_lent: u64,
    assignment: Assignment,
    /// The literals of the step at hand.
    literals: Vec<Literal>,
    /// The hints or deletions of the step at hand.
    ids: Vec<u32>,
}

impl Run {
    fn all(mut self, mut reader: Reader) -> Result<u64, Refusal> {
        let mut steps = 0;
        while !reader.at_end() {
            steps += 1;
            let Some(step) = self.read(&mut reader) else {
                return refuse(14, steps);
            };
            match step {
                Step::Add { id } => self.add(id, steps)?,
                Step::Delete => self.delete(steps)?,
            }
            if matches!(step, Step::Add { .. }) && self.literals.is_empty() {
                if reader.at_end() {
                    return Ok(steps);
                }
                break;
            }
        }
        refuse(18, steps)
    }

    /// Reads a step whole and sets the literals of its clause false. None if
    /// the step is misformed.
    fn read(&mut self, reader: &mut Reader) -> Option<Step> {
        self.literals.clear();
        self.ids.clear();
        match reader.byte()? {
            ADD => {
                let id = reader.number()?;
                if id <= self.store.highest {
                    return None;
                }
                loop {
                    let code = reader.number()?;
                    if code == 0 {
                        break;
                    }
                    let literal = Literal::from_code(code)?;
                    if literal.variable() as usize > self.assignment.variables()
                        || self.assignment.is_false(literal)
                        || self.assignment.is_false(!literal)
                    {
                        return None;
                    }
                    self.assignment.set_false(literal);
                    self.literals.push(literal);
                }
                reader.ids(&mut self.ids)?;
                Some(Step::Add { id })
            }
            DELETE => {
                reader.ids(&mut self.ids)?;
                Some(Step::Delete)
            }
            _ => None,
        }
    }

    /// The clause follows by its hints and fits the store unless it is empty.
    fn add(&mut self, id: u32, step: u64) -> Result<(), Refusal> {
        let mut refuted = false;
        for (index, &hint) in self.ids.iter().enumerate() {
            let last = index + 1 == self.ids.len();
            let Some(row) = self.store.find(hint) else {
                return refuse(15, step);
            };
            match self.assignment.state(self.store.clause(row)) {
                State::False if last => refuted = true,
                State::Unit(literal) => self.assignment.set_false(!literal),
                _ => return refuse(16, step),
            }
        }
        if !refuted {
            return refuse(16, step); // no hints, or the last one has an open literal
        }
        self.assignment.clear();
        if !self.literals.is_empty() {
            let words = self.store.words.len() + self.literals.len();
            let rows = self.store.rows.len() + 1;
            if words as u64 > self.words_lent || rows as u64 > self.rows_lent {
                return refuse(17, step);
            }
            self.store.append(id, &self.literals);
        }
        Ok(())
    }

    fn delete(&mut self, step: u64) -> Result<(), Refusal> {
        for &id in &self.ids {
            match self.store.find(id) {
                Some(row) => self.store.rows[row].live = false,
                None => return refuse(15, step),
            }
        }
        Ok(())
    }
}
