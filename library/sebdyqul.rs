//! Sebdyqul for Rust programs: a safe function over each that `sebdyqul.h` declares.
//!
//! Slices and exclusive borrows are all that the header asks of a caller: each leads to as many elements as it has, is aligned, and none
//! that is written to overlaps another. So no call of `check` or `copy` can be a wrong one.

/// Lengths that are enough for every job. A job with n states, m move lines and k nodes in its formula needs n results (lower, upper,
/// verdicts and order), 2 × m words, 10 × n + 512 vectors and 17 × n marks, or k × n where that is less.
pub const RESULTS: usize = 512;
pub const WORDS: usize = 8_192;
pub const VECTORS: usize = 5_632;
pub const MARKS: usize = 8_704;

/// A length that is enough for every copy; no copy is longer than the moves text that it is made of.
pub const COPY: usize = 61_440;

/// What a byte of `verdicts` says.
pub const NO: u8 = 0;
pub const YES: u8 = 1;
pub const UNDECIDED: u8 = 2;

/// What a caller lends for one job. A length of 0 will do where nothing is needed.
pub struct Lent<'a> {
    pub lower: &'a mut [u32],
    pub upper: &'a mut [u32],
    pub verdicts: &'a mut [u8],
    pub order: &'a mut [u16],
    pub words: &'a mut [u64],
    pub vectors: &'a mut [u64],
    pub marks: &'a mut [u8],
}

/// How a job ended.
#[derive(Clone, Copy, Debug, PartialEq, Eq)]
pub enum Answer {
    /// The report is in the first n elements of `lower`, `upper` and `verdicts`, and in those of `order` are the state numbers, the worst
    /// first: by falling lower end, equal ones by rising number. The report's lines show this depth: 0 where the outermost node is no until,
    /// and of one between two times, `V`, the sum over its two phases.
    Accepted { depth: u64 },
    /// The number of the refusal, 1 to 16 but never 7 or 8; 16 is a `V` whose first time exceeds the second. What was lent is as it was.
    Refused(u64),
}

extern "C" {
    fn sebdyqul_check(
        moves: *const u8, moves_length: usize,
        labels: *const u8, labels_length: usize,
        formula: *const u8, formula_length: usize,
        lower: *mut u32, lower_length: usize,
        upper: *mut u32, upper_length: usize,
        verdicts: *mut u8, verdicts_length: usize,
        order: *mut u16, order_length: usize,
        words: *mut u64, words_length: usize,
        vectors: *mut u64, vectors_length: usize,
        marks: *mut u8, marks_length: usize,
        depth: *mut u64,
    ) -> u64;
    fn sebdyqul_copy(
        moves: *const u8, moves_length: usize,
        labels: *const u8, labels_length: usize,
        copy: *mut u8, copy_length: usize,
        length: *mut u64,
    ) -> u64;
}

/// Checks a job: a moves text, a labels text and a formula, as bytes. The lines of the moves text may stand in any order, and the rates of a
/// pair of states that stands on several lines are added together.
pub fn check(moves: &[u8], labels: &[u8], formula: &[u8], lent: Lent<'_>) -> Answer {
    let mut depth = 0;
    // SAFETY: each pointer and length is that of a slice, so it is not null, aligned, and leads to so many elements; those that are
    // written to are borrowed exclusively, so none overlaps another or a text.
    let number = unsafe {
        sebdyqul_check(
            moves.as_ptr(), moves.len(),
            labels.as_ptr(), labels.len(),
            formula.as_ptr(), formula.len(),
            lent.lower.as_mut_ptr(), lent.lower.len(),
            lent.upper.as_mut_ptr(), lent.upper.len(),
            lent.verdicts.as_mut_ptr(), lent.verdicts.len(),
            lent.order.as_mut_ptr(), lent.order.len(),
            lent.words.as_mut_ptr(), lent.words.len(),
            lent.vectors.as_mut_ptr(), lent.vectors.len(),
            lent.marks.as_mut_ptr(), lent.marks.len(),
            &mut depth,
        )
    };
    match number {
        0 => Answer::Accepted { depth },
        _ => Answer::Refused(number),
    }
}

/// Makes the clean copy of a moves text at the front of `copy` and says how long it is: a line for each pair of states, pairs rising. Nothing
/// beyond it has changed. Otherwise the number of the refusal: 1 to 6 or 9, or 17 where `copy` is too short; then `copy` is as it was.
pub fn copy(moves: &[u8], labels: &[u8], copy: &mut [u8]) -> Result<usize, u64> {
    let mut length = 0;
    // SAFETY: as for `check`.
    let number = unsafe {
        sebdyqul_copy(moves.as_ptr(), moves.len(), labels.as_ptr(), labels.len(), copy.as_mut_ptr(), copy.len(), &mut length)
    };
    match number {
        0 => Ok(length as usize),
        _ => Err(number),
    }
}

#[cfg(test)]
mod tests {
    use super::*;

    /// Two states, one move line, three nodes, and the lengths that these need.
    const JOB: [&[u8]; 3] = [b"from,to,rate\n0,1,500\n", b"state,up,dead\n0,1,0\n1,0,1\n", b"P < 1 U 8.25 up dead\n"];
    const NEEDED: [usize; 7] = [2, 2, 2, 2, 2, 532, 6];

    /// The same sheet with 20 nodes, which need as many marks as 17 do.
    const MANY_NODES: [&[u8]; 3] = [JOB[0], JOB[1], b"& up & up & up & up & up & up & up & up & up ! dead\n"];
    const MANY_NEEDED: [usize; 7] = [2, 2, 2, 2, 2, 532, 34];

    /// What a job ends with where so many elements of each buffer are lent, and what its order buffer and its marks then hold.
    fn checked(job: [&[u8]; 3], lent: [usize; 7]) -> (Answer, Vec<u16>, Vec<u8>) {
        let [mut lower, mut upper] = [vec![7; lent[0]], vec![7; lent[1]]];
        let [mut verdicts, mut marks] = [vec![7; lent[2]], vec![7; lent[6]]];
        let mut order = vec![7; lent[3]];
        let [mut words, mut vectors] = [vec![7; lent[4]], vec![7; lent[5]]];
        let lent = Lent {
            lower: &mut lower,
            upper: &mut upper,
            verdicts: &mut verdicts,
            order: &mut order,
            words: &mut words,
            vectors: &mut vectors,
            marks: &mut marks,
        };
        let [moves, labels, formula] = job;
        (check(moves, labels, formula, lent), order, marks)
    }

    #[test]
    fn exactly_what_is_needed_will_do() {
        assert_eq!(checked(JOB, NEEDED).0, Answer::Accepted { depth: 42 });
    }

    #[test]
    fn one_less_of_any_is_refused() {
        for at in 0..NEEDED.len() {
            let mut short = NEEDED;
            short[at] -= 1;
            assert_eq!(checked(JOB, short).0, Answer::Refused(15), "{short:?}");
        }
    }

    #[test]
    fn seventeen_marks_for_each_state_will_do() {
        let [mut short, mut long] = [MANY_NEEDED; 2];
        short[6] -= 1;
        long[6] += 6;
        assert_eq!(checked(MANY_NODES, MANY_NEEDED), (Answer::Accepted { depth: 0 }, vec![0, 1], vec![0; 34]));
        assert_eq!(checked(MANY_NODES, long), (Answer::Accepted { depth: 0 }, vec![0, 1], [vec![0; 34], vec![7; 6]].concat()));
        assert_eq!(checked(MANY_NODES, short), (Answer::Refused(15), vec![7; 2], vec![7; 33]));
    }

    #[test]
    fn the_worst_state_stands_first() {
        assert_eq!(checked(JOB, [2, 2, 2, 4, 2, 532, 6]).1, [1, 0, 7, 7]);
        assert_eq!(checked(JOB, [1, 2, 2, 4, 2, 532, 6]).1, [7; 4]);
    }

    /// Moves as they were added one after the other, and their clean copy.
    const TYPED: &[u8] = b"from,to,rate\n1,0,7\n0,1,400\n0,1,100\n";
    const CLEAN: &[u8] = b"from,to,rate\n0,1,500\n1,0,7\n";

    /// What copying these moves ends with where so many bytes are lent, and what the lent bytes then hold.
    fn copied(moves: &[u8], lent: usize) -> (Result<usize, u64>, Vec<u8>) {
        let mut bytes = vec![7; lent];
        (copy(moves, JOB[1], &mut bytes), bytes)
    }

    #[test]
    fn a_copy_changes_nothing_beyond_itself() {
        for more in [0, 1, 40] {
            let (answer, bytes) = copied(TYPED, CLEAN.len() + more);
            assert_eq!(answer, Ok(CLEAN.len()));
            assert_eq!(bytes, [CLEAN, &vec![7; more]].concat());
        }
    }

    #[test]
    fn a_copy_of_a_copy_is_the_copy() {
        assert_eq!(copied(CLEAN, COPY).1[..CLEAN.len()], *CLEAN);
        assert_eq!(copied(JOB[0], JOB[0].len()), (Ok(JOB[0].len()), JOB[0].to_vec()));
    }

    #[test]
    fn a_refused_copy_changes_nothing() {
        for lent in 0..CLEAN.len() {
            assert_eq!(copied(TYPED, lent), (Err(17), vec![7; lent]));
        }
        assert_eq!(copied(b"from,to,rate\n0,1,500\n0,1,0\n", COPY), (Err(9), vec![7; COPY]));
        assert_eq!(copied(b"", 0), (Err(1), vec![]));
    }
}
