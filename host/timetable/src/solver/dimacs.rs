//! A formula as the DIMACS text "p cnf".

use super::formula::Formula;

/// The text of `formula`. The clause with id i stands on line i after the header.
pub fn text(formula: &Formula) -> Vec<u8> {
    let size = formula.size();
    let header = format!("p cnf {} {}\n", size.variables, size.clauses);
    let mut out = header.into_bytes();
    for clause in formula.clauses.iter() {
        for literal in clause {
            if literal.is_negated() {
                out.push(b'-');
            }
            push_decimal(&mut out, literal.variable());
            out.push(b' ');
        }
        out.extend_from_slice(b"0\n");
    }
    out
}

fn push_decimal(out: &mut Vec<u8>, mut value: u32) {
    let first = out.len();
    loop {
        out.push(b'0' + (value % 10) as u8);
        value /= 10;
        if value == 0 {
            break;
        }
    }
    out[first..].reverse();
}

#[cfg(test)]
mod tests {
    use super::text;
    use crate::solver::formula::Formula;

    #[test]
    fn clauses_become_lines() {
        let wcnf = "p wcnf 120 3 5\n5 -1 120 0\n5 10 0\n4 2 0\n";
        let formula = Formula::from_text(wcnf.as_bytes()).unwrap();
        assert_eq!(text(&formula), b"p cnf 120 2\n-1 120 0\n10 0\n");
    }
}
