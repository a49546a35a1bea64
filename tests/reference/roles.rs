//! The sheet judged once more, byte by byte, beside sheet.rs, which reads it section by section: each byte is judged in the role that is due
//! there, and a role is due or the sheet has ended.

use crate::sheet::Fault;

#[derive(Clone, Copy, PartialEq, Eq)]
enum Role {
    N,
    Known,
    Clauses,
    Alternatives,
    Alternative,
    Moves,
    Precondition,
    Effects,
    Condition,
    Result,
    Goal,
    GoalClause,
    Plan,
    Literal,
    Number,
}

/// A count: its least and greatest value, and the roles that each item brings. Literals and move numbers are no counts.
fn count(role: Role) -> Option<(u8, u8, &'static [Role])> {
    Some(match role {
        Role::N => (1, 32, &[]),
        Role::Known => (0, 32, &[Role::Literal]),
        Role::Clauses => (0, 8, &[Role::Alternatives]),
        Role::Alternatives => (1, 8, &[Role::Alternative]),
        Role::Alternative => (1, 4, &[Role::Literal]),
        Role::Moves => (1, 32, &[Role::Precondition, Role::Effects]),
        Role::Precondition => (0, 8, &[Role::Literal]),
        Role::Effects => (0, 8, &[Role::Condition, Role::Result]),
        Role::Condition => (0, 4, &[Role::Literal]),
        Role::Result => (1, 4, &[Role::Literal]),
        Role::Goal => (0, 8, &[Role::GoalClause]),
        Role::GoalClause => (1, 8, &[Role::Literal]),
        Role::Plan => (0, 64, &[Role::Number]),
        Role::Literal | Role::Number => return None,
    })
}

pub fn judge(bytes: &[u8]) -> Result<(), Fault> {
    // The roles still due, the next one last.
    let mut due = vec![Role::Plan, Role::Goal, Role::Moves, Role::Clauses, Role::Clauses, Role::Known, Role::N];
    let (mut n, mut moves, mut before) = (0, 0, None);
    for (position, byte) in bytes.iter().copied().enumerate() {
        let fault = |number| Err(Fault { number, position });
        let Some(role) = due.pop() else { return fault(6) };
        if let Some((least, greatest, item)) = count(role) {
            if byte < least || byte > greatest {
                return fault(2);
            }
            n = if role == Role::N { byte } else { n };
            moves = if role == Role::Moves { byte } else { moves };
            before = None;
            (0..byte).for_each(|_| due.extend(item.iter().rev()));
        } else if role == Role::Number {
            if byte >= moves {
                return fault(7);
            }
        } else {
            match before {
                _ if byte >= 2 * n => return fault(3),
                Some(last) if byte <= last => return fault(4),
                Some(last) if byte == last ^ 1 => return fault(5),
                _ => before = Some(byte),
            }
        }
    }
    if due.is_empty() { Ok(()) } else { Err(Fault { number: 1, position: bytes.len() }) }
}
