//! Sheets and tables at the limits of document 01: counts one below, at and above each bound, 128 and 129 entries, 256 and 257 clauses,
//! 64 moves, 32 propositions, the longest sheet, splits into the most pieces.

use crate::due::NUMBERS;
use crate::random::{encode, literal, literals, with_rubbish, Random};
use crate::sheet::{set_of, Effect, Literal, Move, Set, Sheet};

/// A sheet with tables to step and to picture.
pub struct Case {
    pub bytes: Vec<u8>,
    pub tables: Vec<[u32; NUMBERS]>,
}

fn case(sheet: &Sheet) -> Case {
    Case { bytes: encode(sheet), tables: Vec::new() }
}

fn yes(p: usize) -> Literal {
    literal(p, true)
}

fn no(p: usize) -> Literal {
    literal(p, false)
}

fn effect(condition: Set, result: Set) -> Effect {
    Effect { condition: set_of(condition), result: set_of(result) }
}

fn plain(n: usize, effects: Vec<Effect>) -> Sheet {
    let moves = vec![Move { precondition: vec![], effects }];
    Sheet { n, known: vec![], ors: vec![], oneofs: vec![], moves, goal: vec![], plan: vec![0] }
}

/// A list of `count` literals, as the format wants them as far as 32 propositions reach.
fn list(count: usize) -> Set {
    (0..count).map(|p| yes(p % 32)).collect()
}

/// Every count one below, at and above its bounds.
fn counts(r: &mut Random) -> Vec<Case> {
    let mut cases = Vec::new();
    let mut add = |change: &dyn Fn(&mut Sheet)| {
        let mut sheet = plain(32, vec![effect(vec![yes(0)], vec![no(1)])]);
        change(&mut sheet);
        cases.push(case(&sheet));
    };
    for n in [0, 1, 2, 31, 32, 33, 255] {
        add(&|s| s.n = n);
    }
    for count in [0, 1, 31, 32, 33, 255] {
        add(&|s| s.known = list(count));
        add(&|s| s.moves = vec![s.moves[0].clone(); count]);
    }
    for count in [0, 1, 3, 4, 5, 7, 8, 9, 255] {
        add(&|s| s.ors = vec![vec![list(1)]; count]);
        add(&|s| s.ors = vec![vec![list(1); count]]);
        add(&|s| s.ors = vec![vec![list(count)]]);
        add(&|s| s.oneofs = vec![vec![list(1)]; count]);
        add(&|s| s.oneofs = vec![(0..count).map(|p| vec![yes(p % 32)]).collect()]);
        add(&|s| s.oneofs = vec![vec![list(count)]]);
        add(&|s| s.moves[0].precondition = list(count));
        add(&|s| s.moves[0].effects = vec![s.moves[0].effects[0].clone(); count]);
        add(&|s| s.moves[0].effects[0].condition = list(count));
        add(&|s| s.moves[0].effects[0].result = list(count));
        add(&|s| s.goal = vec![list(1); count]);
        add(&|s| s.goal = vec![list(count)]);
    }
    for count in [0, 1, 63, 64, 65, 255] {
        add(&|s| s.plan = vec![0; count]);
    }
    for number in [1, 31, 32, 255] {
        add(&|s| s.plan = vec![0, number]);
    }
    let n = r.range(1, 32);
    for byte in [2 * n - 1, 2 * n, 2 * n + 1, 64, 255] {
        cases.push(Case { bytes: vec![n as u8, 1, byte as u8, 0, 0, 1, 0, 0, 0, 0], tables: vec![] });
    }
    cases
}

/// "seven oneofs of p, ¬p, each with a p of its own, give 128 entries, eight give 21", in any order of propositions, and before or behind a
/// clause that no world meets.
fn oneofs(r: &mut Random) -> Vec<Case> {
    let mut cases = Vec::new();
    for (count, impossible) in [(6, 9), (7, 9), (8, 9), (8, 0), (8, 7), (7, 7)] {
        let n = r.range(9, 32);
        let mut sheet = plain(n, vec![effect(vec![yes(n - 1)], vec![yes(0)])]);
        sheet.known = vec![yes(n - 1)];
        let order = literals(r, n - 1, count, count);
        sheet.oneofs = order.iter().map(|x| vec![vec![*x], vec![x.complement()]]).collect();
        if impossible < 8 {
            sheet.oneofs[impossible.min(count - 1)] = vec![vec![no(n - 1)]];
        }
        sheet.goal = vec![vec![yes(0)]];
        cases.push(case(&sheet));
    }
    cases
}

/// Or-clauses, now and then a oneof-clause, whose tables come near 128 entries: every alternative has a proposition of its own, save one or
/// two that overlap with others.
fn near_full(r: &mut Random) -> Case {
    let n = r.range(19, 32);
    let sizes = r.pick(&[[8, 8, 2], [8, 8, 2], [8, 8, 3], [8, 4, 4], [8, 4, 5], [7, 6, 3], [5, 5, 5], [6, 6, 4]]);
    let mut sheet = plain(n, vec![effect(vec![], vec![yes(0)])]);
    let mut own = literals(r, n, n, n);
    for size in sizes {
        let mut clause: Vec<Set> = (0..size).map(|_| vec![own.swap_remove(r.below(own.len()))]).collect();
        if r.one_in(2) {
            let i = r.below(size);
            clause[i] = literals(r, n, 1, 3);
        }
        if r.one_in(8) { sheet.oneofs.push(clause) } else { sheet.ors.push(clause) }
    }
    case(&sheet)
}

/// Oneof-clauses of several alternatives with several literals: the order of the choices shows in the order of the entries.
fn choosing(r: &mut Random) -> Case {
    let n = r.range(7, 14);
    let mut sheet = plain(n, vec![effect(vec![yes(0)], vec![no(1)])]);
    for _ in 0..r.pick(&[1, 1, 2]) {
        let clause = (0..r.range(3, 4)).map(|_| literals(r, n, 1, 3)).collect();
        sheet.oneofs.push(clause);
    }
    case(&sheet)
}

fn seven_bits(i: usize) -> Set {
    (0..7).map(|p| literal(p, i >> p & 1 == 1)).collect()
}

#[derive(Clone, Copy, PartialEq)]
enum Last {
    Plain,
    /// The last piece takes the place of the first entry, so that one more fits.
    Nested,
    /// The last entry alone has contradictory results, when the table may be full already.
    Clash,
}

/// A table of `count` entries of which the last `open` do not know proposition 7: a step by it makes count + open entries.
fn splitting(r: &mut Random, count: usize, open: usize, last: Last) -> Case {
    let mut effects = vec![effect(vec![yes(7)], vec![yes(8)]), effect(vec![], vec![yes(9)])];
    if last == Last::Clash {
        effects.extend([effect(vec![yes(10)], vec![yes(11)]), effect(vec![yes(10)], vec![no(11)])]);
    }
    let sheet = plain(12, effects);
    let mut table: Vec<Set> = (0..count).map(|i| [seven_bits(i), vec![literal(7, i % 2 == 0), yes(8), no(9), no(10)]].concat()).collect();
    for entry in &mut table[count - open..] {
        entry.retain(|x| x.proposition != 7);
    }
    let mut changed = table[count - 1].clone();
    match last {
        Last::Plain => {}
        Last::Nested => {
            changed.retain(|x| x.proposition != 7 && x.proposition != 9);
            changed.extend([no(7), yes(9), yes(11)]);
            table[0] = set_of(changed);
        }
        Last::Clash => {
            changed.retain(|x| x.proposition != 10);
            changed.push(yes(10));
            table[count - 1] = set_of(changed);
        }
    }
    let numbers = with_rubbish(r, &table);
    Case { bytes: encode(&sheet), tables: vec![numbers] }
}

fn entries(r: &mut Random) -> Vec<Case> {
    let mut cases = Vec::new();
    for (count, open) in [(127, 0), (128, 0), (126, 1), (127, 1), (128, 1), (126, 2), (127, 2), (64, 63), (64, 64), (65, 64), (128, 127)] {
        cases.extend([Last::Plain, Last::Nested, Last::Clash].map(|last| splitting(r, count, open, last)));
    }
    cases
}

/// 64 or 128 entries and moves in any order of which some bring the goal about, some fill the table, some are undefined or do nothing: a
/// search has to tell which plan comes first.
fn races(r: &mut Random) -> Case {
    let open = r.pick(&[6, 7, 7]);
    let pool = [
        vec![effect(vec![], vec![yes(8)])],
        vec![effect(vec![yes(8)], vec![yes(9)])],
        vec![effect(vec![yes(10)], vec![yes(11)]), effect(vec![yes(11)], vec![no(10)])],
        vec![effect(vec![no(8)], vec![no(12)]), effect(vec![yes(9)], vec![yes(13)]), effect(vec![no(13)], vec![yes(10)])],
        vec![effect(vec![yes(0)], vec![yes(7)]), effect(vec![yes(0)], vec![no(7)])],
        vec![effect(vec![yes(0), yes(1)], vec![no(0)])],
        vec![],
    ];
    let mut sheet = plain(14, vec![]);
    sheet.moves = (0..r.range(2, 5)).map(|_| Move { precondition: vec![], effects: pool[r.below(pool.len())].clone() }).collect();
    if r.one_in(5) {
        sheet.moves[0].precondition = vec![yes(8)];
    }
    sheet.oneofs = (0..open).map(|p| vec![vec![yes(p)], vec![no(p)]]).collect();
    sheet.known = if r.one_in(2) { vec![no(8), yes(12)] } else { vec![] };
    sheet.goal = r.pick(&[&[8][..], &[8], &[8], &[9], &[8, 9], &[11], &[9, 11]]).iter().map(|p| vec![yes(*p)]).collect();
    sheet.plan = (0..r.range(0, 4)).map(|_| r.below(sheet.moves.len()) as u8).collect();
    case(&sheet)
}

/// An or-clause whose picture has around 256 clauses, the product of the lengths of its alternatives, and one more for each known literal.
fn pictured(r: &mut Random) -> Case {
    let sizes: &[usize] = r.pick(&[&[4, 4, 4, 4][..], &[4, 4, 4, 4], &[4, 4, 4, 2, 2], &[4, 4, 4, 3], &[4, 3, 3, 3, 2], &[4, 4, 4, 4, 2]]);
    let mut sheet = plain(20, vec![effect(vec![], vec![yes(19)])]);
    sheet.moves.push(Move { precondition: vec![], effects: vec![effect(vec![], vec![literal(0, r.one_in(2))])] });
    let mut next = 0;
    let mut clause = Vec::new();
    for size in sizes {
        clause.push((next..next + size).map(|p| literal(p, r.one_in(2))).collect());
        next += size;
    }
    sheet.ors = vec![clause];
    sheet.known = (next..19).map(|p| literal(p, r.one_in(2))).collect();
    let most = r.pick(&[0, 0, 1]);
    sheet.known.truncate(most);
    sheet.plan = (0..r.range(0, 3)).map(|_| r.below(2) as u8).collect();
    case(&sheet)
}

/// Two entries of 16 and 17 literals with `common` complementary pairs: 16 · 17 - common clauses; and products of disjoint entries.
fn clauses(r: &mut Random) -> Vec<Case> {
    let mut tables = Vec::new();
    for common in [13, 14, 15, 16] {
        let first: Set = (0..16).map(yes).collect();
        let second: Set = (0..common).map(no).chain((16..33 - common).map(yes)).collect();
        tables.push(vec![first.clone(), second.clone()]);
        tables.push(vec![second.clone(), first.clone()]);
        // A literal in both takes the place of the clauses with it, early or late.
        let mut shared = second.clone();
        shared.push(yes(31));
        let at = r.range(common, 15.max(common));
        tables.push(vec![set_of([first.clone(), vec![yes(31)]].concat()), shared]);
        tables.push(vec![first, set_of([second, vec![yes(at)]].concat())]);
    }
    // The last literal is in both. Joined with those of the second entry it makes so many clauses more before it takes their place: 01 says
    // that the picture is full where they do not fit.
    for (first, second) in [(15, 15), (15, 16), (16, 15), (14, 16), (14, 17), (13, 17), (13, 18)] {
        let of = |places: std::ops::Range<usize>, r: &mut Random| -> Set { places.map(|p| literal(p, r.one_in(2))).chain([yes(31)]).collect() };
        tables.push(vec![of(0..first, r), of(first..first + second, r)]);
    }
    for sizes in [vec![16, 16], vec![8, 8, 4], vec![2; 8], vec![17, 15], vec![8, 8, 5], vec![6, 6, 7], vec![4, 4, 4, 4], vec![3, 5, 17]] {
        let mut next = 0;
        let mut table = Vec::new();
        for size in sizes {
            table.push((next..next + size).map(|p| literal(p, r.one_in(2))).collect());
            next += size;
        }
        tables.push(table);
    }
    for _ in 0..6 {
        let n = r.range(16, 32);
        let table: Vec<Set> = (0..r.range(2, 4)).map(|_| literals(r, n, n / 3, n * 2 / 3)).collect();
        tables.push(table);
    }
    let bytes = encode(&plain(32, vec![effect(vec![], vec![yes(0)])]));
    vec![Case { bytes, tables: tables.iter().map(|table| with_rubbish(r, table)).collect() }]
}

/// The longest sheet: every count at its limit, 3,711 bytes. Everything is known, so that nothing splits; with `lasting`, results say what
/// holds already, so that all 64 moves are taken.
fn longest(r: &mut Random, lasting: bool) -> Vec<u8> {
    let truth: Vec<bool> = (0..32).map(|_| r.one_in(2)).collect();
    let four = |r: &mut Random, value: bool| {
        let mut set = literals(r, 32, 4, 4);
        for x in &mut set {
            x.truth = truth[x.proposition as usize] == value;
        }
        set
    };
    let known: Set = (0..32).map(|p| literal(p, truth[p])).collect();
    let clauses = |r: &mut Random| -> Vec<Vec<Set>> { (0..8).map(|_| (0..8).map(|i| four(r, i == 3)).collect()).collect() };
    let (ors, oneofs) = (clauses(r), clauses(r));
    let moves = (0..32)
        .map(|_| {
            let precondition = known[..8].to_vec();
            let effects = (0..8)
                .map(|_| {
                    let value = r.one_in(6);
                    effect(four(r, value), if lasting { four(r, true) } else { literals(r, 32, 4, 4) })
                })
                .collect();
            Move { precondition, effects }
        })
        .collect();
    let goal = (0..8).map(|_| literals(r, 32, 8, 8)).collect();
    let plan = (0..64).map(|_| r.below(32) as u8).collect();
    encode(&Sheet { n: 32, known, ors, oneofs, moves, goal, plan })
}

/// One empty entry split by eight conditions of four literals: 5^8 pieces. Their results fill the table, clash in the first piece, clash
/// only when the table is full long since, or make the pieces alike.
pub fn worst(r: &mut Random) -> Vec<Vec<u8>> {
    let condition = |i: usize| -> Set { (4 * i..4 * i + 4).map(|p| literal(p, p % 3 == 0)).collect() };
    let complements = |i: usize| -> Set { condition(i).iter().map(|x| x.complement()).collect() };
    let overflow = plain(32, (0..8).map(|i| effect(condition(i), complements(i))).collect());
    let mut clash = overflow.clone();
    clash.moves[0].effects[7].result = condition(0);
    let mut late = overflow.clone();
    late.moves[0].effects[6] = effect(vec![complements(0)[3]], vec![yes(24)]);
    late.moves[0].effects[7] = effect(vec![complements(0)[3]], vec![no(24)]);
    // Four conditions of four, and unconditional results over what they read: 5^4 pieces, few entries.
    let mut alike: Vec<Effect> = (0..4).map(|i| effect(condition(i), vec![yes(16 + i)])).collect();
    alike.extend((0..4).map(|i| effect(vec![], condition(i))));
    vec![encode(&overflow), encode(&clash), encode(&late), encode(&plain(32, alike)), longest(r, true), longest(r, false)]
}

/// All of them but the slowest; drawn anew for each call.
pub fn limits(r: &mut Random) -> Vec<Case> {
    let mut cases = counts(r);
    cases.extend(oneofs(r));
    for _ in 0..30 {
        cases.push(near_full(r));
    }
    for _ in 0..8 {
        cases.extend([races(r), races(r), races(r), pictured(r), choosing(r), choosing(r)]);
    }
    cases.extend(entries(r));
    cases.extend(clauses(r));
    cases
}
