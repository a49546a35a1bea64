//! A count over all worlds, for sheets of few propositions: "A world gives each proposition a value." Here a world is a number, bit p for
//! proposition p. Nothing of the tables' working order is used: sets of worlds are compared with what the tables stand for.

use crate::plans::{first_plan, in_goal, run, search, search_once, Found, Verdict};
use crate::sheet::{masks, Literal, Move, Set, Sheet};
use crate::tables::{picture, start, step};

pub type World = u32;

fn has(world: World, literal: &Literal) -> bool {
    (world >> literal.proposition & 1 == 1) == literal.truth
}

fn holds(world: World, set: &[Literal]) -> bool {
    set.iter().all(|x| has(world, x))
}

/// "Starting worlds meet sections 2 to 4."
pub fn starting(sheet: &Sheet) -> Vec<World> {
    let meets = |w: &World| {
        holds(*w, &sheet.known)
            && sheet.ors.iter().all(|clause| clause.iter().any(|alternative| holds(*w, alternative)))
            && sheet.oneofs.iter().all(|clause| clause.iter().filter(|alternative| holds(*w, alternative)).count() == 1)
    };
    (0..1 << sheet.n).filter(meets).collect()
}

/// "A move is defined in a world if its precondition holds and the results of all effects whose conditions hold there have no complementary
/// pair. Then those results become true and the rest keeps its value." Otherwise 24 or 25.
pub fn moved(m: &Move, world: World) -> Result<World, u8> {
    if !holds(world, &m.precondition) {
        return Err(24);
    }
    let results: Vec<&Literal> = m.effects.iter().filter(|e| holds(world, &e.condition)).flat_map(|e| &e.result).collect();
    if results.iter().any(|x| results.contains(&&x.complement())) {
        return Err(25);
    }
    Ok(results.iter().fold(world, |w, x| if x.truth { w | 1 << x.proposition } else { w & !(1 << x.proposition) }))
}

/// Every world stepped alone, ascending; 24 if one does not meet the precondition, else 25 if one has contradictory results.
fn image(m: &Move, worlds: &[World]) -> Result<Vec<World>, u8> {
    let answers: Vec<Result<World, u8>> = worlds.iter().map(|w| moved(m, *w)).collect();
    if answers.contains(&Err(24)) {
        return Err(24);
    }
    let mut next = answers.into_iter().collect::<Result<Vec<World>, u8>>()?;
    next.sort();
    next.dedup();
    Ok(next)
}

/// "a world is in the goal if each [clause] has a literal true there"
fn all_in_goal(sheet: &Sheet, worlds: &[World]) -> bool {
    worlds.iter().all(|w| sheet.goal.iter().all(|clause| clause.iter().any(|x| has(*w, x))))
}

/// "An entry stands for every world that has its literals"
pub fn of_table(n: usize, table: &[Set]) -> Vec<World> {
    (0..1 << n).filter(|w| table.iter().any(|entry| holds(*w, entry))).collect()
}

/// "the clauses without complementary literals that hold in all its worlds and have no shorter such clause within", as sorted pairs of
/// masks.
fn primes(n: usize, worlds: &[World]) -> Vec<(u32, u32)> {
    let implied = |trues: u32, falses: u32| worlds.iter().all(|w| w & trues != 0 || !w & falses != 0);
    let mut found = Vec::new();
    for trues in 0..1u32 << n {
        for falses in (0..1u32 << n).filter(|falses| falses & trues == 0) {
            // If a shorter clause within holds, then so does one that lacks a single literal.
            let shorter = (0..n).any(|p| {
                let bit = 1 << p;
                ((trues & bit) != 0 && implied(trues & !bit, falses)) || ((falses & bit) != 0 && implied(trues, falses & !bit))
            });
            if implied(trues, falses) && !shorter {
                found.push((trues, falses));
            }
        }
    }
    found
}

/// What a check says: the number of comparisons that it made, or what differs.
pub type Checked = Result<u64, String>;

fn same<T: PartialEq + std::fmt::Debug>(what: &str, by_table: T, by_worlds: T) -> Checked {
    if by_table == by_worlds { Ok(1) } else { Err(format!("{what}: by tables {by_table:?}, by worlds {by_worlds:?}")) }
}

/// The start: exactly the starting worlds, and 20 exactly if there is none; 21 says nothing about worlds.
pub fn check_start(sheet: &Sheet) -> Checked {
    let worlds = starting(sheet);
    match start(sheet) {
        Ok(table) => same("start", of_table(sheet.n, &table), worlds),
        Err(fault) if fault.number == 20 => same("start 20", worlds.len(), 0),
        Err(_) => Ok(0),
    }
}

/// The step of a table: 24 and 25 exactly if some world says so, else exactly the worlds that come of it.
pub fn check_step(sheet: &Sheet, table: &[Set], number: usize) -> Checked {
    let due = image(&sheet.moves[number], &of_table(sheet.n, table));
    match step(sheet, table, number) {
        Ok(next) => same("step", Ok(of_table(sheet.n, &next)), due),
        Err(fault) if fault.number == 21 => same("step full, though undefined", false, due.is_err()),
        Err(fault) => same("step", Err(fault.number), due),
    }
}

/// The picture of a table: the prime implicates of its worlds.
pub fn check_picture(sheet: &Sheet, table: &[Set]) -> Checked {
    let due = primes(sheet.n, &of_table(sheet.n, table));
    match picture(table) {
        Ok(clauses) => {
            let mut pairs: Vec<(u32, u32)> = clauses.iter().map(|clause| masks(clause)).collect();
            pairs.sort();
            same("picture", pairs, due)
        }
        Err(_) => Ok(0),
    }
}

/// The run: verdict and last table from the starting worlds stepped through the whole plan.
pub fn check_run(sheet: &Sheet) -> Checked {
    let Ok(run) = run(sheet) else { return Ok(0) };
    let mut worlds = starting(sheet);
    for (place, number) in (1..).zip(&sheet.plan) {
        if run.verdict == Verdict::Full(place) {
            let undefined = image(&sheet.moves[*number as usize], &worlds).is_err();
            same("run full, though undefined", false, undefined)?;
            return same("last table", of_table(sheet.n, &run.table), worlds);
        }
        match image(&sheet.moves[*number as usize], &worlds) {
            Ok(next) => worlds = next,
            Err(number) => {
                same("verdict", run.verdict, Verdict::Stopped(place, number))?;
                return same("last table", of_table(sheet.n, &run.table), worlds);
            }
        }
    }
    let due = if all_in_goal(sheet, &worlds) { Verdict::Reached } else { Verdict::Short };
    same("verdict", run.verdict, due)?;
    same("goal", in_goal(sheet, &run.table), due == Verdict::Reached)?;
    same("last table", of_table(sheet.n, &run.table), worlds)
}

/// The search: the first plan that brings every starting world to the goal, or none; a full plan only if none comes before it.
pub fn check_search(sheet: &Sheet, limit: u64, budget: usize) -> Checked {
    let Some(Ok(answer)) = search(sheet, limit, budget) else { return Ok(0) };
    let once = search_once(sheet, limit);
    if once != Ok(answer.clone()) {
        return Err(format!("search: {answer:?}, but {once:?} if no table is followed twice"));
    }
    let mut plans = vec![(Vec::new(), starting(sheet))];
    let mut first = None;
    for length in 0..=limit {
        first = plans.iter().find(|(_, worlds)| all_in_goal(sheet, worlds)).map(|(plan, _)| plan.clone());
        let beyond = matches!(&answer, Found::Full(plan, _) if plan.len() as u64 == length);
        if first.is_some() || beyond || length == limit {
            break;
        }
        let mut longer: Vec<(Vec<u8>, Vec<World>)> = Vec::new();
        for (plan, worlds) in &plans {
            for (number, m) in sheet.moves.iter().enumerate() {
                if let Ok(next) = image(m, worlds) {
                    longer.push(([plan.as_slice(), &[number as u8]].concat(), next));
                }
            }
        }
        plans = longer;
    }
    check_first(&answer, first)
}

/// The same over worlds of which no set is followed twice, for an answer to any limit.
pub fn check_found(sheet: &Sheet, limit: u64, answer: &Found) -> Checked {
    let next = |worlds: &Vec<World>, number: usize| image(&sheet.moves[number], worlds).ok();
    let found = first_plan(sheet.moves.len(), limit, starting(sheet), next, |worlds| all_in_goal(sheet, worlds).then_some(()));
    check_first(answer, found.map(|(plan, ())| plan))
}

/// The answer beside the first plan that brings every world to the goal.
fn check_first(answer: &Found, first: Option<Vec<u8>>) -> Checked {
    match answer {
        Found::Reached(plan) => same("search", Some(plan), first.as_ref()),
        Found::Nothing => same("search", None, first),
        Found::Full(plan, place) => {
            same("place of a full plan", *place, plan.len())?;
            same("search full, though an earlier plan is reached", false, first.is_some_and(|f| (f.len(), &f) < (plan.len(), plan)))
        }
    }
}
