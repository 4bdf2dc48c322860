//! A number for an arrangement, the arrangement for a number, one step on and back, a walk, jumps, a floor, an edition, derangements, checks of a listing.
//! Build and run: examples/rust/run

use arrangements_example::{
    Arrangements, Family, DONE, END, REFUSED_EDITION, REFUSED_ENTRIES, REFUSED_FLOOR, REFUSED_NO_OBJECTS, REFUSED_RANK, WRONG,
};

/// Jumps: 100 places back, as many on, and off the listing, which is END.
fn jumps(plans: &Arrangements, plan: &mut [u8]) {
    let start = plan.to_vec();
    for d in [-100, 100] {
        assert_eq!(plans.jump(d, plan), DONE);
        println!("a jump by {d:<4}            {plan:?}");
    }
    assert_eq!(plan, start);
    assert_eq!(plans.jump(i64::MAX, plan), END);
    assert_eq!(plan, start);
    println!("too far on: END, and the plan stays");
}

/// All partitions of 9 into 3 parts of at least 2, by number; and no other kind has a floor but 1.
fn floors() {
    let partitions = Arrangements { family: Family { floor: 2, ..Family::of(5, 9, 3) }, counts: vec![] };
    let (mut all, mut parts) = (0, [0u8; 3]);
    assert_eq!(partitions.count(&mut all), DONE);
    for number in 0..all {
        assert_eq!(partitions.unrank(number, &mut parts), DONE);
        println!("9 into 3 parts, floor 2   {parts:?}");
    }
    let orders = Arrangements { family: Family { floor: 2, ..Family::of(3, 3, 0) }, counts: vec![] };
    assert_eq!(orders.first(&mut parts), REFUSED_FLOOR);
    println!("a permutation with floor 2 is refused");
}

/// All set partitions of 4 models into 2 blocks as edition 2 lists them, by number; and no other kind has an edition but 1.
fn editions() {
    let partitions = Arrangements { family: Family { edition: 2, ..Family::of(4, 4, 2) }, counts: vec![] };
    let (mut all, mut blocks) = (0, [0u8; 4]);
    assert_eq!(partitions.count(&mut all), DONE);
    for number in 0..all {
        assert_eq!(partitions.unrank(number, &mut blocks), DONE);
        println!("4 in 2 blocks, edition 2  {blocks:?}");
    }
    let orders = Arrangements { family: Family { edition: 2, ..Family::of(3, 4, 0) }, counts: vec![] };
    assert_eq!(orders.first(&mut blocks), REFUSED_EDITION);
    println!("a permutation in edition 2 is refused");
}

/// All ways to hang 4 models anew with none on its old hook, by number; a single model has none.
fn derangements() {
    let changes = Arrangements { family: Family::of(7, 4, 0), counts: vec![] };
    let (mut all, mut hooks) = (0, [0u8; 4]);
    assert_eq!(changes.count(&mut all), DONE);
    for number in 0..all {
        assert_eq!(changes.unrank(number, &mut hooks), DONE);
        println!("4, none on its old hook   {hooks:?}");
    }
    let single = Arrangements { family: Family::of(7, 1, 0), counts: vec![] };
    assert_eq!(single.first(&mut hooks[..1]), REFUSED_NO_OBJECTS);
    println!("a single model is refused");
}

/// The checks of a listing of the plans with three branches: as it should be, with two entries exchanged, and with a byte too few.
fn checks() {
    let plans = Arrangements { family: Family::of(6, 3, 0), counts: vec![] };
    let mut listing: [[u8; 6]; 5] = [[1, 0, 1, 0, 1, 0], [1, 0, 1, 1, 0, 0], [1, 1, 0, 0, 1, 0], [1, 1, 0, 1, 0, 0], [1, 1, 1, 0, 0, 0]];
    let mut place = 0;
    assert_eq!(plans.check(5, &listing.concat(), &mut place), DONE);
    println!("a list of 5 plans is accepted");
    listing.swap(3, 4);
    assert_eq!(plans.check(5, &listing.concat(), &mut place), WRONG);
    println!("with two exchanged it is wrong at place {place}");
    assert_eq!(plans.check(5, &listing.concat()[1..], &mut place), REFUSED_ENTRIES);
    println!("5 plans in 29 bytes are refused");
}

fn main() {
    // Fourteen bytes of a plan with seven branches.
    let plans = Arrangements { family: Family::of(6, 7, 0), counts: vec![] };
    let mut plan = [1, 1, 0, 1, 1, 0, 0, 0, 1, 1, 1, 0, 0, 0];
    let (mut all, mut number) = (0, 0);
    assert_eq!(plans.count(&mut all), DONE);
    assert_eq!(plans.rank(&plan, &mut number), DONE);
    println!("the plan                  {plan:?}");
    println!("its number, of {all}:       {number}");

    let mut again = [0u8; 14];
    assert_eq!(plans.unrank(number, &mut again), DONE);
    println!("the plan for that number  {again:?}");
    assert_eq!(plans.next(&mut plan), DONE);
    println!("one step on               {plan:?}");
    assert_eq!(plans.previous(&mut plan), DONE);
    println!("and back                  {plan:?}");
    assert_eq!(plan, again);

    // A walk: the number beside the plan, two steps on and one back, with no rank worked out.
    for on in [true, true, false] {
        assert_eq!(if on { plans.walk_next(&mut plan, &mut number) } else { plans.walk_previous(&mut plan, &mut number) }, DONE);
        println!("a walk, at number {number}     {plan:?}");
    }

    jumps(&plans, &mut plan);
    floors();
    editions();
    derangements();
    checks();

    assert_eq!(plans.last(&mut plan), DONE);
    let last = plan;
    assert_eq!(plans.next(&mut plan), END);
    assert_eq!(plan, last);
    println!("behind the last: END, and the plan stays");

    assert_eq!(plans.unrank(all, &mut plan), REFUSED_RANK);
    assert_eq!(plan, last);
    println!("number {all} is refused, and the plan stays");
}
