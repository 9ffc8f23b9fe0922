//! Sharing a bus (E14): rotation, refusal 20, the bounds, and operation 12 of a script.

use crate::build::{binary, hex, one_of_each_placed, Random};
use crate::script::{script, Call};
use rackcheck::arbiter::{run, step, State, Step};

/// Every requester.
const ALL: u16 = 0x3FF;
/// Every mask, and every request set, that is not refused.
const SETS: std::ops::RangeInclusive<u16> = 0..=ALL;

fn has(set: u16, member: u8) -> bool {
    set >> member & 1 == 1
}

/// The members of a request set, or the high ones of a mask.
fn members(set: u16) -> Vec<u8> {
    (0..10).filter(|member| has(set, *member)).collect()
}

/// The set of these members.
fn set(members: &[u8]) -> u16 {
    members.iter().fold(0, |set, member| set | 1 << member)
}

/// H and L of a mask.
fn counts(mask: u16) -> (usize, usize) {
    (members(mask).len(), members(!mask).len())
}

/// What each number of a state may be.
fn numbers(mask: u16) -> (Vec<u8>, Vec<u8>) {
    ([members(mask), vec![10, 15]].concat(), [members(!mask), vec![15]].concat())
}

/// Every state of a mask, with or without a history that leads to it.
fn states(mask: u16) -> Vec<State> {
    let (highs, lows) = numbers(mask);
    highs.iter().flat_map(|high| lows.iter().map(|low| state(*high, *low))).collect()
}

fn state(high: u8, low: u8) -> State {
    State { high, low }
}

fn granted(member: u8, high: u8, low: u8) -> Result<Step, u8> {
    Ok(Step { granted: Some(member), state: state(high, low) })
}

fn not_granted(state: State) -> Result<Step, u8> {
    Ok(Step { granted: None, state })
}

/// The members that a run grants; every one of its sets has a request.
fn grants(mask: u16, list: &[u16]) -> Vec<u8> {
    run(mask, list).unwrap().iter().map(|step| step.granted.expect("a request")).collect()
}

#[test]
fn the_first_grants() {
    assert_eq!(State::FIRST, state(15, 15));
    // High 1 and 4.
    let mask = set(&[1, 4]);
    for (requests, first) in [
        (ALL, granted(1, 1, 15)),
        (set(&[4, 5]), granted(4, 4, 15)),
        (set(&[0, 4]), granted(4, 4, 15)),
        (set(&[5, 9]), granted(5, 10, 5)),
        (set(&[0]), granted(0, 10, 0)),
        (0, not_granted(State::FIRST)),
    ] {
        assert_eq!(step(mask, State::FIRST, requests), first);
    }
}

#[test]
fn a_run_by_hand() {
    // High 1 and 4; low 0, 2, 3, 5 to 9.
    let mask = set(&[1, 4]);
    let rows: &[(&[u8], Option<u8>, u8, u8)] = &[
        (&[], None, 15, 15),
        (&[1, 2, 4], Some(1), 1, 15),
        (&[1, 2, 4], Some(4), 4, 15),
        (&[1, 2, 4], Some(2), 10, 2),
        (&[1, 2, 4], Some(1), 1, 2),
        // 4 has stopped: the low place is next, and 3 the next low member after 2.
        (&[0, 1, 2, 3], Some(3), 10, 3),
        (&[], None, 10, 3),
        // Round to the beginning of the low ring.
        (&[0, 2], Some(0), 10, 0),
        (&[4, 0], Some(4), 4, 0),
        // After 4 the low place comes before 1, which is lower.
        (&[1, 9], Some(9), 10, 9),
        (&[1, 9], Some(1), 1, 9),
        // The last one granted has its turn again if it is the only one.
        (&[1], Some(1), 1, 9),
        (&[9], Some(9), 10, 9),
        (&[9], Some(9), 10, 9),
        (&[8, 9], Some(8), 10, 8),
        (&[8, 9], Some(9), 10, 9),
        (&[8, 9, 0], Some(0), 10, 0),
    ];
    let list: Vec<u16> = rows.iter().map(|(members, ..)| set(members)).collect();
    let steps: Vec<Step> = rows
        .iter()
        .map(|(_, granted, high, low)| Step { granted: *granted, state: state(*high, *low) })
        .collect();
    assert_eq!(run(mask, &list), Ok(steps));
}

/// Document 001, figure 12-1: four in the high group (B, m0, m1, m2, here 0 to 3), five in the
/// low group (m3 to m7, here 4 to 8). The tenth, which the figure has not, never requests.
#[test]
fn the_example_of_document_001() {
    let mask = set(&[0, 1, 2, 3]);
    let round = [
        [0, 1, 2, 3, 4],
        [0, 1, 2, 3, 5],
        [0, 1, 2, 3, 6],
        [0, 1, 2, 3, 7],
        [0, 1, 2, 3, 8],
        [0, 1, 2, 3, 4],
        [0, 1, 2, 3, 5],
    ];
    assert_eq!(grants(mask, &[0x1FF; 35]), round.concat());
    // With the tenth it has its turn after 8, and the same groups by other numbers.
    let last = [round[4], [0, 1, 2, 3, 9], round[0]].concat();
    assert_eq!(grants(mask, &[ALL; 35])[20..], last);
    let mask = set(&[2, 5, 6, 9]);
    let list = [ALL & !1; 30];
    let lows = [1, 3, 4, 7, 8, 1];
    let expected: Vec<u8> = lows.iter().flat_map(|low| [2, 5, 6, 9, *low]).collect();
    assert_eq!(grants(mask, &list), expected);
}

/// "members of the high-priority group are serviced n transactions out of n+1, while one
/// member of the low-priority group is serviced once every n+1" (document 001), from every
/// state and for every mask with both groups.
#[test]
fn shares_if_all_request() {
    for mask in 1..ALL {
        let (h, l) = counts(mask);
        let turns = (h + 1) * l;
        for state in states(mask) {
            let mut count = [0; 10];
            let end = (0..turns).fold(state, |state, _| {
                let step = step(mask, state, ALL).unwrap();
                count[usize::from(step.granted.unwrap())] += 1;
                step.state
            });
            for member in 0..10 {
                let share = if has(mask, member) { l } else { 1 };
                assert_eq!(count[usize::from(member)], share, "{mask:X} {state:?}");
            }
            // The rings are where they were, but for one that had not begun.
            assert!(end.high == state.high || state.high == 15);
            assert!(end.low == state.low || state.low == 15);
        }
    }
}

/// "If all masters are assigned to one group, the algorithm defaults to a rotating-priority
/// scheme among all masters." (document 001)
#[test]
fn empty_groups() {
    let twice: Vec<u8> = (0..10).chain(0..10).collect();
    for mask in [0, ALL] {
        assert_eq!(grants(mask, &[ALL; 20]), twice);
        assert_eq!(grants(mask, &[set(&[3, 7]); 5]), [3, 7, 3, 7, 3]);
        assert_eq!(grants(mask, &[set(&[9]), ALL, set(&[0]), ALL]), [9, 0, 0, 1]);
    }
    // Nobody is high: the high ring has the low place only.
    assert_eq!(step(0, State::FIRST, set(&[6])), granted(6, 10, 6));
    assert_eq!(step(0, state(10, 6), ALL), granted(7, 10, 7));
    assert_eq!(step(0, state(15, 6), ALL), granted(7, 10, 7));
    assert_eq!(step(0, state(10, 15), ALL), granted(0, 10, 0));
    // Nobody is low: the low place is there and never requests; the low ring has no place.
    assert_eq!(step(ALL, State::FIRST, set(&[6])), granted(6, 6, 15));
    assert_eq!(step(ALL, state(9, 15), ALL), granted(0, 0, 15));
    assert_eq!(step(ALL, state(10, 15), ALL), granted(0, 0, 15));
    assert_eq!(step(ALL, state(10, 15), 0), not_granted(state(10, 15)));
    for number in (0..=255).filter(|number| *number != 15) {
        assert_eq!(step(ALL, state(15, number), ALL), Err(20));
        let low_only = step(0, state(number, 15), ALL);
        assert_eq!(low_only, if number == 10 { granted(0, 10, 0) } else { Err(20) });
    }
}

#[test]
fn one_request_is_granted_and_none_is_not() {
    for mask in SETS {
        for last in states(mask) {
            assert_eq!(step(mask, last, 0), not_granted(last));
            for member in 0..10 {
                let alone = step(mask, last, 1 << member);
                match has(mask, member) {
                    true => assert_eq!(alone, granted(member, member, last.low)),
                    false => assert_eq!(alone, granted(member, 10, member)),
                }
            }
        }
    }
    assert_eq!(run(0x155, &[0; 100]), Ok(vec![Step { granted: None, state: State::FIRST }; 100]));
}

#[test]
fn refused_bits() {
    let mut random = Random(50);
    for high in 0..64u16 {
        for _ in 0..50 {
            let (mask, requests) = (random.next() as u16 & ALL, random.next() as u16 & ALL);
            let state = random.pick(&states(mask));
            let accepted = high == 0;
            assert_eq!(step(mask | high << 10, state, requests).is_ok(), accepted);
            assert_eq!(step(mask, state, requests | high << 10).is_ok(), accepted);
            assert_eq!(step(mask | high << 10, state, requests | high << 10).is_ok(), accepted);
        }
    }
    for bit in 10..16 {
        for set in [0, 1, ALL] {
            assert_eq!(step(set | 1 << bit, State::FIRST, set), Err(20));
            assert_eq!(step(set, State::FIRST, set | 1 << bit), Err(20));
            // Bit 10 of either is not the low place, nor bit 15 nobody.
            assert_eq!(step(set | 1 << bit, State::FIRST, 0), Err(20));
            assert_eq!(step(set, State::FIRST, 1 << bit), Err(20));
        }
    }
}

/// Every number in either ring, for every mask.
#[test]
fn refused_states() {
    for mask in SETS {
        for number in 0..=255u8 {
            let in_high = match number {
                0..=9 => has(mask, number),
                10 | 15 => true,
                _ => false,
            };
            let in_low = match number {
                0..=9 => !has(mask, number),
                15 => true,
                _ => false,
            };
            for requests in [0, ALL] {
                let accepted = |state: State| match step(mask, state, requests) {
                    Ok(step) => step.granted.is_some() == (requests != 0),
                    Err(number) => {
                        assert_eq!(number, 20);
                        false
                    }
                };
                assert_eq!(accepted(state(number, 15)), in_high, "{mask:X} {number}");
                assert_eq!(accepted(state(15, number)), in_low, "{mask:X} {number}");
            }
        }
    }
}

/// Every pair of numbers: each ring is looked at by itself, so that a state that no run comes
/// to is accepted too.
#[test]
fn refused_pairs() {
    for mask in [0, 1, 0x200, 0x1F, 0x2AA, 0x3FE, ALL] {
        let (highs, lows) = numbers(mask);
        for high in 0..=255 {
            for low in 0..=255 {
                let accepted = highs.contains(&high) && lows.contains(&low);
                assert_eq!(step(mask, state(high, low), ALL).is_ok(), accepted, "{high} {low}");
            }
        }
    }
    // A low member without the low place, and the low place without a low member.
    assert_eq!(step(0x1F, state(15, 7), ALL), granted(0, 0, 7));
    assert_eq!(step(0x1F, state(15, 7), ALL & !0x1F), granted(8, 10, 8));
    assert_eq!(step(0x1F, state(10, 15), ALL & !0x1F), granted(5, 10, 5));
}

/// The same by counting: with one place for each number, the place granted is the requesting
/// one that is the fewest places further on. None yet is as if the last of all were granted.
fn by_distance(mask: u16, last: State, requests: u16) -> Step {
    let nearest = |count: u8, last: u8, places: Vec<u8>| {
        let last = last.min(count - 1);
        places.into_iter().min_by_key(|place| (place + count - last - 1) % count)
    };
    let low = members(requests & !mask);
    let high = [members(requests & mask), if low.is_empty() { vec![] } else { vec![10] }].concat();
    match nearest(11, last.high, high) {
        None => Step { granted: None, state: last },
        Some(10) => {
            let member = nearest(10, last.low, low).unwrap();
            Step { granted: Some(member), state: state(10, member) }
        }
        Some(member) => Step { granted: Some(member), state: state(member, last.low) },
    }
}

#[test]
fn the_nearest_is_granted() {
    let mut random = Random(51);
    let (mut none, mut high, mut low) = (0, 0, 0);
    for mask in SETS {
        for last in states(mask) {
            for _ in 0..8 {
                let fewer = if random.one_in(2) { random.next() & random.next() } else { !0 };
                let requests = (random.next() & fewer) as u16 & ALL;
                let step = step(mask, last, requests);
                assert_eq!(step, Ok(by_distance(mask, last, requests)), "{mask:X} {requests:X}");
                match step.unwrap().granted {
                    None => none += 1,
                    Some(member) if has(mask, member) => high += 1,
                    Some(_) => low += 1,
                }
            }
        }
    }
    println!("no grant: {none}, high: {high}, low: {low}");
    assert!(none >= 1_000 && high >= 50_000 && low >= 50_000);
    // Every request set, for a few masks.
    for mask in [0, 0x0F, 0x155, 0x3F8, ALL] {
        for last in states(mask) {
            for requests in SETS {
                assert_eq!(step(mask, last, requests), Ok(by_distance(mask, last, requests)));
            }
        }
    }
}

#[test]
fn a_run_is_its_steps() {
    let mut random = Random(52);
    for _ in 0..500 {
        let mask = random.next() as u16 & ALL;
        let length = random.below(40);
        let mut list: Vec<u16> = (0..length).map(|_| random.next() as u16 & ALL).collect();
        let mut last = State::FIRST;
        let mut steps = Vec::new();
        for requests in &list {
            steps.push(step(mask, last, *requests).unwrap());
            last = steps[steps.len() - 1].state;
        }
        assert_eq!(run(mask, &list), Ok(steps));
        // A mask is refused whatever the list; one request set refuses the whole run.
        assert_eq!(run(mask | 1 << (10 + random.below(6)), &list), Err(20));
        if !list.is_empty() {
            let at = random.below(length) as usize;
            list[at] |= 1 << (10 + random.below(6));
            assert_eq!(run(mask, &list), Err(20));
        }
    }
    assert_eq!(run(ALL, &[]), Ok(Vec::new()));
    assert_eq!(run(ALL + 1, &[]), Err(20));
}

/// "a member that keeps requesting is granted within H + 1 grants if high and (H + 1) times L
/// if low"; without low members nobody waits for the low place.
fn bound(mask: u16, member: u8) -> usize {
    match (counts(mask), has(mask, member)) {
        ((h, 0), true) => h,
        ((h, _), true) => h + 1,
        ((h, l), false) => (h + 1) * l,
    }
}

/// For each member the greatest number of grants it took, its own included, from a request set
/// on from which it kept requesting, or from the one after a grant to it. No wait, ended or
/// not, is beyond the bound.
fn longest_waits(mask: u16, first: State, list: &[u16]) -> [usize; 10] {
    let (mut longest, mut waits) = ([0; 10], [0; 10]);
    let mut last = first;
    for requests in list {
        let step = step(mask, last, *requests).unwrap();
        last = step.state;
        for (member, (longest, wait)) in (0..).zip(longest.iter_mut().zip(&mut waits)) {
            if !has(*requests, member) {
                assert_ne!(step.granted, Some(member));
                *wait = 0;
                continue;
            }
            assert!(step.granted.is_some());
            *wait += 1;
            if step.granted == Some(member) {
                *longest = (*longest).max(*wait);
                *wait = 0;
            }
            // The grant that it still waits for is one more.
            let at_least = *wait + 1;
            assert!(at_least.max(*longest) <= bound(mask, member), "{mask:X} {member} {list:?}");
        }
    }
    longest
}

/// A list in which some members request always, some often and some seldom.
fn random_list(random: &mut Random, length: usize) -> Vec<u16> {
    let (always, often) = (random.next() & random.next(), random.next());
    let mut requests = || {
        let often = often & (random.next() | random.next());
        let seldom = random.next() & random.next() & random.next();
        (always | often | seldom) as u16 & ALL
    };
    (0..length).map(|_| requests()).collect()
}

#[test]
fn the_bounds_over_random_lists() {
    let mut random = Random(53);
    let mut met = 0;
    for mask in SETS {
        let first = random.pick(&states(mask));
        for first in [State::FIRST, State::FIRST, first] {
            let list = random_list(&mut random, 120);
            let longest = longest_waits(mask, first, &list);
            for member in 0..10 {
                met += usize::from(longest[usize::from(member)] == bound(mask, member));
            }
        }
    }
    println!("bounds met: {met} of {}", 3 * 10 * 1024);
    assert!(met >= 3_000);
}

/// A member that requests alone has the grant; then all request, and it waits for all others.
#[test]
fn the_bounds_are_met() {
    for mask in SETS {
        for member in 0..10 {
            let bound = bound(mask, member);
            let list = [vec![1 << member], vec![ALL; bound]].concat();
            let longest = longest_waits(mask, State::FIRST, &list);
            assert_eq!(longest[usize::from(member)], bound, "{mask:X} {member}");
            let grants = grants(mask, &list);
            assert_eq!((grants[0], grants[bound]), (member, member));
            assert!(!grants[1..bound].contains(&member));
        }
    }
    // By hand: H = 4 and L = 6, H = 0 and L = 10, H = 10 and L = 0.
    assert_eq!([0, 9].map(|member| bound(0x0F, member)), [5, 30]);
    assert_eq!([0, 9].map(|member| bound(0, member)), [10, 10]);
    assert_eq!([0, 9].map(|member| bound(ALL, member)), [10, 10]);
}

/// The greatest wait over all lists of request sets that the member is in, from any state: that
/// from a state is one grant more than that from the states that follow, unless it is granted.
fn longest_wait(mask: u16, member: u8) -> usize {
    let states = states(mask);
    let index = |state: State| states.iter().position(|other| *other == state).unwrap();
    let follow = |last: &State| {
        let mut others: Vec<usize> = SETS
            .filter(|requests| has(*requests, member))
            .map(|requests| step(mask, *last, requests).unwrap())
            .filter(|step| step.granted != Some(member))
            .map(|step| index(step.state))
            .collect();
        others.sort_unstable();
        others.dedup();
        others
    };
    let following: Vec<Vec<usize>> = states.iter().map(follow).collect();
    let mut waits = vec![1; states.len()];
    // A member that could wait for ever would show as a wait above every bound.
    for _ in 0..40 {
        let wait = |others: &Vec<usize>| others.iter().map(|next| 1 + waits[*next]).max();
        waits = following.iter().map(|others| wait(others).unwrap_or(1)).collect();
    }
    waits.into_iter().max().unwrap()
}

/// Every list, for a mask of each H.
#[test]
fn the_bounds_over_all_lists() {
    let masks = [0, 0x008, 0x201, 0x054, 0x3C0, 0x155, 0x2BC, 0x0FE, 0x1FE, 0x3FB, ALL];
    for (h, mask) in masks.into_iter().enumerate() {
        assert_eq!(counts(mask), (h, 10 - h));
        for member in 0..10 {
            assert_eq!(longest_wait(mask, member), bound(mask, member), "{mask:X} {member}");
        }
    }
}

/// A call of operation 12.
fn call(mask: u16, last: State, requests: u16) -> Call {
    let data = u32::from(requests) << 16 | u32::from(mask);
    Call { operation: 12, node: last.high, named: last.low, data, ..Call::default() }
}

/// The call gives what the step does, and leaves both images.
fn gives_step(call: &Call, step: Result<Step, u8>) {
    match step {
        Ok(Step { granted: Some(member), state: State { high, low } }) => {
            call.gives_numbers(&[1, member, high, low].map(u64::from));
        }
        Ok(Step { granted: None, state: State { high, low } }) => {
            call.gives_numbers(&[2, high, low].map(u64::from));
        }
        Err(number) => call.refused(number),
    }
}

#[test]
fn operation_12_by_hand() {
    let numbers = |values: [&str; 4]| {
        let values = values.map(|value| [value, "00000000000000"].concat());
        [&values.concat(), &"00".repeat(32)[..]].concat()
    };
    let gives = |head: &str, number: &str, values: [&str; 4]| {
        assert_eq!(script(&hex(head)), hex(&[number, &numbers(values), "0000"].concat()));
    };
    // High 1 and 4 (0012h), none granted yet; 4 and 5 request (0030h).
    let head = "0C 00000000 0000 0000 0000 0F 0F 00 1200 3000";
    gives(head, "00", ["01", "04", "04", "0F"]);
    // The low place after 4: 5 follows 3; 9 is the only one (0200h).
    gives("0C 00000000 0000 0000 0000 04 03 00 1200 3000", "00", ["01", "05", "0A", "05"]);
    gives("0C 00000000 0000 0000 0000 04 03 00 1200 0002", "00", ["01", "09", "0A", "09"]);
    // No request.
    gives("0C 00000000 0000 0000 0000 04 03 00 1200 0000", "00", ["02", "04", "03", "00"]);
    // Bit 10 of the mask, of the request set; 3 in the high ring, 4 in the low ring.
    let none = ["00"; 4];
    gives("0C 00000000 0000 0000 0000 04 03 00 1204 3000", "14", none);
    gives("0C 00000000 0000 0000 0000 04 03 00 1200 3004", "14", none);
    gives("0C 00000000 0000 0000 0000 03 03 00 1200 3000", "14", none);
    gives("0C 00000000 0000 0000 0000 04 04 00 1200 3000", "14", none);
    gives("0C 00000000 0000 0000 0000 04 0A 00 1200 3000", "14", none);
}

/// What stands behind the head is left as it is, whatever it is, and byte enables play no part.
#[test]
fn operation_12_and_what_stands_behind_the_head() {
    let mut random = Random(54);
    let (mut accepted, mut refused) = (0, 0);
    for turn in 0..3_000 {
        let mask = random.next() as u16 & random.pick(&[ALL, ALL, ALL, 0xFFFF]);
        let requests = random.next() as u16 & random.pick(&[ALL, ALL, ALL, 0xFFFF, 0]);
        let (highs, lows) = numbers(mask & ALL);
        let mut last = state(random.pick(&highs), random.pick(&lows));
        match random.below(8) {
            0 => last.high = random.below(20) as u8,
            1 => last.low = random.below(20) as u8,
            2 => last = state(random.byte(), random.byte()),
            _ => {}
        }
        let mut call = call(mask, last, requests);
        let step = step(mask, last, requests);
        *(if step.is_ok() { &mut accepted } else { &mut refused }) += 1;
        gives_step(&call, step);
        call.enables = random.byte();
        gives_step(&call, step);
        let mut bytes = |most: u64| {
            let count = random.below(most) as usize;
            random.bytes(count)
        };
        (call.rack, call.event, call.images) = (bytes(300), bytes(60), (bytes(200), bytes(200)));
        gives_step(&call, step);
        if turn % 100 == 0 {
            // A rack that another operation takes, then the greatest counts.
            let file = one_of_each_placed();
            (call.rack, call.event, call.images) = (file.0.clone(), vec![8], file.images());
            gives_step(&call, step);
            (call.rack, call.event) = (vec![0xFF; 65_600], vec![0xFF; 65_535]);
            call.images = (vec![0xFF; 4_160], vec![0xFE; 4_160]);
            gives_step(&call, step);
        }
    }
    println!("accepted: {accepted}, refused: {refused}");
    assert!(accepted >= 1_000 && refused >= 500);
}

#[test]
fn operation_12_among_others() {
    // Counts above the greatest ones end the script as for any operation.
    let good = || call(0x0F, State::FIRST, ALL);
    Call { rack: vec![0; 65_601], ..good() }.ends();
    Call { images: (vec![0; 4_161], Vec::new()), ..good() }.ends();
    Call { images: (Vec::new(), vec![0; 4_161]), ..good() }.ends();
    // A script of steps, two of them with bytes behind the head or refused, and of a check
    // that is refused, cut short anywhere.
    let images = one_of_each_placed().images();
    let check = Call { operation: 9, rack: vec![1], images: images.clone(), ..Call::default() };
    let calls = [
        good(),
        Call { rack: vec![9; 5], images, ..call(0x0F, state(3, 15), ALL) },
        check,
        call(0x0F, state(3, 2), ALL),
        call(0x0F, state(10, 4), 0),
    ];
    let mut all = Vec::new();
    let mut ends = vec![(0, Vec::new())];
    let mut gives = Vec::new();
    for call in &calls {
        all.extend(call.bytes());
        gives.extend(script(&call.bytes()));
        ends.push((all.len(), gives.clone()));
    }
    for length in 0..=all.len() {
        let whole = ends.iter().rev().find(|(end, _)| *end <= length).unwrap();
        assert_eq!(script(&all[..length]), whole.1, "{length}");
    }
    assert_eq!(calls.map(|call| call.gives().number), [0, 0, 3, 20, 0]);
}

/// A run from the first state, step by step through the binary.
#[test]
fn operation_12_through_the_binary() {
    let mut random = Random(55);
    let (mut all, mut expected) = (Vec::new(), Vec::new());
    for _ in 0..200 {
        let mask = random.next() as u16 & ALL;
        let list = random_list(&mut random, 50);
        let mut last = State::FIRST;
        for (requests, step) in list.iter().zip(run(mask, &list).unwrap()) {
            all.extend(call(mask, last, *requests).bytes());
            last = step.state;
            let (high, low) = (u64::from(last.high), u64::from(last.low));
            let numbers = match step.granted {
                Some(member) => [1, u64::from(member), high, low],
                None => [2, high, low, 0],
            };
            expected.push(0);
            expected.extend(numbers.iter().flat_map(|number| number.to_le_bytes()));
            expected.extend([0; 34]);
        }
    }
    assert_eq!(all.len(), 18 * 10_000);
    assert_eq!(expected.len(), 67 * 10_000);
    assert!(binary(env!("CARGO_BIN_EXE_callcheck"), &all) == (expected, true));
}
