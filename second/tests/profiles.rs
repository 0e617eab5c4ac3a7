//! A profile for each connection: both forms, whose pair a connection opens with, and
//! tight and loose connections side by side.

mod common;
use common::*;
use exam_bench::bench::Bench;
use exam_bench::call::Call;
use exam_bench::observer::Event;
use exam_bench::player::{Goal, Lengths, Player};
use exam_bench::trial::{Tally, Trial};
use std::collections::BTreeSet;

/// The create response that gives a connection these terms.
fn created(conn: u8, [payload, credits]: [u8; 2]) -> Vec<Vec<u8>> {
    vec![vec![0x40, 4, 4, 0, payload, credits, conn]]
}

/// Eleven octets that repeat the pair of five.
fn spelled_out(short: &[u8]) -> Vec<u8> {
    [&short[..1], &short[1..3].repeat(4), &short[3..]].concat()
}

fn create(bench: &mut Bench) -> Vec<Vec<u8>> {
    command(bench, 0, 4, &[1, 0])
}

#[test]
fn five_octets_leave_the_bench_that_eleven_leave() {
    for short in [PROFILE, UNLIMITED, &[255, 1, 1, 255, 8], &[32, 255, 8, 1, 255]] {
        assert_eq!(fresh(short), fresh(&spelled_out(short)));
        let mut bench = fresh(UNLIKE);
        taken(bench.fresh(short));
        assert_eq!(bench, fresh(&spelled_out(short)));
    }
}

#[test]
fn the_create_response_gives_the_pair_of_the_id_that_it_assigns() {
    let mut bench = ready(UNLIKE);
    for (conn, pair) in &UNLIKE_PAIRS[..4] {
        assert_eq!(create(&mut bench), created(*conn, *pair));
        let (host, controller) = (bench.host().connection(*conn), bench.controller().connection(*conn));
        assert_eq!(host.unwrap().terms, controller.unwrap().terms);
    }
    assert_eq!(create(&mut bench), packets("40 04 01 01"));
}

/// The IDs go on round 2-5, each with its own pair, and pass those that are open.
#[test]
fn an_id_that_is_given_again_has_its_own_pair_again() {
    let mut bench = loopbacks(UNLIKE, 4);
    for (close, pair) in [(4, [100, 255]), (2, [1, 1]), (3, [255, 8]), (5, [4, 2])] {
        command(&mut bench, 0, 5, &[close]);
        assert_eq!(create(&mut bench), created(close, pair));
    }
    command(&mut bench, 0, 0, &[0]);
    command(&mut bench, 0, 1, &[0, 0]);
    assert_eq!(create(&mut bench), created(2, [1, 1]));
}

#[test]
fn the_static_pair_is_the_last() {
    for (profile, terms) in [(UNLIKE, "03 05"), (PROFILE, "04 01")] {
        let mut bench = discovery(profile);
        let due = packets(&format!("61 05 0B 01 01 04 00 {terms} 00 00 00 00 00"));
        assert_eq!(taken(bench.air(&[2, 1, 4, 0])).up, due);
    }
}

#[test]
fn power_keeps_every_pair_and_fresh_none() {
    let mut bench = loopbacks(UNLIKE, 3);
    taken(bench.power());
    assert_eq!(bench, fresh(UNLIKE));
    taken(bench.fresh(PROFILE));
    assert_eq!(bench, fresh(PROFILE));
    taken(bench.fresh(UNLIKE));
    assert_eq!(bench, fresh(UNLIKE));
}

/// 2 has packets of one octet and one credit, 3 packets of 255 and eight credits.
#[test]
fn a_tight_connection_waits_while_a_loose_one_goes_on() {
    let mut bench = loopbacks(UNLIKE, 2);
    taken(bench.send(2, &[1, 2]));
    taken(bench.send(3, &[7; 600]));
    assert_eq!(taken(bench.push(2)).down, packets("12 00 01 01"));
    for first in [0x13, 0x13, 0x03] {
        assert_eq!(taken(bench.push(3)).down[0][0], first);
        refuses(&bench, 9, |bench| bench.push(2));
    }
    assert_eq!([report(&bench, 2), report(&bench, 3)], [[0, 1, 0, 0, 0], [5, 3, 0, 0, 0]]);
    for _ in 0..4 {
        taken(bench.down());
    }
    taken(bench.consume(3));
    refuses(&bench, 9, |bench| bench.push(2));
    taken(bench.consume(2));
    assert_eq!([report(&bench, 2), report(&bench, 3)], [[0, 0, 0, 0, 1], [5, 0, 2, 0, 1]]);
    taken(bench.up());
    refuses(&bench, 9, |bench| bench.push(2));
    taken(bench.up());
    assert_eq!(taken(bench.push(2)).down, packets("02 00 01 02"));
    assert_eq!([report(&bench, 2), report(&bench, 3)], [[0, 1, 0, 0, 0], [6, 0, 2, 0, 0]]);
}

/// The five numbers of each come to its own grant, before and after the host has read the
/// opening.
#[test]
fn each_connection_has_its_own_grant() {
    let mut bench = ready(UNLIKE);
    for (conn, [_, credits]) in &UNLIKE_PAIRS[..4] {
        answers(&mut bench, 0, 4, &[1, 0]);
        let unread = if *credits == 255 { [255, 0, 0, 0, 0] } else { [0, 0, 0, 0, *credits] };
        assert_eq!(report(&bench, *conn), unread);
        read_up(&mut bench);
        assert_eq!(report(&bench, *conn), [*credits, 0, 0, 0, 0]);
    }
}

// The observer.

/// A loopback that opens with another pair than its own is noticed, also where the pair is
/// that of its neighbour.
#[test]
fn an_opening_with_another_pair_is_noticed() {
    for profile in [UNLIKE, PROFILE] {
        for (at, octets) in [(4, [9, 2]), (4, [4, 3]), (4, [255, 8]), (4, [3, 5])] {
            let mut calls = vec![Call::Fresh(profile.to_vec())];
            calls.extend(opening(1));
            let mut events = played(&mut fresh(PROFILE), &calls);
            observed(&events).unwrap();
            let response = place_of_create(&events);
            events[response].outcome.up[0][at..at + 2].copy_from_slice(&octets);
            assert!(observed(&events).unwrap_err().contains("where the profile has"));
        }
    }
}

/// Where the create response is put up.
fn place_of_create(events: &[Event]) -> usize {
    let is_create = |event: &Event| event.outcome.up.first().is_some_and(|packet| packet[..2] == [0x40, 4]);
    events.iter().position(is_create).unwrap()
}

// What the player deals.

fn begun(seed: u64, lists: usize) -> Vec<Vec<u8>> {
    let mut player = Player::new(seed, Lengths::Short);
    (0..lists).map(|_| player.begin()).collect()
}

#[test]
fn half_of_the_profiles_have_eleven_octets_and_all_are_inside_their_limits() {
    let profiles = begun(21, 2_000);
    assert!(profiles.iter().all(|profile| Bench::new(profile).is_some()));
    let long = profiles.iter().filter(|profile| profile.len() == 11).count();
    assert!((800..1_200).contains(&long), "{long}");
}

#[test]
fn each_of_2_to_5_is_tight_beside_a_loose_one() {
    let mut met = BTreeSet::new();
    for profile in begun(22, 2_000).iter().filter(|profile| profile.len() == 11) {
        let pairs: Vec<&[u8]> = profile[1..9].chunks(2).collect();
        let tight = |pair: &&[u8]| pair[0] <= 3 && pair[1] == 1;
        let loose = |pair: &&[u8]| pair[0] >= 64 && pair[1] >= 8;
        if pairs.iter().any(loose) {
            met.extend(pairs.iter().zip(2..=5).filter(|(pair, _)| tight(pair)).map(|(_, conn)| conn));
        }
    }
    assert_eq!(met, BTreeSet::from([2, 3, 4, 5]));
}

#[test]
fn short_profiles_alone_where_they_are_asked_for() {
    let mut player = Player::new(23, Lengths::Any).with_short_profiles();
    for _ in 0..300 {
        let mut bench = fresh(&player.begin());
        for _ in 0..50 {
            let call = player.next_call(&bench);
            assert!(!matches!(&call, Call::Fresh(profile) if profile.len() != 5));
            bench.play(&call);
        }
    }
}

/// Where a profile has an octet outside its limits: its length and the place.
fn outside(profile: &[u8]) -> BTreeSet<(usize, usize)> {
    let inside = |place: usize, octet: u8| match place {
        0 => octet >= 32,
        place if place % 2 == 1 => octet >= 1,
        _ => (1..=8).contains(&octet) || octet == 255,
    };
    let places = (0..profile.len()).filter(|place| !inside(*place, profile[*place]));
    places.map(|place| (profile.len(), place)).collect()
}

/// Each octet of both forms by itself.
#[test]
fn lists_that_are_led_there_meet_every_octet_of_a_profile_outside_its_limits() {
    let mut player = Player::new(24, Lengths::Short);
    let mut met = BTreeSet::new();
    for _ in 0..400 {
        let mut bench = fresh(&player.begin_towards(Goal::ArgumentsOutside));
        for _ in 0..40 {
            let call = player.next_call(&bench);
            if let (Call::Fresh(profile), 3) = (&call, bench.play(&call).answer) {
                assert_eq!(outside(profile).len(), 1);
                met.extend(outside(profile));
            }
        }
    }
    let all = [5, 11].into_iter().flat_map(|octets| (0..octets).map(move |place| (octets, place)));
    assert_eq!(met, all.collect());
}

/// Numbers of octets that no line says are met where no line has to say them.
#[test]
fn random_lists_meet_profiles_of_other_lengths() {
    let mut met = BTreeSet::new();
    let mut player = Player::new(25, Lengths::Any);
    let mut tally = Tally::default();
    while tally.calls < 300_000 {
        let mut trial = Trial::begin(&player.begin(), &mut tally).unwrap();
        for _ in 0..200 {
            let call = player.next_call(&trial.bench);
            if let Call::Fresh(profile) = &trial.step(call, &mut tally).unwrap().call {
                met.insert(profile.len());
            }
        }
    }
    assert!(met.is_superset(&BTreeSet::from([4, 5, 6, 10, 11, 12])), "{met:?}");
}

/// What the tally asks of random lists is not met without profiles of eleven octets.
#[test]
fn lists_of_short_profiles_leave_gaps() {
    let mut tally = Tally::default();
    let mut player = Player::new(27, Lengths::Any).with_short_profiles();
    while tally.calls < 150_000 {
        let mut trial = Trial::begin(&player.begin(), &mut tally).unwrap();
        for _ in 0..200 {
            let call = player.next_call(&trial.bench);
            trial.step(call, &mut tally).unwrap();
        }
    }
    assert_eq!(tally.gaps(), ["profile:11", "unlike:2", "unlike:3", "unlike:4", "unlike:5"]);
}

/// Every connection is open at once with one of another grant, at both ends.
#[test]
fn random_lists_have_connections_of_unlike_grants_open_at_once() {
    let mut met = BTreeSet::new();
    let mut player = Player::new(26, Lengths::Short);
    for _ in 0..200 {
        let mut bench = fresh(&player.begin());
        for _ in 0..200 {
            bench.play(&player.next_call(&bench));
            met.extend(unlike(&bench));
        }
    }
    assert_eq!(met, BTreeSet::from([2, 3, 4, 5]));
}

/// The loopbacks open at both ends beside one with another grant.
fn unlike(bench: &Bench) -> Vec<u8> {
    let grants = |conn: u8| {
        let (host, controller) = (bench.host().connection(conn)?, bench.controller().connection(conn)?);
        assert_eq!(host.terms.credits, controller.terms.credits);
        Some((conn, host.terms.credits))
    };
    let open: Vec<(u8, u8)> = (2..=5).filter_map(grants).collect();
    let unlike = |(_, grant): &&(u8, u8)| open.iter().any(|(_, other)| other != grant);
    open.iter().filter(unlike).map(|(conn, _)| *conn).collect()
}
