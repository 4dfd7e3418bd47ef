//! Demand 3 on thousands of random walks: what an analyst relies on, checked leg by leg. Floors are of all kinds, known maps and
//! estimates fresh, learned or invented, and each leg has a lookahead and a move limit of its own.

mod common;

use common::task;
use independent::cases::rng::Rng;
use independent::cases::scenes::{scene, Scene};
use independent::cases::setting;
use independent::floor::Maps;
use independent::leg::Ending::{Arrived, CutOff, UnderWay};
use independent::leg::Leg;
use independent::wrong::Planner;

/// For each cell the moves of the shortest open route to the goal, if there is one: breadth first over the plan.
fn routes(maps: &Maps, goal: usize) -> Vec<Option<usize>> {
    let mut routes = vec![None; maps.plan.len()];
    let mut reached = vec![];
    if maps.plan[goal] == 0 {
        routes[goal] = Some(0);
        reached.push(goal);
    }
    let mut next = 0;
    while next < reached.len() {
        let cell = reached[next];
        next += 1;
        for neighbour in maps.floor.neighbours(cell) {
            if maps.plan[neighbour] == 0 && routes[neighbour].is_none() {
                routes[neighbour] = routes[cell].map(|moves| moves + 1);
                reached.push(neighbour);
            }
        }
    }
    routes
}

/// The sum of all estimates but the one under the cart.
fn sum_but_cart(maps: &Maps, cart: usize) -> u64 {
    let sum: u64 = maps.est.iter().map(|&est| u64::from(est)).sum();
    sum - u64::from(maps.est[cart])
}

/// Plays one leg from the scene on, and checks what holds of every leg.
fn play(scene: &mut Scene, rng: &mut Rng, routes: &[Option<usize>]) -> Leg {
    let n = scene.maps.plan.len();
    let settings = task(scene.cart, scene.goal, setting(rng, n), setting(rng, n));
    let before = scene.maps.clone();
    let mut trail = vec![0; settings.limit];
    let leg = Planner::right().leg(&mut scene.maps, settings, &mut trail).expect("legs leave what the next one accepts");
    for (cell, route) in routes.iter().enumerate() {
        assert!(scene.maps.est[cell] >= before.est[cell], "an estimate fell");
        assert!(scene.maps.known[cell] >= before.known[cell], "a known block went away");
        let within = route.map_or(true, |moves| usize::from(scene.maps.est[cell]) <= moves);
        assert!(within, "an estimate passed the shortest open route");
    }
    let rise = sum_but_cart(&scene.maps, leg.cell) as i64 - sum_but_cart(&before, scene.cart) as i64;
    assert!(leg.moves as i64 <= rise, "{} moves, and the estimates rose by {}", leg.moves, rise);
    assert!(leg.ending != UnderWay || leg.moves > 0, "a leg that ended nothing didn't move");
    assert!(leg.opened <= settings.lookahead && leg.moves <= settings.limit);
    let mut cart = scene.cart;
    for &cell in &trail[..leg.moves] {
        assert!(before.floor.neighbours(cart).contains(&cell.into()), "a move to a cell that doesn't adjoin");
        cart = cell.into();
        assert_eq!(before.plan[cart], 0, "a move onto a blocked cell");
    }
    assert_eq!(cart, leg.cell, "the trail leads elsewhere");
    scene.cart = leg.cell;
    leg
}

/// Plays legs until one ends it; answers how it ended and how many legs there were.
fn play_out(mut scene: Scene, rng: &mut Rng) -> (Leg, usize) {
    let n = scene.maps.plan.len();
    let routes = routes(&scene.maps, scene.goal);
    let route_exists = routes[scene.cart].is_some();
    let (mut moves, mut legs) = (0, 0);
    loop {
        let leg = play(&mut scene, rng, &routes);
        moves += leg.moves;
        legs += 1;
        assert!(moves <= (n - 1) * (n - 1), "more than (N-1) squared moves");
        if leg.ending != UnderWay {
            assert_eq!(leg.ending == Arrived, route_exists, "arrives exactly when an open route exists");
            assert_eq!(leg.ending == CutOff, !route_exists, "cut off exactly when none does");
            return (leg, legs);
        }
    }
}

#[test]
fn demand_3() {
    let (mut arrived, mut cut_off, mut legs) = (0, 0, 0);
    for number in 0..6000 {
        let mut rng = Rng::new(11, number);
        let scene = scene(&mut rng);
        if scene.maps.plan[scene.cart] == 1 || scene.maps.plan.len() > 300 {
            continue;
        }
        let (leg, played) = play_out(scene, &mut rng);
        arrived += u32::from(leg.ending == Arrived);
        cut_off += u32::from(leg.ending == CutOff);
        legs += played;
    }
    println!("{} arrived, {} cut off, {} legs", arrived, cut_off, legs);
    assert!(arrived > 2000 && cut_off > 500 && legs > 10_000, "{} arrived, {} cut off, {} legs", arrived, cut_off, legs);
}

/// The same on some floors of thousands of cells.
#[test]
fn demand_3_on_large_floors() {
    let mut played = 0;
    let mut number = 0;
    while played < 12 {
        let mut rng = Rng::new(12, number);
        number += 1;
        let scene = scene(&mut rng);
        if scene.maps.plan[scene.cart] == 1 || scene.maps.plan.len() < 1000 {
            continue;
        }
        play_out(scene, &mut rng);
        played += 1;
    }
}
