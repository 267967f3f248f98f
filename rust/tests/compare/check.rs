//! Checking.

use crate::common::inputs::{
    altered_layout, any_command, base_for, damage_word, right_layout, shaped_bundle, shaped_list,
};
use crate::common::{cases, Rng, Tally};
use hemdroas::{model, native, Answer, Layout};

const NUMBERS: [u32; 5] = [0, 7, 11, 12, 13];

pub fn check(tally: &mut Tally, layout: &Layout, commands: &[u64]) -> Answer {
    let answer = model::check(layout, commands);
    let given = native::check(layout, commands);
    assert_eq!(given, answer, "checking {commands:x?} under {layout:?}");
    tally.count("check", answer.number());
    answer
}

/// Each shape with each single bit of its four words flipped.
fn each_bit_of_a_bundle(tally: &mut Tally, rng: &mut Rng) {
    for _ in 0..cases(150) {
        let bundles = 1 << rng.between(1, 4);
        let layout = right_layout(rng, bundles);
        let mut list = shaped_list(rng, &layout, bundles);
        assert_eq!(check(tally, &layout, &list), Answer::Taken(0));
        let from = 4 * rng.below(bundles);
        for word in from..from + 4 {
            for bit in 0..64 {
                list[word] ^= 1 << bit;
                let _ = check(tally, &layout, &list);
                list[word] ^= 1 << bit;
            }
        }
    }
}

/// Writes a bundle into a list, over the bundle that contains command `at`.
fn put(list: &mut [u64], at: usize, bundle: [u64; 4]) {
    let from = at / 4 * 4;
    if let Some(place) = list.get_mut(from..from + 4) {
        place.copy_from_slice(&bundle);
    }
}

/// Alters a list or its layout, in ways that a checker might overlook.
fn alter(rng: &mut Rng, layout: &mut Layout, bundles: usize, list: &mut Vec<u64>) {
    let size = list.len();
    let (x, y) = (rng.below(size), rng.below(size));
    match rng.below(10) {
        0 | 1 => list[x] = damage_word(rng, list[x]),
        2 => list.swap(x, y),
        3 => list[x] = list[y],
        4 => list[x] = any_command(rng, layout, size),
        5 => {
            let other = right_layout(rng, bundles);
            let bundle = shaped_bundle(rng, &other, bundles);
            put(list, x, bundle);
        }
        6 => {
            let bundle = shaped_bundle(rng, layout, bundles);
            put(list, size - 1, bundle);
        }
        7 => list.truncate(x),
        8 => {
            let more = rng.pick(&[1, 4, size, 3 * size, 8192 - size % 8192]);
            list.extend(vec![0; more]);
        }
        _ => match rng.below(3) {
            0 => *layout = altered_layout(rng, layout),
            1 => layout.base ^= 1 << rng.below(13),
            _ => layout.base = base_for(rng, bundles),
        },
    }
}

#[test]
fn checking() {
    let (mut tally, mut rng) = Tally::new("checking", 4);
    each_bit_of_a_bundle(&mut tally, &mut rng);
    for _ in 0..cases(25_000) {
        let bundles = if rng.chance(1) {
            1 << rng.between(6, 10)
        } else {
            1 << rng.below(6)
        };
        let mut layout = right_layout(&mut rng, bundles);
        let mut list = shaped_list(&mut rng, &layout, bundles);
        for _ in 0..rng.below(3) {
            if !list.is_empty() {
                alter(&mut rng, &mut layout, bundles, &mut list);
            }
        }
        let _ = check(&mut tally, &layout, &list);
    }
    tally.conclude(&[("check", &NUMBERS)]);
}
