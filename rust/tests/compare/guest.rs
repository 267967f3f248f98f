//! The guest rule against rewriting, checking, installing and running, all in the
//! model: they agree at each first command of a bundle and at every end.

use crate::common::inputs::{landings, layout_and_routine, policy, rewritten};
use crate::common::world::World;
use crate::common::{cases, say, seed, Rng};
use hemdroas::model::{check, install, run, Guest};
use hemdroas::names::GUEST_REGISTERS;
use hemdroas::{Answer, Status};

#[test]
fn the_machine_follows_the_guest_rule() {
    let seed = seed(20);
    let mut rng = Rng::new(seed);
    let (mut instructions, mut pairs, mut ends) = (0_u64, 0, [0; 5]);
    for _ in 0..cases(4000) {
        let (layout, words) = layout_and_routine(&mut rng);
        let commands = rewritten(&layout, &words);
        assert_eq!(check(&layout, &commands), Answer::Taken(0));
        let arrows = rng.between(70, 100);
        let policy = policy(&mut rng, layout.states, arrows);
        let policy = policy.lend();
        let landings = landings(&mut rng);
        let readings = rng.cells(300);
        let mut memory = rng.cells(layout.size as usize);
        let sandbox = layout.low as usize..=layout.high as usize;
        let cells = memory[sandbox.clone()].to_vec();
        let mut guest = Guest::new(&layout, &words, &policy, &landings, &readings, cells);
        let (answer, machine) = install(&layout, &policy, &landings, &mut memory);
        assert_eq!(answer, Answer::Taken(0));
        let mut world = World::new(run, &layout, &commands, machine, memory);
        for _ in 0..300 {
            let status = guest.step();
            world.bundle(&readings, 2);
            instructions += 1;
            assert_eq!(world.machine.status, status);
            assert_eq!(world.machine.regs[..GUEST_REGISTERS as usize], guest.regs);
            assert_eq!(world.memory[sandbox.clone()], guest.sandbox);
            assert_eq!(world.memory[layout.cell as usize], guest.state);
            assert_eq!(world.records, guest.records);
            assert_eq!(world.used, guest.used);
            if status != Status::Running {
                ends[status.number() as usize] += 1;
                break;
            }
            assert_eq!(world.machine.pc, layout.base + 4 * guest.at);
        }
        pairs += guest.records.len();
    }
    let [_, ended, stopped, faulted, strayed] = ends;
    say(&format!(
        "guest rule: seed {seed}, {instructions} instructions, {ended} ended, {stopped} stopped, {strayed} without a landing, {pairs} pairs"
    ));
    assert!(instructions > 50_000 && pairs > 5000);
    assert!(ended > 500 && stopped > 300 && strayed > 150 && faulted == 0);
}
