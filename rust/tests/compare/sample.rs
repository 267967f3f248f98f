//! The sample of `trial`, through the wrappers.

use crate::common::inputs::{all_landings, trial_policy, SAMPLE, TRIAL, TRIAL_READINGS};
use hemdroas::native::{check, install, load, preview, read, rewrite, run};
use hemdroas::{Answer, Ending, RunAnswer};

#[test]
fn the_sample_of_the_rules() {
    let mut words = [0; 4];
    assert_eq!(read(&SAMPLE, &mut words), Answer::Taken(4));
    let mut commands = [0; 32];
    let answer = rewrite(&TRIAL, &words, &mut commands);
    assert_eq!(answer, Answer::Taken(32));
    assert_eq!(check(&TRIAL, &commands), Answer::Taken(0));
    let policy = trial_policy();
    let (policy, landings) = (policy.lend(), all_landings());
    let mut memory = [0; 1024];
    let (answer, mut machine) = install(&TRIAL, &policy, &landings, &mut memory);
    assert_eq!(answer, Answer::Taken(0));
    let (mut list, mut cells) = ([0; 32], [0; 1024]);
    let answer = load(&TRIAL, &policy, &landings, &SAMPLE, &mut list, &mut cells);
    assert_eq!(answer, (Answer::Taken(32), machine));
    assert_eq!((list, cells), (commands, memory));

    let expected = RunAnswer {
        ending: Ending::NoArrow,
        steps: 14,
        pairs: 2,
        readings: 0,
    };
    let readings = &TRIAL_READINGS;
    let mut log = [0; 64];
    let ahead = preview(
        &TRIAL, &commands, &machine, &memory, 1000, readings, &mut log,
    );
    assert_eq!((log[..4].to_vec(), memory[0]), (vec![0, 70, 2, 70], 0));
    let mut log = [0; 64];
    let answer = run(
        &TRIAL,
        &commands,
        &mut machine,
        &mut memory,
        1000,
        readings,
        &mut log,
    );
    assert_eq!(answer, expected);
    assert_eq!((answer, machine, memory.to_vec()), ahead);
    assert_eq!((log[..4].to_vec(), memory[0]), (vec![0, 70, 2, 70], 1));
}
