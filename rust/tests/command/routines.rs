//! assemble, list, check and forward.

use crate::common::inputs::{bytes_of, layout_and_routine, some_bytes, SAMPLE, TRIAL};
use crate::common::{cases, say, seed, Rng};
use crate::{command, file, folder};
use hemdroas::native::{read, write};
use hemdroas::text::{assemble, listing, Listed, Names};
use hemdroas::{model, Answer};
use std::fs;

/// Names for some of the events.
fn some_names(rng: &mut Rng) -> Names {
    let mut names = Names::default();
    for event in 0..16 {
        if rng.chance(40) {
            let name = format!("event-{}", rng.pick(&["a", "b", "c"]));
            // A name that is taken stays with its event.
            let _ = names.add(&event.to_string(), &format!("{name}{event}"));
        }
    }
    names
}

/// Bytes that reading takes are listed as text that is assembled to the same
/// bytes, and the words come back too.
fn there_and_back(rng: &mut Rng, bytes: &[u8]) -> usize {
    let names = some_names(rng);
    let mut words = vec![0; 1023];
    let Answer::Taken(count) = read(bytes, &mut words) else {
        panic!("a routine is not read");
    };
    words.truncate(count as usize);
    let listed = Listed {
        words: &words,
        text: None,
        names: &names,
        signed: rng.chance(50),
    };
    let text = listing(&listed, |_| Vec::new());
    let routine =
        assemble(text.as_bytes(), &names).unwrap_or_else(|faults| panic!("{faults:?}\n{text}"));
    assert_eq!(routine.words, words, "{text}");
    let mut again = vec![0; 2 + 10 * 1023];
    let answer = write(&routine.words, &mut again);
    assert_eq!(answer, Answer::Taken(bytes.len() as u32), "{text}");
    assert_eq!(&again[..bytes.len()], bytes, "{text}");
    words.len()
}

#[test]
fn assembling_takes_listings_back() {
    let mut rng = Rng::new(seed(25));
    let (routines, mut others, mut instructions) = (cases(100_000), 0, 0);
    for _ in 0..routines {
        let (_, words) = layout_and_routine(&mut rng);
        instructions += there_and_back(&mut rng, &bytes_of(&words));
        // Bytes from elsewhere, with fields and targets that no honest routine has.
        let bytes = some_bytes(&mut rng);
        if read(&bytes, &mut [0; 1023]).is_taken() {
            instructions += there_and_back(&mut rng, &bytes);
            others += 1;
        }
    }
    say(&format!(
        "assemble after list: {routines} random routines and {others} from loose bytes, {instructions} instructions, the same bytes"
    ));
}

#[test]
fn jumps_behind_the_end_are_listed_too() {
    // GOIF always, 9 in a routine of one instruction.
    let bytes = [1, 0, 0x21, 10, 9, 0, 0, 0];
    there_and_back(&mut Rng::new(0), &bytes);
    let folder = folder("behind");
    let text = file(&folder, "text", "GOIF always, 9\n");
    let out = file(&folder, "out", "");
    let came = command(&["assemble", &text, "-o", &out]);
    came.printed(0, "");
    came.ended(
        0,
        "text:1:14: warning: 9 is past the routine's end, which is 1*bad landing (8)",
    );
    assert_eq!(fs::read(&out).unwrap(), bytes);
    command(&["check", &text, "--drum", "sample.drum"])
        .refused(":1:*refused as bad landing (8), instruction 0");
    command(&["check", &out, "--drum", "sample.drum"])
        .refused("refused as bad landing (8), instruction 0: GOIF always, 9");
}

#[test]
fn the_sample() {
    let folder = folder("sample");
    let out = file(&folder, "bytes", "");
    command(&[
        "assemble",
        "sample.routine",
        "--drum",
        "sample.drum",
        "-o",
        &out,
    ])
    .printed(0, "");
    assert_eq!(fs::read(&out).unwrap(), SAMPLE);
    let listed =
        "    SET r0, 70  # 0\n    EVENT 0     # 1\n    EVENT 2     # 2\n    EVENT 0     # 3\n";
    command(&["list", &out]).printed(0, listed);
    let bundles = command(&["list", &out, "--drum", "sample.drum", "--bundles"]);
    bundles.printed(0, include_str!("stored/sample.bundles"));
    let text = file(&folder, "text", &bundles.out);
    let again = file(&folder, "again", "");
    command(&["assemble", &text, "--drum", "sample.drum", "-o", &again]).printed(0, "");
    assert_eq!(fs::read(&again).unwrap(), SAMPLE);
    for routine in [&out, "sample.routine"] {
        let taken = format!("{routine}: taken: 4 instructions, 8 bundles, 32 commands at 4096 to 4127, landings all");
        command(&["check", routine, "--drum", "sample.drum"]).printed(0, &format!("{taken}\n"));
        command(&[
            "check",
            routine,
            "--drum",
            "sample.drum",
            "--policy",
            "sample.policy",
        ])
        .printed(0, &format!("{taken}, installed\n"));
        command(&["forward", routine, "--drum", "sample.drum"]).printed(
            0,
            "forward: it ends or stops within 29 steps over all its runs\n",
        );
    }
}

#[test]
fn every_instruction_of_a_text() {
    let text = "\
start: halt # the end, at once
    SET r14, 0xFFFFFFFF
    SET r1, -1
    MOVE r1, r2
    ADD r3,r1,r2
    SUB r3, r1, r2
    AND r3, r1, r2
    OR r3, r1, r2
    SAR r1, r2, 31
    LOAD r1, r2
    STORE r1, r2
loop: again:
    GOIF r1, r2, below, loop
    GOIF r1, r2, less, end
    GOIF always, start
    GOX r3, r1, r2, equal
    GOX r3, always
    EVENT gas
    EVENT 15
end:
";
    let mut names = Names::default();
    names.add("0", "gas").unwrap();
    let routine = assemble(text.as_bytes(), &names).unwrap();
    let expected: [u64; 18] = [
        0x0000_0000_0000_0000,
        0xffff_ffff_0000_0e01,
        0xffff_ffff_0000_0101,
        0x0000_0000_0000_2102,
        0x0000_0000_0002_1303,
        0x0000_0000_0002_1304,
        0x0000_0000_0002_1305,
        0x0000_0000_0002_1306,
        0x0000_001f_0000_2107,
        0x0000_0000_0000_2108,
        0x0000_0000_0002_1009,
        0x0000_000b_0022_100a,
        0x0000_0012_0032_100a,
        0x0000_0000_0000_000a,
        0x0000_0000_0012_130b,
        0x0000_0000_0000_030b,
        0x0000_0000_0000_000c,
        0x0000_000f_0000_000c,
    ];
    assert_eq!(routine.words, expected);
    assert_eq!(
        routine.lines(),
        [1, 2, 3, 4, 5, 6, 7, 8, 9, 10, 11, 13, 14, 15, 16, 17, 18, 19]
    );
}

#[test]
fn refusals_of_texts_name_their_line() {
    let folder = folder("texts");
    let said = [
        (
            "SET r15, 1\n",
            ":1:*refused as off grade (4), instruction 0",
        ),
        (
            "HALT\n\nSAR r1, r2, 32 # too far\n",
            ":3:*refused as off grade (4), instruction 1",
        ),
        ("EVENT 16\n", ":1:*refused as off grade (4), instruction 0"),
        ("SET r16, 1\n", ":1:*: error: 'r16' is no register"),
        (
            "SET r1, 4294967296\n",
            ":1:*: error: '4294967296' has more than 32 bits",
        ),
        ("SET r1, 0x\n", ":1:*: error: '0x' is no number"),
        (
            "SET r1 200\n",
            ":1:8: error: a comma is missing before '200', as in 'SET r1, 200'",
        ),
        (
            "SET r1,, 5\n",
            ":1:8: error: a comma is too many: it goes as in 'SET r1, 200'",
        ),
        (
            "SET r1, 5, 6\n",
            ":1:12: error: '6' is one operand too many, as in 'SET r1, 200'",
        ),
        (
            "; note\n",
            ":1:1: error: ';' is no instruction; a comment begins with #",
        ),
        (
            "loop\n",
            ":1:1: error: 'loop' is no instruction; a label ends with a colon",
        ),
        ("SET r1,\n", ":1:8: error: a number is missing"),
        ("SET , 5\n", ":1:5: error: a register is missing"),
        ("SET r1, +5\n", ":1:*: error: '+5' is no number"),
        ("JUMP loop\n", ":1:*: error: 'JUMP' is no instruction"),
        (
            "GOIF r1, r2, above, 0\n",
            ":1:*: error: 'above' is no condition",
        ),
        (
            "GOIF always, nowhere\n",
            ":1:*: error: no line has the label 'nowhere'",
        ),
        ("a:\na: HALT\n", ":2:*: error: the label 'a' stands twice"),
        ("4: HALT\n", ":1:*: error: '4' cannot be a label"),
        ("EVENT gas\n", ":1:*: error: no event is named 'gas'"),
        ("HALT r1\n", ":1:6: error: HALT takes no operand"),
    ];
    for (text, expected) in said {
        let path = file(&folder, "text", text);
        let out = folder.join("out");
        let came = command(&["assemble", &path, "-o", out.to_str().unwrap()]);
        came.refused(expected);
        assert!(
            !out.exists(),
            "nothing is written where something is refused"
        );
    }
    let long = file(&folder, "long", "HALT\n".repeat(1024));
    command(&["assemble", &long, "-o", "-"]).refused("refused as oversize (5)");
    let fits = file(&folder, "fits", "HALT\n".repeat(1023));
    let out = file(&folder, "fits.bytes", "");
    command(&["assemble", &fits, "-o", &out]).printed(0, "");
    let halts: String = (0..1023)
        .map(|place| format!("    HALT  # {place}\n"))
        .collect();
    command(&["list", &out]).printed(0, &halts);
}

#[test]
fn refusals_of_bytes_name_their_instruction() {
    let folder = folder("bytes");
    let said: [(&[u8], &str); 10] = [
        (&[], "refused as short weight (1), instruction 0"),
        (&[1], "refused as short weight (1), instruction 0"),
        (b"\n", "refused as short weight (1), instruction 0"),
        (&[2, 0, 0], "refused as short weight (1), instruction 1"),
        (&[1, 0, 64], "refused as foreign matter (2), instruction 0"),
        (
            &[1, 0, 1, 13],
            "refused as unknown variety (3), instruction 0",
        ),
        (&[1, 0, 3, 2, 15], "refused as off grade (4), instruction 0"),
        (&[0, 4], "refused as oversize (5)"),
        (&[1, 0, 0, 0], "refused as overweight (6)"),
        (
            &[2, 0, 0, 0x23, 1, 1, 0, 0, 0, 0],
            "refused as foreign matter (2), instruction 1",
        ),
    ];
    for (bytes, expected) in said {
        let path = file(&folder, "routine", bytes);
        let out = folder.join("out");
        command(&["list", &path, "-o", out.to_str().unwrap()]).refused(expected);
        assert!(!out.exists());
        for name in ["check", "forward"] {
            command(&[name, &path, "--drum", "sample.drum"]).refused(expected);
        }
        for name in ["run", "preview", "step"] {
            let policy = ["--drum", "sample.drum", "--policy", "sample.policy"];
            command(&[&[name, path.as_str()], &policy[..]].concat()).refused(expected);
        }
    }
}

#[test]
fn forward_or_not() {
    command(&["forward", "roast.routine", "--drum", "roast.drum"])
        .refused(":15:*refused as not forward (18), instruction 11");
    let folder = folder("forward");
    let jumps = file(&folder, "jumps", "HALT\nGOX r1, always\n");
    command(&["forward", &jumps]).refused(":2:*refused as not forward (18), instruction 1");
    let fine = file(&folder, "fine", "GOIF always, end\nSET r0, 1\nend: HALT\n");
    command(&["forward", &fine]).printed(
        0,
        "forward: it ends or stops within 13 steps over all its runs\n",
    );
}

/// What the command says of any bytes is what the model answers.
#[test]
fn the_command_answers_as_the_model_does() {
    let folder = folder("any");
    let mut rng = Rng::new(seed(28));
    let (mut taken, mut refused) = (0, 0);
    for _ in 0..cases(300) {
        let bytes = some_bytes(&mut rng);
        // Two bytes that begin no count up to 1023 may be the start of a text.
        let is_plain = |byte: &u8| *byte >= b' ' || b"\t\r\n".contains(byte);
        if bytes.iter().take(2).all(is_plain) {
            continue;
        }
        let path = file(&folder, "routine", &bytes);
        let mut words = vec![0; 1023];
        let mut answer = model::read(&bytes, &mut words);
        let listed = command(&["list", &path]);
        assert_eq!(listed.status, i32::from(!answer.is_taken()), "{bytes:?}");
        if let Answer::Taken(count) = answer {
            words.truncate(count as usize);
            answer = model::rewrite(&TRIAL, &words, &mut [0; 4096]);
        }
        let checked = command(&["check", &path, "--drum", "sample.drum"]);
        match answer {
            Answer::Taken(_) => {
                taken += 1;
                assert_eq!(checked.status, 0, "{}", checked.error);
                let came = command(&["forward", &path]);
                let number = model::forward(&words).number();
                assert_eq!(came.status, i32::from(number != 0), "{}", came.error);
            }
            Answer::Refused { refusal, place } => {
                refused += 1;
                checked.refused(&format!("refused as {refusal} ({})", refusal.number()));
                if [1, 2, 3, 4, 8].contains(&refusal.number()) {
                    checked.refused(&format!(", instruction {place}"));
                }
            }
        }
    }
    assert!(taken > 50 && refused > 50, "{taken} {refused}");
}
