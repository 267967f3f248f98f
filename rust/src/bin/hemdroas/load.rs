//! Loads a routine on a drum, up to the point where it can run.

use super::args::Args;
use super::drums::DrumFile;
use super::making::{make, policy};
use super::problem::Problem;
use super::prompt::sure;
use super::report::Report;
use super::sources::{commands, Routine};
use hemdroas::names::MOST_CELLS;
use hemdroas::text::{Names, Scales, Table};
use hemdroas::{native, Answer, Ceilings, Layout, Machine, Refusal};

/// A policy, and the file that it was made of.
pub struct PolicyOf {
    path: String,
    pub table: Table,
    ceilings: Ceilings,
}

/// The drum and the policy of the arguments.
pub struct Setup {
    pub drum: DrumFile,
    pub policy: Option<PolicyOf>,
    /// The names of events, of both.
    pub names: Names,
}

/// A routine that was rewritten and checked for a drum.
pub struct Checked {
    pub layout: Layout,
    pub routine: Routine,
    pub landings: Vec<u32>,
    pub commands: Vec<u64>,
}

/// A stand: the machine and the memory of a routine at one moment of its runs.
#[derive(Clone)]
pub struct Stand {
    pub machine: Machine,
    pub memory: Vec<u32>,
}

/// A routine on a drum, installed.
pub struct Loaded {
    pub checked: Checked,
    pub names: Names,
    pub scales: Scales,
    pub policy: Table,
    /// Its stand after installing.
    pub first: Stand,
}

impl Loaded {
    pub fn layout(&self) -> &Layout {
        &self.checked.layout
    }

    pub fn routine(&self) -> &Routine {
        &self.checked.routine
    }

    /// The policy's state, as the state cell of a memory holds it.
    pub fn state_in(&self, memory: &[u32]) -> u32 {
        memory[self.layout().cell as usize]
    }

    /// A state with its number and name.
    pub fn state_text(&self, state: u32) -> String {
        format!("{state} {}", self.policy.name(state))
    }

    /// The scale of an event.
    pub fn scale(&self, event: u32) -> u32 {
        self.scales.get(event as usize).copied().unwrap_or(1)
    }
}

impl Setup {
    /// The drum and, where one is named, the policy of the arguments.
    pub fn of(args: &Args) -> Result<Setup, Problem> {
        let drum = DrumFile::of(args.needed("--drum")?)?;
        let Some(path) = args.value("--policy") else {
            let names = drum.drum.names.clone();
            return Ok(Setup {
                drum,
                policy: None,
                names,
            });
        };
        let file = policy(path, &drum.drum.names)?;
        let table = make(path, &file)?.table;
        let ceilings = file.said.ceilings;
        let path = path.to_string();
        Ok(Setup {
            drum,
            policy: Some(PolicyOf {
                path,
                table,
                ceilings,
            }),
            names: file.said.names,
        })
    }

    /// The layout. If the drum leaves S out, it is the policy's. Each ceiling is the
    /// smaller of both.
    fn layout(&self) -> Layout {
        let Some(policy) = &self.policy else {
            return self.drum.drum.layout;
        };
        let mut layout = self.drum.drum.layout_for(policy.table.states.len() as u32);
        for (most, &other) in layout.ceilings.iter_mut().zip(&policy.ceilings) {
            *most = (*most).min(other);
        }
        layout
    }

    /// Refuses a drum that is not right, whatever the routine is.
    pub fn sound(&self) -> Result<(), Problem> {
        self.drum.sound(&self.layout())
    }

    /// The routine of a file.
    pub fn read(&self, path: &str) -> Result<Routine, Problem> {
        Routine::of_file(path, &self.names)
    }

    /// A routine of a file, rewritten and checked by the library.
    pub fn check(&self, path: &str) -> Result<Checked, Problem> {
        let layout = self.layout();
        let routine = self.read(path)?;
        self.sound()?;
        let commands = commands(&self.drum, &layout, &routine)?;
        let landings = self.drum.drum.landings.of(routine.landings());
        Ok(Checked {
            layout,
            routine,
            landings,
            commands,
        })
    }

    /// A routine of a file, installed by the library on memory whose cells are 0.
    pub fn load(&self, path: &str) -> Result<Loaded, Problem> {
        let Some(policy) = &self.policy else {
            return Err(Problem::Usage("--policy is missing".to_string()));
        };
        let checked = self.check(path)?;
        let layout = &checked.layout;
        let mut memory = vec![0; layout.size.min(MOST_CELLS) as usize];
        let table = &policy.table;
        let (answer, machine) =
            native::install(layout, &table.policy(), &checked.landings, &mut memory);
        if let Answer::Refused {
            refusal: Refusal::BadPolicy,
            ..
        } = answer
        {
            let (states, room, drum) = (table.states.len(), layout.states, &self.drum.path);
            let message = format!("it has {states} states, and S of {drum} is {room}; without its line S a drum takes any");
            return Err(Report::refusal(&policy.path, Refusal::BadPolicy, message).into());
        }
        self.drum.taken(layout, &checked.routine, answer)?;
        self.drum.write_cells(&mut memory);
        Ok(Loaded {
            names: self.names.clone(),
            scales: self.drum.drum.scales,
            policy: table.clone(),
            first: Stand { machine, memory },
            checked,
        })
    }
}

/// Loads the routine, drum and policy of the arguments. The library reads, rewrites,
/// checks and installs. Listed readings with a comma that may be a decimal point are
/// refused.
pub fn load(args: &Args) -> Result<Loaded, Problem> {
    let loaded = Setup::of(args)?.load(args.file(0))?;
    let finest = loaded.scales.iter().copied().max().unwrap_or(1);
    let listed = args.value("--readings").unwrap_or("");
    sure(listed, finest).map_err(|said| Problem::Usage(format!("--readings: {said}")))?;
    Ok(loaded)
}
