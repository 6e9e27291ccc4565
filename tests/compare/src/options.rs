//! What the command line asks for.

use crate::program::Program;
use generator::Profile;
use std::time::Duration;

pub const USAGE: &str = "usage: compare --program PATH [--model roll|counts] | --self | --pairs
  --inputs N       how many lists (2000)
  --seed S         the first seed (1)
  --jobs J         lists compared at a time (2)
  --profile NAME   one profile alone
  --cover          fail where a reachable pair of call and answer, or a situation with a withdrawn bid, a tie or the requirement, is missed
  --cover-stages   fail where one is missed in a stage that reaches it
  --timeout S      seconds for one input (60)
  --any-status     let an exit status other than 0 pass";

pub enum Subject {
    Program(Program),
    Itself,
}

pub struct Options {
    pub subject: Subject,
    pub over_roll: bool,
    pub inputs: u64,
    pub seed: u64,
    pub jobs: u64,
    pub profile: Option<Profile>,
    pub cover: bool,
    pub cover_stages: bool,
    pub list_pairs: bool,
}

impl Options {
    pub fn read(mut arguments: impl Iterator<Item = String>) -> Result<Options, String> {
        let mut program = None;
        let (mut itself, mut timeout, mut status_counts) = (false, 60, true);
        let mut options = Options {
            subject: Subject::Itself,
            over_roll: false,
            inputs: 2000,
            seed: 1,
            jobs: 2,
            profile: None,
            cover: false,
            cover_stages: false,
            list_pairs: false,
        };
        while let Some(argument) = arguments.next() {
            let mut value = || arguments.next().ok_or(format!("{argument} wants a value"));
            match argument.as_str() {
                "--program" => program = Some(value()?.into()),
                "--self" => itself = true,
                "--pairs" => options.list_pairs = true,
                "--inputs" => options.inputs = number(&value()?)?,
                "--seed" => options.seed = number(&value()?)?,
                "--jobs" => options.jobs = number(&value()?)?.max(1),
                "--timeout" => timeout = number(&value()?)?,
                "--any-status" => status_counts = false,
                "--cover" => options.cover = true,
                "--cover-stages" => options.cover_stages = true,
                "--model" => options.over_roll = over_roll(&value()?)?,
                "--profile" => options.profile = Some(profile(&value()?)?),
                other => return Err(format!("unknown option {other}")),
            }
        }
        match program {
            Some(path) if !itself => {
                let timeout = Duration::from_secs(timeout);
                options.subject = Subject::Program(Program { path, timeout, status_counts });
            }
            None if itself || options.list_pairs => {}
            _ => return Err("either --program or --self".to_string()),
        }
        Ok(options)
    }
}

fn number(text: &str) -> Result<u64, String> {
    text.parse().map_err(|_| format!("{text} is no number"))
}

fn over_roll(name: &str) -> Result<bool, String> {
    match name {
        "roll" => Ok(true),
        "counts" => Ok(false),
        _ => Err(format!("no model {name}")),
    }
}

fn profile(name: &str) -> Result<Profile, String> {
    let names: Vec<String> = Profile::ALL.iter().map(|profile| profile.name()).collect();
    Profile::named(name).ok_or(format!("no profile {name}; there are {}", names.join(", ")))
}
