//! Compares the proved programs with the second implementation, on scripts and releases at random from a fixed seed.
//! differ --judge PROGRAM [--also PROGRAM] [--release PROGRAM] [--seed N] [--scripts N] [--releases N] [--jobs N] [--only PLACE] [--kinds]
//! --also names the judge as another compiler made it, which has to print the very same bytes.
//! --only tries one script of the seed; --kinds prints how often each kind of answer was met.

use peer::agree;
use peer::agree_release;
use peer::chance::Chance;
use peer::damage;
use peer::every;
use peer::parallel;
use peer::program;
use peer::reading;
use peer::scripts;
use peer::shrink;
use peer::tally::{OF_RELEASES, OF_SCRIPTS, Tally};
use peer::worked;
use std::path::{Path, PathBuf};
use std::process::ExitCode;

struct Options {
    judge: PathBuf,
    also: Option<PathBuf>,
    release: Option<PathBuf>,
    seed: u64,
    scripts: u64,
    releases: u64,
    jobs: u64,
    only: Option<u64>,
    kinds: bool,
}

/// Each kind of answer has to be met once for so many scripts or releases, or the inputs try too little.
const FOR_EACH_KIND: u64 = 200;

/// Folders on which the solvers of the second implementation are tried.
const FOLDERS: u64 = 3000;

fn main() -> ExitCode {
    match options().and_then(|options| compare(&options).map_err(|why| format!("seed {}, {why}", options.seed))) {
        Ok(line) => {
            println!("{line}");
            ExitCode::SUCCESS
        }
        Err(why) => {
            eprintln!("differ: {why}");
            ExitCode::FAILURE
        }
    }
}

fn options() -> Result<Options, String> {
    let mut options = Options {
        judge: PathBuf::new(),
        also: None,
        release: None,
        seed: 645_124_032,
        scripts: 4000,
        releases: 3000,
        jobs: 2,
        only: None,
        kinds: false,
    };
    let mut words = std::env::args().skip(1);
    while let Some(word) = words.next() {
        if word == "--kinds" {
            options.kinds = true;
            continue;
        }
        let value = words.next().ok_or(format!("{word} has no value"))?;
        let number = || value.parse::<u64>().map_err(|_| format!("{word} {value} is no number"));
        match word.as_str() {
            "--judge" => options.judge = value.into(),
            "--also" => options.also = Some(value.into()),
            "--release" => options.release = Some(value.into()),
            "--seed" => options.seed = number()?,
            "--scripts" => options.scripts = number()?,
            "--releases" => options.releases = number()?,
            "--jobs" => options.jobs = number()?,
            "--only" => options.only = Some(number()?),
            _ => return Err(format!("{word} is not known")),
        }
    }
    if options.judge.as_os_str().is_empty() {
        return Err("--judge PROGRAM is needed".into());
    }
    Ok(options)
}

fn compare(options: &Options) -> Result<String, String> {
    if let Some(place) = options.only {
        judged(options, place, &scripts::script(options.seed, place), &mut Tally::default())?;
        return Ok(format!("script {place} agrees"));
    }
    worked::agrees()?;
    parallel::each(options.jobs, FOLDERS, |place, _| {
        let mut chance = Chance::new(options.seed ^ 0xf01d, place);
        every::agrees(&every::view(&mut chance, 6), &mut chance)
    })?;
    let mut tally = all_scripts(options)?;
    tally.add(all_releases(options)?);
    if options.kinds {
        println!("{:#?}", tally.kinds);
    }
    tally.enough(OF_SCRIPTS, options.scripts / FOR_EACH_KIND)?;
    tally.enough(OF_RELEASES, options.releases / FOR_EACH_KIND)?;
    let beside = if options.release.is_some() { "agree" } else { "read by the second implementation alone" };
    Ok(format!(
        "differ: {} scripts with {} lines and {} rings agree; {} releases {beside}; seed {}",
        tally.scripts, tally.lines, tally.rings, tally.releases, options.seed
    ))
}

fn all_scripts(options: &Options) -> Result<Tally, String> {
    let mut always = scripts::every_small_folder(16);
    always.extend(scripts::SHORTEST.iter().copied().chain(worked::scripts()).map(<[u8]>::to_vec));
    parallel::each(options.jobs, options.scripts + always.len() as u64, |place, tally| match place.checked_sub(options.scripts) {
        None => judged(options, place, &scripts::script(options.seed, place), tally),
        Some(later) => judged(options, place, &always[later as usize], tally),
    })
}

/// Runs the judge on one script. Where it differs, says so with a script that is made shorter.
fn judged(options: &Options, place: u64, script: &[u8], tally: &mut Tally) -> Result<(), String> {
    let tried = |script: &[u8], tally: &mut Tally| {
        let printed = program::run(&options.judge, &[], script)?;
        agree::judged(script, &printed, tally)?;
        match &options.also {
            Some(also) if program::run(also, &[], script)? != printed => Err(format!("{} prints something else", also.display())),
            _ => Ok(()),
        }
    };
    tried(script, tally).map_err(|why| {
        let short = shrink::shorter(script, |fewer| tried(fewer, &mut Tally::default()).is_err());
        let now = tried(&short, &mut Tally::default()).err().unwrap_or_default();
        format!("script {place}: {why}\nmade shorter: {now}\n{}", short.escape_ascii().to_string().replace("\\n", "\n"))
    })
}

/// Round trips of the second implementation, then damaged releases and releases of scripts, which the program tries too where there is one.
fn all_releases(options: &Options) -> Result<Tally, String> {
    let mut tally = parallel::each(options.jobs, options.releases / 10, |place, _| {
        agree_release::round_trip(&damage::view(&mut Chance::new(options.seed ^ 0x70d0, place)))
    })?;
    if let Some((bytes, number)) = damage::WORKED.iter().find(|(bytes, number)| reading::read(bytes) != Err(*number)) {
        return Err(format!("{} is not declined by {number}", agree_release::hexadecimal(bytes)));
    }
    let mut always = damage::each(&damage::EXAMPLE);
    always.extend(damage::WORKED.iter().map(|(bytes, _)| bytes.to_vec()));
    tally.add(parallel::each(options.jobs, options.releases + always.len() as u64, |place, tally| match place.checked_sub(options.releases) {
        None => read(options.release.as_deref(), &damage::by_chance(options.seed, place), tally),
        Some(later) => read(options.release.as_deref(), &always[later as usize], tally),
    })?);
    if let Some(program) = &options.release {
        tally.add(parallel::each(options.jobs, options.scripts / 4, |place, tally| {
            let script = scripts::script(options.seed, place);
            let ended = program::ended(program, &["write"], &script)?;
            agree_release::written(&script, &ended, tally).map_err(|why| format!("release of script {place}: {why}"))
        })?);
    }
    Ok(tally)
}

fn read(program: Option<&Path>, bytes: &[u8], tally: &mut Tally) -> Result<(), String> {
    agree_release::outcome(bytes, tally)?;
    match program {
        None => Ok(()),
        Some(program) => agree_release::read(bytes, &program::ended(program, &["read"], bytes)?),
    }
}
