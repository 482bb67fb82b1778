//! Does what the command line asks for.

use crate::difference::{Difference, Saved};
use crate::driver::{Amount, Driver, Ended, FEW, Task};
use crate::layers::Layer;
use crate::record::Record;
use crate::request::{Asked, Request};
use std::fs;
use std::io::{self, Read};
use std::panic;
use std::process::{self, ExitCode};
use std::time::Duration;

/// Does what the words ask for, and says how many comparisons passed.
pub fn run(words: impl Iterator<Item = String>) -> ExitCode {
    match Request::read(words).and_then(|request| perform(&request)) {
        Ok(status) => status,
        Err(fault) => {
            println!("compare: {fault}");
            ExitCode::FAILURE
        }
    }
}

fn perform(request: &Request) -> Result<ExitCode, String> {
    if let Asked::Record(file) = &request.asked {
        return record(request.seed, file);
    }
    let mut driver = Driver::new(task(request)?, request.seed, request.shrinking);
    println!("compare: seed {}", request.seed);
    for layer in &request.layers {
        if let Asked::Total(total) = request.asked {
            driver.task = Task::Run(share(request, layer, total));
        }
        match (layer.compare)(&mut driver) {
            Ok(()) => {}
            Err(Ended::Fault(fault)) => return Err(of_file(request, fault)),
            Err(Ended::Difference(difference)) => {
                tell(request, layer, &driver, &difference)?;
                return Ok(ExitCode::FAILURE);
            }
        }
    }
    if let (Task::Replay(saved), []) = (&driver.task, driver.tally()) {
        let fault = format!("there is no comparison {}", saved.name);
        return Err(of_file(request, fault));
    }
    if matches!(request.asked, Asked::Total(_)) {
        table(&driver);
    }
    println!("compare: {} passed, 0 failed", driver.tally().len());
    Ok(ExitCode::SUCCESS)
}

/// Writes the recorded answers of a seed, and says what they reach.
fn record(seed: u64, file: &str) -> Result<ExitCode, String> {
    let record = Record::new(seed);
    print!("compare: seed {seed}\n{}", record.summary());
    let missing = record.missing();
    if !missing.is_empty() {
        return Err(format!("no case reaches {}", missing.join("; ")));
    }
    fs::write(file, record.text()).map_err(|fault| format!("{file}: {fault}"))?;
    println!("compare: {} cases recorded", record.len());
    Ok(ExitCode::SUCCESS)
}

/// A fault of the file that has a written case.
fn of_file(request: &Request, fault: String) -> String {
    match &request.asked {
        Asked::Replay(file) => format!("{file}: {fault}"),
        _ => fault,
    }
}

fn task(request: &Request) -> Result<Task, String> {
    Ok(match &request.asked {
        Asked::Own | Asked::Total(_) | Asked::Record(_) => Task::Run(Amount::Own),
        Asked::Cases(cases) => Task::Run(Amount::Each(*cases)),
        Asked::Replay(file) => {
            let text = fs::read_to_string(file).map_err(|fault| format!("{file}: {fault}"))?;
            Task::Replay(Saved::read(&text).map_err(|fault| of_file(request, fault))?)
        }
        Asked::Bytes(file) => {
            let bytes = bytes_of(file).map_err(|fault| format!("{file}: {fault}"))?;
            chosen(bytes, &request.layers)
        }
    })
}

/// The bytes of a file, or of stdin.
fn bytes_of(file: &str) -> io::Result<Vec<u8>> {
    if file != "-" {
        return fs::read(file);
    }
    let mut bytes = Vec::new();
    io::stdin().read_to_end(&mut bytes)?;
    Ok(bytes)
}

/// The first byte chooses the comparison, and the rest its input. What is not expected ends the process
/// by a signal, so that a fuzzer takes notice.
fn chosen(mut bytes: Vec<u8>, layers: &[Layer]) -> Task {
    panic::set_hook(Box::new(|info| {
        eprintln!("{info}");
        process::abort();
    }));
    let first = bytes.first().copied().unwrap_or(0);
    let random = layers.iter().flat_map(survey);
    let count = random.filter(|(_, own)| *own >= FEW).count();
    Task::Chosen {
        turn: usize::from(first) % count,
        bytes: bytes.split_off(bytes.len().min(1)),
    }
}

/// The comparisons of a layer, and how many random inputs each has of its own.
fn survey(layer: &Layer) -> Vec<(String, u64)> {
    let mut driver = Driver::new(Task::Survey, 0, Duration::ZERO);
    let told = (layer.compare)(&mut driver);
    assert!(told.is_ok(), "a survey compares nothing");
    driver.tally().to_vec()
}

/// What a layer takes of the random inputs of all.
fn share(request: &Request, layer: &Layer, total: u64) -> Amount {
    let shares: u64 = request.layers.iter().map(|layer| layer.share).sum();
    let part = u128::from(total) * u128::from(layer.share);
    Amount::Share {
        part: part.div_ceil(u128::from(shares)) as u64,
        whole: survey(layer).iter().map(|(_, own)| own).sum(),
    }
}

/// Prints a difference, and writes it to the file unless that is where it comes from.
fn tell(
    request: &Request,
    layer: &Layer,
    driver: &Driver,
    difference: &Difference,
) -> Result<(), String> {
    let (seed, name) = (request.seed, layer.name);
    println!("compare: a difference in {name}, seed {seed}\n{difference}");
    if !matches!(request.asked, Asked::Replay(_)) {
        let file = &request.file;
        fs::write(file, difference.to_string()).map_err(|fault| format!("{file}: {fault}"))?;
        println!("compare: `compare --replay {file}` runs it again");
    }
    println!("compare: {} passed, 1 failed", driver.tally().len());
    Ok(())
}

/// How many inputs each comparison took, and all.
fn table(driver: &Driver) {
    for (name, count) in driver.tally() {
        println!("{count:>12}  {name}");
    }
    let sum: u64 = driver.tally().iter().map(|(_, count)| count).sum();
    println!("{sum:>12}  inputs in all");
}

#[cfg(test)]
mod tests {
    use super::*;
    use crate::layers::LAYERS;
    use std::collections::HashSet;
    use std::env;
    use std::path::Path;

    #[test]
    fn a_total_is_shared_out() {
        let words = ["--total", "20000", "--seed", "3"].map(String::from);
        let request = Request::read(words.into_iter()).expect("it is one");
        let Amount::Share { part, whole } = share(&request, &trace(), 20_000) else {
            panic!("a share");
        };
        assert_eq!((part, whole), (3_600, 2_813_000));
    }

    /// A written case finds its comparison by the name alone.
    #[test]
    fn no_two_comparisons_have_the_same_name() {
        let all: Vec<_> = LAYERS.iter().flat_map(survey).collect();
        let names: HashSet<_> = all.iter().map(|(name, _)| name).collect();
        assert_eq!(names.len(), all.len());
    }

    /// A request that runs or writes this file.
    fn request(flag: &str, file: &Path) -> Request {
        let words = [flag.to_owned(), file.display().to_string()];
        Request::read(words.into_iter()).expect("it is one")
    }

    fn trace() -> Layer {
        let trace = LAYERS.into_iter().find(|layer| layer.name == "trace");
        trace.expect("it is there")
    }

    #[test]
    fn each_kept_case_is_replayed_without_a_difference() {
        let folder = Path::new(env!("CARGO_MANIFEST_DIR")).join("cases");
        let files = fs::read_dir(folder).expect("the folder is there");
        let mut count = 0;
        for file in files {
            let file = file.expect("it can be read").path();
            let told = perform(&request("--replay", &file));
            assert_eq!(told, Ok(ExitCode::SUCCESS), "{}", file.display());
            count += 1;
        }
        assert!(count >= 24, "{count}");
    }

    #[test]
    fn a_difference_is_written_to_its_file_and_read_again() {
        let file = env::temp_dir().join(format!("difference-{}.txt", process::id()));
        let difference = Difference {
            name: "plan".into(),
            case: "texture grid\nm 1\nn 1".into(),
            library: "0, 0".into(),
            original: "0, 1".into(),
        };
        let driver = Driver::new(Task::Survey, 0, Duration::ZERO);
        let told = tell(&request("--write", &file), &trace(), &driver, &difference);
        assert_eq!(told, Ok(()));
        let replayed = perform(&request("--replay", &file));
        fs::remove_file(&file).expect("it was written");
        assert_eq!(replayed, Ok(ExitCode::SUCCESS));
    }

    #[test]
    fn a_bad_file_is_told_in_a_sentence() {
        let file = env::temp_dir().join(format!("bad-{}.txt", process::id()));
        let told = |text: &str| {
            fs::write(&file, text).expect("it can be written");
            let told = perform(&request("--replay", &file));
            let told = told.expect_err("the file is bad");
            told.replace(&file.display().to_string(), "FILE")
        };
        let sentences = [
            ("", "FILE: its first line is not `comparison` and a name"),
            ("comparison no", "FILE: there is no comparison no"),
            (
                "comparison plan\nn 3",
                "FILE: n stands where texture should",
            ),
        ];
        for (text, sentence) in sentences {
            assert_eq!(told(text), sentence);
        }
        fs::remove_file(&file).expect("it was written");
    }
}
