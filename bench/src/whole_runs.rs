//! Times whole runs of a proved program and of the plain one, taking turns, once they are seen to
//! print the same.

use std::fs::File;
use std::path::{Path, PathBuf};
use std::process::{Command, ExitCode, Stdio};
use std::time::Instant;
use std::{env, io};

/// The two programs, and how often each is run.
pub struct Pair {
    names: [&'static str; 2],
    programs: [PathBuf; 2],
    runs: usize,
}

/// What each of them is given, if anything, and what each must print.
pub struct Job<'a> {
    pub input: Option<&'a Path>,
    pub lines: &'a [u8],
}

/// Does what a timing program's `main` does: `timed` with the pair that the command line names,
/// `[PROVED [RUNS]]`, where the proved program is the one in `../target/bin` and the runs are 500 if
/// none is named.
pub fn timing(names: [&'static str; 2], timed: fn(&Pair) -> io::Result<()>) -> ExitCode {
    match Pair::named(names).and_then(|pair| timed(&pair)) {
        Ok(()) => ExitCode::SUCCESS,
        Err(fault) => {
            eprintln!("timing {}: {fault}", names[0]);
            ExitCode::FAILURE
        }
    }
}

impl Pair {
    fn named(names: [&'static str; 2]) -> io::Result<Pair> {
        let mut words = env::args().skip(1);
        let built = Path::new(env!("CARGO_MANIFEST_DIR")).join("../target/bin").join(names[0]);
        let proved = words.next().map_or(built, PathBuf::from);
        let runs = words.next().and_then(|word| word.parse().ok()).filter(|&runs| runs > 0);
        let plain = env::current_exe()?.with_file_name(names[1]);
        Ok(Pair { names, programs: [proved, plain], runs: runs.unwrap_or(500) })
    }

    /// Prints the fastest and the median run of each program in milliseconds, and those of an empty
    /// process, if both print the job's lines.
    pub fn time(&self, what: &str, job: &Job) -> io::Result<()> {
        println!("Milliseconds of a whole run{what}, {} runs each:\n", self.runs);
        self.agree(job)?;
        let times = self.take_turns(job)?;
        println!("| | fastest | median |");
        println!("|---|---:|---:|");
        for (name, mut times) in self.names.iter().chain(&["an empty process"]).zip(times) {
            times.sort_by(f64::total_cmp);
            println!("| {name} | {:.2} | {:.2} |", times[0] * 1e3, times[self.runs / 2] * 1e3);
        }
        Ok(())
    }

    fn agree(&self, job: &Job) -> io::Result<()> {
        for program in &self.programs {
            let output = job.command(program)?.output().map_err(|fault| {
                io::Error::other(format!("{} cannot be run: {fault}", program.display()))
            })?;
            if output.stdout != job.lines {
                return Err(io::Error::other(format!("{} prints other lines", program.display())));
            }
        }
        Ok(())
    }

    /// Seconds of each run of each program, and of an empty process.
    fn take_turns(&self, job: &Job) -> io::Result<[Vec<f64>; 3]> {
        let mut times = [(); 3].map(|()| Vec::with_capacity(self.runs));
        let programs = [&self.programs[0], &self.programs[1], Path::new("true")];
        for _ in 0..self.runs {
            for (program, times) in programs.iter().zip(&mut times) {
                let mut command = job.command(program)?;
                let begin = Instant::now();
                command.stdout(Stdio::null()).status()?;
                times.push(begin.elapsed().as_secs_f64());
            }
        }
        Ok(times)
    }
}

impl Job<'_> {
    fn command(&self, program: &Path) -> io::Result<Command> {
        let mut command = Command::new(program);
        match self.input {
            Some(file) => command.stdin(File::open(file)?),
            None => command.stdin(Stdio::null()),
        };
        Ok(command)
    }
}
