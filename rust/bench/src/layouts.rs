//! Starts the programs of all layouts in turn, and keeps the best figures of each.

use crate::figure::Figure;
use std::path::PathBuf;
use std::process::{Command, Stdio};
use std::str::FromStr;

/// The word that makes a program print its figures.
pub const MEASURE: &str = "measure";

/// How often each program is started. They take turns, so that a machine that slows down for a while does so for all.
pub const ROUNDS: usize = 8;

/// A program of the same sources as the others, whose code the linker put elsewhere.
#[derive(Debug, PartialEq, Eq)]
pub struct Layout {
    pub name: String,
    pub program: PathBuf,
}

impl FromStr for Layout {
    type Err = String;

    fn from_str(word: &str) -> Result<Layout, String> {
        let (name, program) = word.split_once('=').ok_or_else(|| format!("`{word}` is not NAME=PROGRAM"))?;
        Ok(Layout { name: name.into(), program: program.into() })
    }
}

/// For each case and call, the best figures of each layout.
pub fn measure(layouts: &[Layout], subjects: usize) -> Result<Vec<Vec<Figure>>, String> {
    let mut best: Vec<Vec<Figure>> = vec![Vec::new(); subjects];
    for round in 0..ROUNDS {
        for (i, layout) in layouts.iter().enumerate() {
            let figures = figures(layout, subjects).map_err(|fault| format!("layout {}: {fault}", layout.name))?;
            for (best, figure) in best.iter_mut().zip(figures) {
                match round {
                    0 => best.push(figure),
                    _ => best[i] = best[i].best(figure)?,
                }
            }
        }
    }
    best.iter().try_for_each(|figures| all_alike(figures))?;
    Ok(best)
}

/// What the program of a layout prints, if it succeeds.
fn figures(layout: &Layout, subjects: usize) -> Result<Vec<Figure>, String> {
    let program = layout.program.display();
    let output = Command::new(&layout.program).arg(MEASURE).stderr(Stdio::inherit()).output();
    let output = output.map_err(|error| format!("{program}: {error}"))?;
    if !output.status.success() {
        return Err(format!("{program} failed: {}", output.status));
    }
    parse(&String::from_utf8_lossy(&output.stdout), subjects)
}

/// The figures in as many lines.
fn parse(said: &str, subjects: usize) -> Result<Vec<Figure>, String> {
    let figures: Vec<Figure> = said.lines().map(str::parse).collect::<Result<_, _>>()?;
    if figures.len() != subjects {
        return Err(format!("{} lines and not {subjects}", figures.len()));
    }
    Ok(figures)
}

/// An error where not the same came of a call in every layout.
fn all_alike(figures: &[Figure]) -> Result<(), String> {
    figures.windows(2).try_for_each(|pair| pair[0].best(pair[1]).map(|_| ()))
}

#[cfg(test)]
mod tests {
    use super::{all_alike, figures, measure, parse, Figure, Layout};

    const FIGURE: Figure = Figure { facts: [1, 2], times: [3, 4] };

    #[test]
    fn a_layout_is_a_name_and_a_program() {
        let layout = Layout { name: "plain".into(), program: "/a/b=c".into() };
        assert_eq!("plain=/a/b=c".parse(), Ok(layout));
        assert!("plain".parse::<Layout>().is_err());
    }

    #[test]
    fn a_line_for_each_subject_is_read() {
        let other = Figure { times: [5, 6], ..FIGURE };
        assert_eq!(parse("1 2 3 4\n1 2 5 6\n", 2), Ok(vec![FIGURE, other]));
        assert!(parse("1 2 3 4\n", 2).is_err());
        assert!(parse("1 2 3 4\n1 2 5 6\n", 1).is_err());
        assert!(parse("1 2 3 4\nbench: 6\n", 2).is_err());
    }

    #[test]
    fn facts_that_differ_between_layouts_are_a_fault() {
        assert_eq!(all_alike(&[FIGURE, FIGURE, Figure { times: [9, 9], ..FIGURE }]), Ok(()));
        assert!(all_alike(&[FIGURE, FIGURE, Figure { facts: [1, 3], ..FIGURE }]).is_err());
    }

    /// `true` and `false` stand for programs that end well, without a line, and badly.
    #[test]
    fn a_program_that_fails_is_a_fault() {
        let layout = |program: &str| Layout { name: "plain".into(), program: program.into() };
        assert_eq!(figures(&layout("true"), 0), Ok(vec![]));
        assert!(figures(&layout("true"), 1).is_err());
        assert!(figures(&layout("false"), 0).is_err());
        assert!(figures(&layout("/no/such/program"), 0).is_err());
        assert!(measure(&[layout("true"), layout("false")], 0).is_err());
    }
}
