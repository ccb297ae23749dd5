//! `mizzengrape run` with several routines: in turn over one memory, by the proved library.

use super::arguments::Arguments;
use super::run::{listed, told};
use super::session::Session;
use super::turns::listing;
use super::{Output, DIFFER, REFUSED, STOPPED};
use crate::diagnostics::Source;
use crate::explain::turns::{other_turns, out_of_range, overlap, shown, Order, Seat};
use crate::explain::{second_run, Explanation};
use crate::files::{read_text, IMAGE};
use crate::image::{lay_image, one_memory, Laid};
use crate::library::{self, steps, Lent, Outcome, Turns};
use crate::memory::Neighbour;
use crate::program::Program;
use oracle::dispatch::Member;

/// More turns are not listed for programs.
const MOST_TURNS: usize = 1_000_000;

/// A routine, and the image that it is lent.
pub struct Given {
    pub program: Program,
    pub image_path: String,
    pub image_text: String,
}

/// How turns are asked for and shown.
#[derive(Clone, Copy, Debug)]
pub struct Asked {
    /// The steps of a turn.
    pub quantum: u32,
    /// The steps of all routines together; by default the allowances of their images.
    pub allowance: Option<u32>,
    /// Whether the turns are listed.
    pub turns: bool,
    pub short: bool,
}

/// The routines that the arguments name.
pub fn in_turn(arguments: &Arguments) -> Result<Output, String> {
    let short = arguments.is_short();
    let (files, facts) = (&arguments.files, arguments.option("--facts"));
    if files.len() % 2 != 0 {
        return Err("error: each routine wants its image behind it: FILE IMAGE FILE IMAGE ..\n".to_string());
    }
    if facts.is_some() && files.len() > 2 {
        return Err("error: --facts is for one routine; a .words file has its list in it\n".to_string());
    }
    let asked = Asked {
        quantum: arguments.number("--quantum")?.unwrap_or(1),
        allowance: arguments.number("--allowance")?,
        turns: arguments.flag("--turns"),
        short,
    };
    let given = |pair: &[String]| {
        let program = Program::load(&pair[..1], facts, short)?;
        let image_text = read_text(&pair[1], &IMAGE, short)?;
        Ok(Given { program, image_path: pair[1].clone(), image_text })
    };
    let given = files.chunks_exact(2).map(given).collect::<Result<Vec<_>, String>>()?;
    run_in_turn(given, asked)
}

/// The turns of programs that are in memory already.
pub fn run_in_turn(given: Vec<Given>, asked: Asked) -> Result<Output, String> {
    let mut round = Round::new(given, asked)?;
    let (answer, left) = round.dispatch()?;
    let mut output = match &answer {
        Turns::Refused { routine, refusal } => round.refused(*routine as usize, *refusal)?,
        Turns::Ran(outcomes) => round.ran(outcomes, &left)?,
    };
    if let Some(other) = other_turns(round.lent(), &answer, &left.values, &left.cells) {
        output.at_odds(&round.sessions[0].program, &other);
    }
    Ok(output)
}

/// Routines with what they are lent, the memory beside them.
struct Round {
    sessions: Vec<Session>,
    cells: Vec<u32>,
    total: u32,
    asked: Asked,
}

/// What the turns left.
struct Left {
    values: Vec<Vec<u32>>,
    cells: Vec<u32>,
}

impl Round {
    /// The images of all routines in one memory: the objects of each lie behind those of the images before, unless it gives them a place.
    fn new(given: Vec<Given>, asked: Asked) -> Result<Round, String> {
        let mut laid = Vec::new();
        let mut first_cell = 1;
        for Given { program, image_path, image_text } in &given {
            // A table without a text is refused by its form: its image can name nothing.
            let image = program.text.as_ref().map_or(Ok(Laid::default()), |text| {
                lay_image(image_text, &text.parts, &text.names, first_cell)
            });
            let source = Source { name: image_path, text: image_text };
            laid.push(image.map_err(|wrong| source.error(&wrong, asked.short))?);
            first_cell = laid.iter().map(|laid| laid.end).fold(first_cell, u64::max);
        }
        let cells = one_memory(&mut laid);
        let allowances = laid.iter().map(|laid| laid.image.lent.allowance).fold(0, u32::saturating_add);
        let total = asked.allowance.unwrap_or(allowances);
        let mut sessions = Vec::new();
        for (Given { program, image_path, image_text }, Laid { mut image, .. }) in given.into_iter().zip(laid)
        {
            image.lent.allowance = total;
            let (others, short) = (Vec::new(), asked.short);
            sessions.push(Session { program, image_path, image_text, image, others, short });
        }
        let objects: Vec<Vec<Neighbour>> = sessions.iter().enumerate().map(neighbours).collect();
        for (routine, session) in sessions.iter_mut().enumerate() {
            let others = objects.iter().enumerate().filter(|(other, _)| *other != routine);
            session.others = others.flat_map(|(_, objects)| objects.clone()).collect();
        }
        Ok(Round { sessions, cells, total, asked })
    }

    /// The proved turns.
    fn dispatch(&self) -> Result<(Turns, Left), String> {
        let mut cells = self.cells.clone();
        let mut lent: Vec<Lent> = self.sessions.iter().map(|session| session.image.lent.clone()).collect();
        let mut routines = Vec::new();
        for (Session { program, short, .. }, lent) in self.sessions.iter().zip(&mut lent) {
            let routine = library::routine(&program.tables, &program.facts, lent);
            routines.push(routine.map_err(|lack| program.lacking(lack, *short))?);
        }
        let answer = library::dispatch(&mut routines, &mut cells, self.asked.quantum, self.total);
        Ok((answer, Left { values: lent.into_iter().map(|lent| lent.values).collect(), cells }))
    }

    /// The same for the second implementation.
    fn lent(&self) -> oracle::dispatch::Turns {
        let member = |Session { program, image, .. }: &Session| Member {
            table: program.tables[0].clone(),
            facts: program.facts.clone(),
            directory: image.lent.directory.clone(),
            values: image.lent.values.clone(),
            origins: image.lent.origins.clone(),
        };
        let members = self.sessions.iter().map(member).collect();
        oracle::dispatch::Turns {
            members,
            cells: self.cells.clone(),
            quantum: self.asked.quantum,
            total: self.total,
        }
    }

    /// The reason for a refusal, at the line of the text or of the image.
    fn refused(&mut self, routine: usize, refusal: mizzengrape::Refusal) -> Result<Output, String> {
        self.sessions[routine].image.lent.cells.clone_from(&self.cells);
        let (short, session) = (self.asked.short, &self.sessions[routine]);
        let out = format!("{}\n", shown(&Turns::Refused { routine: routine as u32, refusal }));
        let source = Source { name: &session.image_path, text: &session.image_text };
        let told = |reason: Explanation| Output {
            err: reason.show_in(&session.image_path, Some(source), short),
            status: REFUSED,
            ..Output::default()
        };
        let output = match refusal.number {
            15 => {
                let reason = out_of_range(self.sessions.len(), self.asked.quantum);
                Output { err: format!("error: {}\n", reason.message()), status: REFUSED, ..Output::default() }
            }
            14 => {
                let seats = self.sessions.iter();
                let seats = seats.map(|Session { program, image_path, image, .. }| Seat {
                    program,
                    image_path,
                    image,
                });
                told(overlap(&seats.collect::<Vec<_>>(), routine))
            }
            10..=12 | 16 => session.ended(&Outcome::Refused(refusal).into(), &session.image.lent, &[])?,
            _ => super::check::verdict(&session.program, short)?,
        };
        Ok(Output { out, ..output })
    }

    /// How each routine ended and what it changed; the turns before, where they are asked for.
    fn ran(&self, outcomes: &[Outcome], left: &Left) -> Result<Output, String> {
        let mut output = Output::default();
        if self.asked.turns && !self.asked.short {
            output.out =
                listing(&self.sessions, self.cells.clone(), Order::of(outcomes, self.asked.quantum))?;
        }
        for (routine, outcome) in outcomes.iter().enumerate() {
            self.end(routine, outcome, left, &mut output)?;
        }
        if self.asked.short {
            output.out.push_str(&format!("cells:{}\n", listed(&left.cells)));
            if self.asked.turns {
                output.out.push_str(&format!("order:{}\n", self.order(outcomes)));
            }
        }
        Ok(output)
    }

    /// The end of one routine, as that of a run by itself with the steps that it received.
    fn end(&self, routine: usize, outcome: &Outcome, left: &Left, output: &mut Output) -> Result<(), String> {
        let session = &self.sessions[routine];
        let lent =
            Lent { cells: self.cells.clone(), allowance: steps(outcome), ..session.image.lent.clone() };
        let values = left.values[routine].clone();
        let own = Lent { cells: self.own_cells(session, &left.cells), values, ..lent.clone() };
        let Program { tables, facts, name, .. } = &session.program;
        let second = second_run((tables, facts), &lent, &(*outcome).into(), &own);
        let ended = session.ended(&(*outcome).into(), &own, &second.frames)?;
        if !ended.err.is_empty() && !self.asked.short {
            output.err.push_str(&format!("{name}: in routine {routine}, lent {}:\n", session.image_path));
        }
        output.err.push_str(&ended.err);
        output.status = worse(output.status, ended.status);
        if let Some(other) = second.other {
            output.at_odds(&session.program, &other);
        }
        let end = match self.asked.short {
            true => format!("routine {routine}: {outcome}\nvalues:{}\n", listed(&own.values)),
            false => {
                let told = told(session, &lent, &own, &(*outcome).into(), &second.frames)?;
                format!("routine {routine}, {name} lent {}: {told}", session.image_path)
            }
        };
        output.out.push_str(&end);
        Ok(())
    }

    /// The memory with what became of a routine's own objects.
    fn own_cells(&self, session: &Session, left: &[u32]) -> Vec<u32> {
        let mut cells = self.cells.clone();
        for pair in session.image.lent.directory.chunks_exact(2) {
            let own = pair[0] as usize..(pair[0] + pair[1]) as usize;
            cells[own.clone()].copy_from_slice(&left[own]);
        }
        cells
    }

    /// ` 0:3 1:3 0:2`, as in the vectors.
    fn order(&self, outcomes: &[Outcome]) -> String {
        let mut order = Order::of(outcomes, self.asked.quantum);
        let words = order.by_ref().take(MOST_TURNS).map(|turn| format!(" {}:{}", turn.routine, turn.steps));
        let words: String = words.collect();
        words + if order.next().is_some() { " .." } else { "" }
    }
}

/// The objects of a routine as another one's neighbours.
fn neighbours((routine, session): (usize, &Session)) -> Vec<Neighbour> {
    let names = session.program.text.iter().flat_map(|text| &text.names.objects);
    let pairs = session.image.lent.directory.chunks_exact(2);
    let neighbour = |(pair, name): (&[u32], &String)| Neighbour {
        first: pair[0],
        length: pair[1],
        name: format!("{name} of routine {routine}"),
    };
    pairs.zip(names).map(neighbour).collect()
}

/// The status of several ends: a difference before a stop, a stop before a spent run.
fn worse(a: u8, b: u8) -> u8 {
    [DIFFER, STOPPED].into_iter().find(|status| [a, b].contains(status)).unwrap_or(a.max(b))
}
