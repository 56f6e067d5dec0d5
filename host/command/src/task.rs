//! What one run of the command has to do, by its command line.

use crate::arguments::Arguments;
use crate::call::Call;
use crate::carry_out::carry_out;
use crate::changes;
use crate::commands::Command;
use crate::completions::{self, Shell};
use crate::day::Day;
use crate::drawing;
use crate::failure::{Failure, Usage};
use crate::format::Format;
use crate::help;
use crate::look::Look;
use crate::manual;
use crate::merge::{merge, Sheet};
use crate::names::{IndexList, Whole};
use crate::output::Output;
use crate::refusal::Refusal;
use crate::replacing::write_over;
use crate::script::Script;
use crate::settings::Settings;
use crate::sheet_file::{self, Target};
use crate::shelf_file::{self, Form};
use crate::text::shown_path;
use ostrubel::{Error, Matrix, Store};
use std::ffi::{OsStr, OsString};
use std::path::{Path, PathBuf};

pub enum Task {
    /// Prints a text.
    Print(String),
    /// Works on the sheet files of a day.
    Day { day: Day, settings: Settings },
    /// Works on the shelf in a file; of `print` it is a sheet's file.
    File { file: PathBuf, job: Job, settings: Settings },
}

pub enum Job {
    New {
        words: Whole,
    },
    Call(Call),
    /// Draws a sheet into files.
    Draw {
        slot: Whole,
        svg: Option<OsString>,
        html: Option<OsString>,
    },
    Import {
        slot: Whole,
        sheet: OsString,
        format: Option<Format>,
    },
    Export {
        slot: Whole,
        sheet: OsString,
        format: Option<Format>,
    },
    Merge {
        slot: Whole,
        sheets: Vec<OsString>,
        mask: Option<Whole>,
        format: Option<Format>,
    },
    Copy {
        slot: Whole,
        other: PathBuf,
        other_slot: Whole,
    },
    Resize {
        words: Whole,
    },
    Convert {
        places: Option<IndexList>,
        to: Option<PathBuf>,
    },
    PrintSheet,
    Run {
        script: OsString,
    },
}

impl Task {
    /// By the words after the program's name.
    pub fn parse(words: &[OsString]) -> Result<Task, Usage> {
        let texts: Vec<String> = words.iter().map(|word| word.to_string_lossy().into_owned()).collect();
        let name = texts.first().map_or("", String::as_str);
        let page = match name {
            "--help" | "-h" => Some(help::overview()),
            "--version" | "-V" => Some(format!("ostrubel {}", env!("CARGO_PKG_VERSION"))),
            _ => None,
        };
        match (page, Command::find(name), texts.get(1).map(String::as_str)) {
            (Some(page), _, None) => Ok(Task::Print(page)),
            (Some(_), _, Some(word)) => Err(Usage::new("", format!("{name}: {word:?} is one word too many"))),
            (None, None, _) => Err(Usage::new("", format!("no command {name:?}"))),
            (None, Some(command), _) if asks_for_help(&texts[1..]) => help_task(&[command.name().to_string()]),
            (None, Some(Command::Help), _) => help_task(&texts[1..]),
            (None, Some(Command::Day), _) => day_task(&words[1..]),
            (None, Some(command), _) if command.file().is_none() => text_task(command, &words[1..]),
            (None, Some(command), _) => file_task(command, &words[1..]),
        }
    }

    /// Whether a file was written.
    pub fn carry_out(&self, output: &mut Output) -> Result<bool, Failure> {
        match self {
            Task::Print(text) => {
                output.print(text);
                Ok(false)
            }
            Task::Day { day, settings } => day.carry_out(settings, output),
            Task::File { file, job, settings } => job.carry_out(&Shelf { file, settings }, output),
        }
    }
}

/// Whether `--help` stands among the words, and not behind `--`.
fn asks_for_help(words: &[String]) -> bool {
    words.iter().take_while(|word| *word != "--").any(|word| word == "--help" || word == "-h")
}

impl Job {
    fn carry_out(&self, shelf: &Shelf, output: &mut Output) -> Result<bool, Failure> {
        let Shelf { file, settings } = *shelf;
        match self {
            Job::New { words } => {
                shelf_file::create(file, words, settings.saving.dry_run)?;
                output.print(&format!("{}: {words} words, all places empty", shown_path(file)));
                Ok(settings.saving.saves(output))
            }
            Job::Call(call) => shelf.work(call.writes(), output, |store, look, output| {
                output.show(&carry_out(call, store, look)?);
                Ok(())
            }),
            Job::Draw { slot, svg, html } => {
                let (labels, matrix) = (settings.labels()?.cloned().unwrap_or_default(), shelf.sheet(slot)?);
                let title = format!("{}, {}", shown_path(file), labels.place_head(slot.size()));
                let svg = svg.as_ref().map(|out| (out, drawing::svg(&matrix, &title, &labels), drawing::SVG_FRONT));
                let html = html.as_ref().map(|out| (out, drawing::html(&matrix, &title, &labels), drawing::HTML_FRONT));
                let mut to_file = false;
                for (out, text, front) in svg.into_iter().chain(html) {
                    to_file |= write_picture(out, text, front, settings, output)?;
                }
                Ok(to_file && settings.saving.saves(output))
            }
            Job::Import { slot, sheet, format } => {
                let Sheet { matrix, .. } = read_sheet(sheet, *format, settings)?;
                shelf.put(slot, output, |_| Ok(matrix))
            }
            Job::Export { slot, sheet, format } => {
                let format = format.unwrap_or_else(|| Format::of_name(sheet));
                let target = Target { name: sheet, format, saving: settings.saving };
                target.write(settings.labels()?, output, || shelf.sheet(slot))
            }
            Job::Merge { slot, sheets, mask, format } => {
                let sheets = sheets.iter().map(|sheet| read_sheet(sheet, *format, settings));
                let sheets: Vec<Sheet> = sheets.collect::<Result<_, Failure>>()?;
                shelf.work(true, output, |store, _, output| {
                    output.print(&merge(store, slot, mask.as_ref(), &sheets)?);
                    Ok(())
                })
            }
            Job::Copy { slot, other, other_slot } => {
                // Read while the other is locked: it may be the same file.
                Shelf { file: other, settings }.put(other_slot, output, |_| shelf.sheet(slot))
            }
            Job::Resize { words } => shelf.work(true, output, |store, _, output| {
                let resized = shelf_file::resized(store, words)?;
                *store = resized;
                output.print(&format!("{}: {words} words", shown_path(file)));
                Ok(())
            }),
            Job::Convert { places, to } => shelf.convert(places.as_ref(), to.as_deref(), output),
            Job::PrintSheet => {
                let Sheet { matrix, .. } = read_sheet(file.as_os_str(), None, settings)?;
                output.print(&matrix.to_text());
                Ok(false)
            }
            Job::Run { script } => {
                let script = Script::read(script)?;
                shelf.work(script.writes(), output, |store, look, output| script.carry_out(store, look, output))
            }
        }
    }
}

/// The shelf in a file, and how it is used.
#[derive(Clone, Copy)]
struct Shelf<'a> {
    file: &'a Path,
    settings: &'a Settings,
}

impl Shelf<'_> {
    /// Does some work on the shelf. Whether the file was written.
    fn work(
        &self,
        writes: bool,
        output: &mut Output,
        work: impl FnOnce(&mut Store, &Look, &mut Output) -> Result<(), Failure>,
    ) -> Result<bool, Failure> {
        let look = self.settings.look()?;
        if !writes {
            work(&mut shelf_file::read(self.file)?, &look, output)?;
            Ok(false)
        } else {
            let saving = self.settings.saving;
            shelf_file::update(self.file, saving, |store| {
                let before = saving.dry_run.then(|| store.clone());
                work(store, &look, output)?;
                before.iter().for_each(|before| output.show(&changes::of_store(before, store, &look)));
                Ok(())
            })
        }
    }

    /// A copy of a place's sheet.
    fn sheet(&self, slot: &Whole) -> Result<Matrix, Failure> {
        let store = shelf_file::read(self.file)?;
        Ok(store.matrix(slot.size()).map_err(|error| refused(error, slot, &store))?)
    }

    /// Puts a sheet into a place.
    fn put(
        &self,
        slot: &Whole,
        output: &mut Output,
        sheet: impl FnOnce(&Store) -> Result<Matrix, Failure>,
    ) -> Result<bool, Failure> {
        self.work(true, output, |store, _, output| {
            let matrix = sheet(store)?;
            store.put(slot.size(), &matrix).map_err(|error| refused(error, slot, store))?;
            output.print(&format!("place {slot}: {}", sheet_file::described(&matrix)));
            Ok(())
        })
    }

    fn convert(&self, places: Option<&IndexList>, to: Option<&Path>, output: &mut Output) -> Result<bool, Failure> {
        let (name, saving) = (shown_path(self.file), self.settings.saving);
        let form = match to {
            Some(to) => shelf_file::convert_to(self.file, places, to, saving.dry_run)?,
            None => shelf_file::convert(self.file, saving)?,
        };
        output.print(&match (form, to) {
            (Form::Current, None) => format!("{name}: has the form of today, and stays as it is"),
            (_, Some(to)) => format!("{name}: stays as it is; {} has its sheets", shown_path(to)),
            (_, None) => format!("{name}: converted, all sheets kept"),
        });
        Ok((form != Form::Current || to.is_some()) && self.settings.saving.saves(output))
    }
}

fn read_sheet(sheet: &OsStr, format: Option<Format>, settings: &Settings) -> Result<Sheet, Failure> {
    sheet_file::read(sheet, format.unwrap_or_else(|| Format::of_name(sheet)), settings.labels()?)
}

/// Writes a picture into a file, which is replaced only if it begins as such pictures do. Whether there is a file.
fn write_picture(
    out: &OsStr,
    text: String,
    front: &str,
    settings: &Settings,
    output: &mut Output,
) -> Result<bool, Failure> {
    if out == "-" {
        output.print(&text);
        return Ok(false);
    }
    let kind = ("picture of a sheet", front.len());
    let is_one = |old: &[u8]| old.starts_with(front.as_bytes());
    write_over(Path::new(out), settings.saving, kind, is_one, || Ok(text.into_bytes()))?;
    let written = if settings.saving.dry_run { "would be written" } else { "written" };
    output.print(&format!("{}: {written}", shown_path(Path::new(out))));
    Ok(true)
}

fn help_task(topics: &[String]) -> Result<Task, Usage> {
    match topics {
        [] => Ok(Task::Print(help::overview())),
        [topic] => match help::page(topic) {
            Some(page) => Ok(Task::Print(page)),
            None => Err(Usage::new("", format!("no help about {topic:?}"))),
        },
        _ => Err(Usage::new("", "help: one command at a time")),
    }
}

fn day_task(words: &[OsString]) -> Result<Task, Usage> {
    let mut arguments = Arguments::split(Command::Day, words)?;
    let settings = Settings::take(Command::Day, &mut arguments)?;
    let day = Day::parse(&arguments.words_from(0))?;
    if !day.writes() {
        settings.check_only_read("rewrite, back and fold").map_err(|message| arguments.wrong(message))?;
    }
    arguments.finish()?;
    Ok(Task::Day { day, settings })
}

/// A task of a command that prints a text, and has no file.
fn text_task(command: Command, words: &[OsString]) -> Result<Task, Usage> {
    let arguments = Arguments::split(command, words)?;
    let text = match command {
        Command::Completions => {
            let shell = arguments.word(0)?;
            completions::script(Shell::parse(&shell.to_string_lossy()).map_err(|message| arguments.wrong(message))?)
        }
        _ => manual::page(),
    };
    arguments.finish()?;
    Ok(Task::Print(text))
}

/// A task of a command that has FILE, by the words behind the command's name.
fn file_task(command: Command, words: &[OsString]) -> Result<Task, Usage> {
    let (file, mut arguments) = Arguments::split_with_file(command, words)?;
    let settings = Settings::take(command, &mut arguments)?;
    let job = job(command, &mut arguments, &settings)?;
    arguments.finish()?;
    Ok(Task::File { file, job, settings })
}

fn job(command: Command, arguments: &mut Arguments, settings: &Settings) -> Result<Job, Usage> {
    Ok(match command {
        Command::New => Job::New { words: arguments.whole(0)? },
        Command::Resize => Job::Resize { words: arguments.whole(0)? },
        Command::Import => {
            let format = arguments.parsed("--format", Format::parse)?;
            let (slot, sheet) = (arguments.whole(0)?, arguments.word(1)?);
            settings.check_input(std::slice::from_ref(&sheet)).map_err(|message| arguments.wrong(message))?;
            Job::Import { slot, sheet, format }
        }
        Command::Export => {
            let format = arguments.parsed("--format", Format::parse)?;
            Job::Export { slot: arguments.whole(0)?, sheet: arguments.word(1)?, format }
        }
        Command::Merge => {
            let format = arguments.parsed("--format", Format::parse)?;
            let (mask, sheets) = (arguments.whole_option("--mask")?, arguments.words_from(1));
            settings.check_input(&sheets).map_err(|message| arguments.wrong(message))?;
            Job::Merge { slot: arguments.whole(0)?, sheets, mask, format }
        }
        Command::Copy => {
            Job::Copy { slot: arguments.whole(0)?, other: arguments.word(1)?.into(), other_slot: arguments.whole(2)? }
        }
        Command::Convert => convert(arguments)?,
        Command::Print => Job::PrintSheet,
        Command::Run => {
            let script = arguments.word(0)?;
            settings.check_input(std::slice::from_ref(&script)).map_err(|message| arguments.wrong(message))?;
            Job::Run { script }
        }
        Command::Show => {
            let (svg, html) = (arguments.file_option("--svg"), arguments.file_option("--html"));
            match (svg.is_some() || html.is_some(), settings.json) {
                (true, true) => {
                    return Err(arguments.wrong("--json is printed, and --svg and --html are files: one of them"))
                }
                (true, false) => Job::Draw { slot: arguments.whole(0)?, svg, html },
                (false, _) => {
                    settings.check_only_read("--svg and --html").map_err(|message| arguments.wrong(message))?;
                    Job::Call(Call::take(command, arguments)?)
                }
            }
        }
        _ => Job::Call(Call::take(command, arguments)?),
    })
}

fn convert(arguments: &mut Arguments) -> Result<Job, Usage> {
    let places = arguments.parsed("--places", IndexList::parse)?;
    let to = arguments.file_option("--to").map(PathBuf::from);
    if places.is_some() && to.is_none() {
        return Err(arguments.wrong("--places goes with --to: what is not chosen would be lost"));
    }
    Ok(Job::Convert { places, to })
}

/// The refusal of a sheet that is put into a place, or taken from it.
fn refused(error: Error, slot: &Whole, store: &Store) -> Refusal {
    Refusal::of_call(error, &Call::Revision { slot: slot.clone() }, store)
}
