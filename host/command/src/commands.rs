//! The commands' names and the names of their arguments.

#[derive(Clone, Copy, Debug, PartialEq, Eq)]
pub enum Command {
    New,
    Lay,
    Drop,
    Set,
    Clear,
    Read,
    Show,
    List,
    Mxm,
    Vxm,
    EwiseMult,
    EwiseAdd,
    Apply,
    Extract,
    Import,
    Export,
    Print,
    Doors,
    Day,
    Select,
    ReduceRows,
    Assign,
    Kronecker,
    Formula,
    Reduce,
    Run,
    Merge,
    Diff,
    Copy,
    Resize,
    Convert,
    Revision,
    Completions,
    Man,
    Help,
}

/// The options that all operations share.
const WRITE_BACK: [&str; 7] =
    ["--mask", "--structural", "--complement", "--replace", "--accum", "--transpose-a", "--transpose-b"];

impl Command {
    pub const ALL: [Command; 35] = [
        Command::New,
        Command::Lay,
        Command::Drop,
        Command::Set,
        Command::Clear,
        Command::Read,
        Command::Show,
        Command::List,
        Command::Mxm,
        Command::Vxm,
        Command::EwiseMult,
        Command::EwiseAdd,
        Command::Apply,
        Command::Extract,
        Command::Import,
        Command::Export,
        Command::Print,
        Command::Doors,
        Command::Day,
        Command::Select,
        Command::ReduceRows,
        Command::Assign,
        Command::Kronecker,
        Command::Formula,
        Command::Reduce,
        Command::Run,
        Command::Merge,
        Command::Diff,
        Command::Copy,
        Command::Resize,
        Command::Convert,
        Command::Revision,
        Command::Completions,
        Command::Man,
        Command::Help,
    ];

    pub fn name(self) -> &'static str {
        match self {
            Command::New => "new",
            Command::Lay => "lay",
            Command::Drop => "drop",
            Command::Set => "set",
            Command::Clear => "clear",
            Command::Read => "read",
            Command::Show => "show",
            Command::List => "list",
            Command::Mxm => "mxm",
            Command::Vxm => "vxm",
            Command::EwiseMult => "eWiseMult",
            Command::EwiseAdd => "eWiseAdd",
            Command::Apply => "apply",
            Command::Extract => "extract",
            Command::Import => "import",
            Command::Export => "export",
            Command::Print => "print",
            Command::Doors => "doors",
            Command::Day => "day",
            Command::Select => "select",
            Command::ReduceRows => "reduceRows",
            Command::Assign => "assign",
            Command::Kronecker => "kronecker",
            Command::Formula => "formula",
            Command::Reduce => "reduce",
            Command::Run => "run",
            Command::Merge => "merge",
            Command::Diff => "diff",
            Command::Copy => "copy",
            Command::Resize => "resize",
            Command::Convert => "convert",
            Command::Revision => "revision",
            Command::Completions => "completions",
            Command::Man => "man",
            Command::Help => "help",
        }
    }

    /// The first plain argument, which is a file.
    pub fn file(self) -> Option<&'static str> {
        match self {
            Command::Help | Command::Completions | Command::Man | Command::Day => None,
            Command::Print => Some("SHEET"),
            _ => Some("FILE"),
        }
    }

    /// The plain arguments after that. One that ends with two dots may come several times.
    pub fn arguments(self) -> &'static [&'static str] {
        match self {
            Command::New | Command::Resize => &["WORDS"],
            Command::Lay => &["PLACE", "ROWS", "COLS"],
            Command::Drop | Command::Show | Command::Reduce | Command::Revision => &["PLACE"],
            Command::Set => &["PLACE", "ROW", "COL", "VALUE"],
            Command::Clear | Command::Read => &["PLACE", "ROW", "COL"],
            Command::List | Command::Print | Command::Convert | Command::Man | Command::Help => &[],
            Command::Import | Command::Export => &["PLACE", "SHEET"],
            Command::Mxm | Command::EwiseMult | Command::EwiseAdd | Command::Kronecker => &["C", "A", "B"],
            Command::Vxm => &["C", "U", "A"],
            Command::Apply | Command::Extract | Command::Select | Command::ReduceRows | Command::Assign => &["C", "A"],
            Command::Formula => &["TARGET", "FORMULA"],
            Command::Doors => &["LOCKS", "CABINETS", "HAND", "ALLOWANCE"],
            Command::Run => &["SCRIPT"],
            Command::Merge => &["PLACE", "SHEET.."],
            Command::Diff => &["P", "Q"],
            Command::Copy => &["PLACE", "OTHER", "PLACE"],
            Command::Completions => &["SHELL"],
            Command::Day => &["ACTION", "SHEET.."],
        }
    }

    /// The options that it takes.
    pub fn options(self) -> Vec<&'static str> {
        let mut options: Vec<&str> = match self {
            Command::Read => vec!["--position", "--json"],
            Command::Show => vec!["--json", "--svg", "--html", "--revision"],
            Command::List => vec!["--json"],
            Command::Mxm | Command::Vxm | Command::Formula => vec!["--semiring"],
            Command::EwiseMult | Command::EwiseAdd | Command::Kronecker => vec!["--op"],
            Command::Apply => vec!["--op", "--first", "--second", "--scalar"],
            Command::Extract | Command::Assign => vec!["--rows", "--cols"],
            Command::Select => vec!["--op", "--scalar"],
            Command::ReduceRows | Command::Reduce => vec!["--monoid"],
            Command::Import | Command::Export => vec!["--format"],
            Command::Merge => vec!["--mask", "--format"],
            Command::Diff => vec!["--picture"],
            Command::Convert => vec!["--places", "--to"],
            _ => Vec::new(),
        };
        if self.is_operation() {
            options.extend(WRITE_BACK.into_iter().filter(|option| self.has_input_for(option)));
        }
        if self.writes() {
            options.extend(["--dry-run", "--wait"]);
        }
        if self.shows_cells() {
            options.push("--names");
        }
        options
    }

    /// Whether an option of all operations has an input to act on.
    fn has_input_for(self, option: &str) -> bool {
        use Command::{Apply, Assign, Extract, ReduceRows, Select, Vxm};
        match option {
            "--transpose-a" => self != Vxm,
            "--transpose-b" => !matches!(self, Apply | Extract | Select | ReduceRows | Assign),
            _ => true,
        }
    }

    /// Whether it can write a file.
    pub fn writes(self) -> bool {
        use Command::{Completions, Diff, Doors, Help, List, Man, Print, Read, Reduce, Revision};
        !matches!(self, Revision | Read | List | Reduce | Doors | Diff | Print | Completions | Man | Help)
    }

    /// Whether it has rows, columns or places to call by their names.
    pub fn shows_cells(self) -> bool {
        use Command::{Completions, Convert, Day, Doors, Help, Man, New, Print, Reduce, Resize, Revision};
        !matches!(self, Revision | New | Reduce | Doors | Day | Print | Resize | Convert | Completions | Man | Help)
    }

    /// Whether a script may have it in a line.
    pub fn is_for_scripts(self) -> bool {
        use Command::{Completions, Convert, Copy, Day, Export, Help, Import, Man, Merge, New, Print, Resize, Run};
        !matches!(
            self,
            New | Import | Export | Day | Print | Run | Merge | Copy | Resize | Convert | Completions | Man | Help
        )
    }

    /// Whether it is one of the operations that write a sheet.
    pub fn is_operation(self) -> bool {
        use Command::{Apply, Assign, EwiseAdd, EwiseMult, Extract, Kronecker, Mxm, ReduceRows, Select, Vxm};
        matches!(self, Mxm | Vxm | EwiseMult | EwiseAdd | Apply | Extract | Select | ReduceRows | Assign | Kronecker)
    }

    /// The command of a name, in any case and with hyphens or underscores anywhere but in front.
    pub fn find(name: &str) -> Option<Command> {
        if name.starts_with(['-', '_']) {
            return None;
        }
        let bare = name.replace(['-', '_'], "");
        Command::ALL.into_iter().find(|command| command.name().eq_ignore_ascii_case(&bare))
    }
}

#[cfg(test)]
mod tests {
    use super::*;

    #[test]
    fn names_in_any_case_and_with_hyphens() {
        for name in ["eWiseAdd", "ewiseadd", "ewise-add", "EWISE_ADD", "e-wise-add"] {
            assert_eq!(Command::find(name), Some(Command::EwiseAdd), "{name}");
        }
        for name in ["", "-", "--list", "lists", "ewise", "ewise add"] {
            assert_eq!(Command::find(name), None, "{name}");
        }
        for command in Command::ALL {
            assert_eq!(Command::find(command.name()), Some(command));
        }
    }
}
