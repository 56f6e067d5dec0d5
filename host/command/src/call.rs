//! The calls on a store, as they are asked for on the command line and in a script.

use crate::arguments::Arguments;
use crate::commands::Command;
use crate::failure::Usage;
use crate::names::{
    parse_apply, parse_binary, parse_monoid, parse_select, parse_semiring, ApplyName, IndexList, Whole,
};
use ostrubel::{ApplyOp, BinaryOp, Monoid, Options, SelectOp, Semiring};

#[derive(Debug)]
pub enum Call {
    Lay { slot: Whole, rows: Whole, cols: Whole },
    Drop { slot: Whole },
    Set { cell: Cell, value: i32 },
    Clear { cell: Cell },
    Read { cell: Cell, position: bool },
    Show { slot: Whole, revision: bool },
    Revision { slot: Whole },
    List,
    Diff { old: Whole, new: Whole, picture: bool },
    Reduce { slot: Whole, monoid: Monoid },
    Operation(Operation),
    Formula(Formula),
    Doors(Doors),
}

#[derive(Debug)]
pub struct Cell {
    pub slot: Whole,
    pub row: Whole,
    pub col: Whole,
}

/// A formula over the slots, and the slot that takes its value.
#[derive(Debug)]
pub struct Formula {
    pub target: Whole,
    pub text: String,
    pub semiring: Semiring,
}

/// Keys behind doors: the slots of the three sheets that are read, and the rounds.
#[derive(Debug)]
pub struct Doors {
    pub locks: Whole,
    pub cabinets: Whole,
    pub hand: Whole,
    pub allowance: Whole,
}

/// One of the operations that write a sheet; `c` is its slot.
#[derive(Debug)]
pub struct Operation {
    pub c: Whole,
    pub kind: Kind,
    pub write_back: WriteBack,
}

#[derive(Debug)]
pub enum Kind {
    Mxm { semiring: Semiring, a: Whole, b: Whole },
    Vxm { semiring: Semiring, u: Whole, a: Whole },
    EwiseMult { op: BinaryOp, a: Whole, b: Whole },
    EwiseAdd { op: BinaryOp, a: Whole, b: Whole },
    Apply { op: ApplyOp, a: Whole },
    Extract { a: Whole, rows: IndexList, cols: IndexList },
    Select { op: SelectOp, a: Whole },
    ReduceRows { monoid: Monoid, a: Whole },
    Assign { a: Whole, rows: IndexList, cols: IndexList },
    Kronecker { op: BinaryOp, a: Whole, b: Whole },
}

/// The options that all operations share.
#[derive(Debug)]
pub struct WriteBack {
    pub mask: Option<Whole>,
    pub accumulator: Option<BinaryOp>,
    pub replace: bool,
    pub complement: bool,
    pub structural: bool,
    pub transpose_first: bool,
    pub transpose_second: bool,
}

impl WriteBack {
    pub fn options(&self) -> Options<usize> {
        let mut options = Options::new();
        if let Some(mask) = &self.mask {
            options = options.mask(mask.size());
        }
        if let Some(op) = self.accumulator {
            options = options.accumulate(op);
        }
        if self.replace {
            options = options.replace();
        }
        if self.complement {
            options = options.complement();
        }
        if self.structural {
            options = options.structural();
        }
        if self.transpose_first {
            options = options.transpose_first();
        }
        if self.transpose_second {
            options = options.transpose_second();
        }
        options
    }
}

/// A slot that a call names, and what for.
pub struct Role<'a> {
    /// Empty where the call has only one.
    pub name: &'static str,
    pub slot: &'a Whole,
    pub transposed: bool,
}

impl Call {
    /// The call of a command by its arguments, which have nothing else.
    pub fn parse(command: Command, mut arguments: Arguments) -> Result<Call, Usage> {
        let call = Call::take(command, &mut arguments)?;
        arguments.finish()?;
        Ok(call)
    }

    /// The same, where options may be left.
    pub fn take(command: Command, arguments: &mut Arguments) -> Result<Call, Usage> {
        call_of(command, arguments)
    }

    /// Whether the call can change the store.
    pub fn writes(&self) -> bool {
        use Call::{Diff, Doors, List, Read, Reduce, Revision, Show};
        !matches!(self, Revision { .. } | Read { .. } | Show { .. } | List | Diff { .. } | Reduce { .. } | Doors(_))
    }

    /// The slots that the call names, inputs first.
    pub fn roles(&self) -> Vec<Role<'_>> {
        let plain = |slot| vec![Role { name: "", slot, transposed: false }];
        match self {
            Call::Lay { slot, .. }
            | Call::Drop { slot }
            | Call::Show { slot, .. }
            | Call::Revision { slot }
            | Call::Reduce { slot, .. } => plain(slot),
            Call::Set { cell, .. } | Call::Clear { cell } | Call::Read { cell, .. } => plain(&cell.slot),
            Call::List => Vec::new(),
            Call::Diff { old, new, .. } => {
                vec![Role { name: "P", slot: old, transposed: false }, Role { name: "Q", slot: new, transposed: false }]
            }
            Call::Operation(operation) => operation.roles(),
            Call::Formula(formula) => vec![Role { name: "TARGET", slot: &formula.target, transposed: false }],
            Call::Doors(doors) => doors.roles(),
        }
    }
}

impl Doors {
    pub fn roles(&self) -> Vec<Role<'_>> {
        let role = |name, slot| Role { name, slot, transposed: false };
        vec![role("LOCKS", &self.locks), role("CABINETS", &self.cabinets), role("HAND", &self.hand)]
    }
}

impl Operation {
    /// Inputs first, then the mask where there is one, and C.
    pub fn roles(&self) -> Vec<Role<'_>> {
        let WriteBack { mask, transpose_first, transpose_second, .. } = &self.write_back;
        let first = |name, slot| Role { name, slot, transposed: *transpose_first };
        let second = |name, slot| Role { name, slot, transposed: *transpose_second };
        let mut roles = match &self.kind {
            Kind::Mxm { a, b, .. }
            | Kind::EwiseMult { a, b, .. }
            | Kind::EwiseAdd { a, b, .. }
            | Kind::Kronecker { a, b, .. } => vec![first("A", a), second("B", b)],
            Kind::Vxm { u, a, .. } => vec![first("U", u), second("A", a)],
            Kind::Apply { a, .. }
            | Kind::Extract { a, .. }
            | Kind::Select { a, .. }
            | Kind::ReduceRows { a, .. }
            | Kind::Assign { a, .. } => vec![first("A", a)],
        };
        roles.extend(mask.as_ref().map(|slot| Role { name: "mask", slot, transposed: false }));
        roles.push(Role { name: "C", slot: &self.c, transposed: false });
        roles
    }
}

fn call_of(command: Command, arguments: &mut Arguments) -> Result<Call, Usage> {
    match command {
        Command::Lay => {
            Ok(Call::Lay { slot: arguments.whole(0)?, rows: arguments.whole(1)?, cols: arguments.whole(2)? })
        }
        Command::Drop => Ok(Call::Drop { slot: arguments.whole(0)? }),
        Command::Set => Ok(Call::Set { cell: cell(arguments)?, value: arguments.value(3)? }),
        Command::Clear => Ok(Call::Clear { cell: cell(arguments)? }),
        Command::Read => Ok(Call::Read { cell: cell(arguments)?, position: arguments.flag("--position") }),
        Command::Show => Ok(Call::Show { slot: arguments.whole(0)?, revision: arguments.flag("--revision") }),
        Command::Revision => Ok(Call::Revision { slot: arguments.whole(0)? }),
        Command::List => Ok(Call::List),
        Command::Diff => {
            Ok(Call::Diff { old: arguments.whole(0)?, new: arguments.whole(1)?, picture: arguments.flag("--picture") })
        }
        Command::Formula => {
            let semiring = arguments.required("--semiring", parse_semiring)?;
            let text = arguments.word(1)?.to_string_lossy().into_owned();
            Ok(Call::Formula(Formula { target: arguments.whole(0)?, text, semiring }))
        }
        Command::Doors => Ok(Call::Doors(Doors {
            locks: arguments.whole(0)?,
            cabinets: arguments.whole(1)?,
            hand: arguments.whole(2)?,
            allowance: arguments.whole(3)?,
        })),
        Command::Reduce => {
            let monoid = arguments.required("--monoid", parse_monoid)?;
            Ok(Call::Reduce { slot: arguments.whole(0)?, monoid })
        }
        _ => operation(command, arguments),
    }
}

fn cell(arguments: &Arguments) -> Result<Cell, Usage> {
    Ok(Cell { slot: arguments.whole(0)?, row: arguments.whole(1)?, col: arguments.whole(2)? })
}

fn operation(command: Command, arguments: &mut Arguments) -> Result<Call, Usage> {
    let c = arguments.whole(0)?;
    let kind = kind(command, arguments)?;
    let write_back = write_back(&kind, arguments)?;
    Ok(Call::Operation(Operation { c, kind, write_back }))
}

fn kind(command: Command, arguments: &mut Arguments) -> Result<Kind, Usage> {
    match command {
        Command::Mxm => {
            let semiring = arguments.required("--semiring", parse_semiring)?;
            Ok(Kind::Mxm { semiring, a: arguments.whole(1)?, b: arguments.whole(2)? })
        }
        Command::Vxm => {
            let semiring = arguments.required("--semiring", parse_semiring)?;
            Ok(Kind::Vxm { semiring, u: arguments.whole(1)?, a: arguments.whole(2)? })
        }
        Command::EwiseMult => {
            let op = arguments.required("--op", parse_binary)?;
            Ok(Kind::EwiseMult { op, a: arguments.whole(1)?, b: arguments.whole(2)? })
        }
        Command::EwiseAdd => {
            let op = arguments.required("--op", parse_binary)?;
            Ok(Kind::EwiseAdd { op, a: arguments.whole(1)?, b: arguments.whole(2)? })
        }
        Command::Apply => Ok(Kind::Apply { op: apply_op(arguments)?, a: arguments.whole(1)? }),
        Command::Extract => {
            let rows = arguments.required("--rows", IndexList::parse)?;
            let cols = arguments.required("--cols", IndexList::parse)?;
            Ok(Kind::Extract { a: arguments.whole(1)?, rows, cols })
        }
        Command::Select => {
            let op = arguments.required("--op", parse_select)?;
            let scalar = arguments.value_option("--scalar")?.unwrap_or(0);
            Ok(Kind::Select { op: op.with_scalar(scalar), a: arguments.whole(1)? })
        }
        Command::ReduceRows => {
            let monoid = arguments.required("--monoid", parse_monoid)?;
            Ok(Kind::ReduceRows { monoid, a: arguments.whole(1)? })
        }
        Command::Assign => {
            let rows = arguments.required("--rows", IndexList::parse)?;
            let cols = arguments.required("--cols", IndexList::parse)?;
            Ok(Kind::Assign { a: arguments.whole(1)?, rows, cols })
        }
        Command::Kronecker => {
            let op = arguments.required("--op", parse_binary)?;
            Ok(Kind::Kronecker { op, a: arguments.whole(1)?, b: arguments.whole(2)? })
        }
        _ => Err(arguments.wrong("this is no call on a shelf")),
    }
}

/// The operator of an apply with its scalar. A scalar that the operator has no use for is an error.
fn apply_op(arguments: &mut Arguments) -> Result<ApplyOp, Usage> {
    let name = arguments.required("--op", parse_apply)?;
    let first = arguments.value_option("--first")?;
    let second = arguments.value_option("--second")?;
    let scalar = arguments.value_option("--scalar")?;
    match (name, first, second, scalar) {
        (ApplyName::Unary(op), None, None, None) => Ok(ApplyOp::Unary(op)),
        (ApplyName::Binary(op), Some(x), None, None) => Ok(ApplyOp::ScalarFirst(x, op)),
        (ApplyName::Binary(op), None, Some(y), None) => Ok(ApplyOp::ScalarSecond(op, y)),
        (ApplyName::Index(op), None, None, scalar) => Ok(ApplyOp::Index(op, scalar.unwrap_or(0))),
        (ApplyName::Unary(op), ..) => Err(arguments.wrong(format!("{op} takes no --first, --second or --scalar"))),
        (ApplyName::Binary(op), ..) => Err(arguments.wrong(format!("{op} wants either --first N or --second N"))),
        (ApplyName::Index(op), ..) => Err(arguments.wrong(format!("{op} takes --scalar, not --first or --second"))),
    }
}

/// The shared options. The library ignores those that have nothing to act on; here they are errors.
fn write_back(kind: &Kind, arguments: &mut Arguments) -> Result<WriteBack, Usage> {
    let write_back = WriteBack {
        mask: arguments.whole_option("--mask")?,
        accumulator: arguments.parsed("--accum", parse_binary)?,
        replace: arguments.flag("--replace"),
        complement: arguments.flag("--complement"),
        structural: arguments.flag("--structural"),
        transpose_first: arguments.flag("--transpose-a"),
        transpose_second: arguments.flag("--transpose-b"),
    };
    match idle_option(kind, &write_back) {
        Some(message) => Err(arguments.wrong(message)),
        None => Ok(write_back),
    }
}

/// Whether an operation has a second input.
fn has_second(kind: &Kind) -> bool {
    matches!(
        kind,
        Kind::Mxm { .. } | Kind::Vxm { .. } | Kind::EwiseMult { .. } | Kind::EwiseAdd { .. } | Kind::Kronecker { .. }
    )
}

/// An option that would do nothing.
fn idle_option(kind: &Kind, write_back: &WriteBack) -> Option<&'static str> {
    let no_mask = write_back.mask.is_none();
    if write_back.transpose_first && matches!(kind, Kind::Vxm { .. }) {
        Some("the strip U is never transposed; --transpose-b transposes the sheet A")
    } else if write_back.transpose_second && !has_second(kind) {
        Some("there is no second input for --transpose-b; --transpose-a transposes the sheet A")
    } else if write_back.complement && no_mask && (!write_back.replace || write_back.accumulator.is_some()) {
        Some(
            "--complement writes no cell without --mask: is --mask PLACE missing? \
             To empty C: --complement --replace, without --accum",
        )
    } else if write_back.structural && no_mask {
        Some("--structural does nothing without --mask")
    } else if write_back.replace && no_mask && !write_back.complement {
        Some("--replace does nothing without --mask or --complement: no cell is outside")
    } else {
        None
    }
}
