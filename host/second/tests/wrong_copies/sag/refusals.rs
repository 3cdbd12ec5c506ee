//! Wrong copies of which rows and sags are taken, and of how the others are refused.
use lvl_addin::answer::Refusal;
use lvl_second::cells::{Kind, MOMENT};
use lvl_second::sag::{Sag, SagRead};
use lvl_second::{Paper, SagRules};

fn refusal(number: u32, cell: u32) -> Refusal {
    Refusal { number, cell }
}

/// Refusal 10 with another number and cell, where a cell is of a sort.
fn refused_as(
    read: &SagRead,
    sort: fn(&Option<Option<u64>>) -> bool,
    refusal: impl Fn(u32) -> Refusal,
) -> Result<Sag, Refusal> {
    match read.iter().position(sort) {
        Some(at) => Err(refusal(at as u32 + 1)),
        None => Paper::sag(read),
    }
}

/// The sag with a number in place of a blank cell.
fn filled(read: &SagRead, place: usize, number: u64) -> Result<Sag, Refusal> {
    let mut read = *read;
    if read[place] == Some(None) {
        read[place] = Some(Some(number));
    }
    Paper::sag(&read)
}

fn is_blank(cell: &Option<Option<u64>>) -> bool {
    *cell == Some(None)
}

wrong_copies! { SagRules, Sagging:
    EveryKindTaken {
        fn has_sag(_kind: Kind) -> bool {
            true
        }
    }
    EveryKindThatBends {
        fn has_sag(kind: Kind) -> bool {
            !matches!(kind, Kind::Tension | Kind::Compression)
        }
    }
    NoKindTaken {
        fn has_sag(_kind: Kind) -> bool {
            false
        }
    }
    KindAsRefusal2 {
        fn kind_refusal() -> Refusal {
            refusal(2, 1)
        }
    }
    KindAsRefusal3 {
        fn kind_refusal() -> Refusal {
            refusal(3, 1)
        }
    }
    KindAsRefusal4 {
        fn kind_refusal() -> Refusal {
            refusal(4, 1)
        }
    }
    KindAsRefusal8 {
        fn kind_refusal() -> Refusal {
            refusal(8, 1)
        }
    }
    KindAsRefusal10 {
        fn kind_refusal() -> Refusal {
            refusal(10, 1)
        }
    }
    KindNotNamed {
        fn kind_refusal() -> Refusal {
            refusal(9, 0)
        }
    }
    KindNamedByTheMoment {
        fn kind_refusal() -> Refusal {
            refusal(9, MOMENT as u32)
        }
    }
    BothRefusalsExchanged {
        fn kind_refusal() -> Refusal {
            refusal(10, 0)
        }

        fn sag_refusal() -> Refusal {
            refusal(9, 1)
        }
    }
    SagAsRefusal1 {
        fn sag_refusal() -> Refusal {
            refusal(1, 0)
        }
    }
    SagAsRefusal2 {
        fn sag_refusal() -> Refusal {
            refusal(2, 0)
        }
    }
    SagAsRefusal4 {
        fn sag_refusal() -> Refusal {
            refusal(4, 0)
        }
    }
    SagAsRefusal5 {
        fn sag_refusal() -> Refusal {
            refusal(5, 0)
        }
    }
    SagAsRefusal8 {
        fn sag_refusal() -> Refusal {
            refusal(8, 0)
        }
    }
    SagAsRefusal9 {
        fn sag_refusal() -> Refusal {
            refusal(9, 0)
        }
    }
    SagAsRefusal11 {
        fn sag_refusal() -> Refusal {
            refusal(11, 0)
        }
    }
    SagNamesCell1 {
        fn sag_refusal() -> Refusal {
            refusal(10, 1)
        }
    }
    BlankSpanAsTheLeast {
        fn sag(read: &SagRead) -> Result<Sag, Refusal> {
            filled(read, 0, 500)
        }
    }
    BlankMomentAsTheLeast {
        fn sag(read: &SagRead) -> Result<Sag, Refusal> {
            filled(read, 1, 1)
        }
    }
    BlankLimitAs200 {
        fn sag(read: &SagRead) -> Result<Sag, Refusal> {
            filled(read, 2, 200)
        }
    }
    BlankAsRefusal2 {
        fn sag(read: &SagRead) -> Result<Sag, Refusal> {
            refused_as(read, is_blank, |_| refusal(2, 0))
        }
    }
    BlankNamed {
        fn sag(read: &SagRead) -> Result<Sag, Refusal> {
            refused_as(read, is_blank, |cell| refusal(10, cell))
        }
    }
    UnreadableAsRefusal1 {
        fn sag(read: &SagRead) -> Result<Sag, Refusal> {
            refused_as(read, Option::is_none, |_| refusal(1, 0))
        }
    }
    UnreadableNamed {
        fn sag(read: &SagRead) -> Result<Sag, Refusal> {
            refused_as(read, Option::is_none, |cell| refusal(10, cell))
        }
    }
    UnreadableAsRefusal1Named {
        fn sag(read: &SagRead) -> Result<Sag, Refusal> {
            refused_as(read, Option::is_none, |cell| refusal(1, cell))
        }
    }
    OutsideAsRefusal4 {
        fn sag(read: &SagRead) -> Result<Sag, Refusal> {
            Paper::sag(read).map_err(|found| if read.iter().all(|cell| cell.flatten().is_some()) { refusal(4, 0) } else { found })
        }
    }
}
