//! Wrong copies of the lines that the program `replay` prints.
use lvl_addin::answer::{Refusal, Verdict};
use lvl_second::{Answered, Given, Governing, KeptRules, Paper};

/// The line's part that tells what governs, with other numbers.
fn governing_as(governing: &Option<Governing>, change: impl Fn(Governing) -> Governing) -> String {
    Paper::governing_text(&governing.map(change))
}

/// The same with another verdict.
fn verdict_as(governing: &Option<Governing>, change: impl Fn(Verdict) -> Verdict) -> String {
    governing_as(governing, |row| Governing {
        verdict: change(row.verdict),
        ..row
    })
}

wrong_copies! { KeptRules, Keeping:
    AddedWithoutItsNumber {
        fn given_text(given: &Result<Given, Refusal>) -> String {
            match given {
                Ok(Given::Added(_)) => "added".to_owned(),
                _ => Paper::given_text(given),
            }
        }
    }
    RemovedAsAdded {
        fn given_text(given: &Result<Given, Refusal>) -> String {
            match given {
                Ok(Given::Removed) => Paper::given_text(&Ok(Given::Added(0))),
                _ => Paper::given_text(given),
            }
        }
    }
    RefusalNumberAndCellExchanged {
        fn given_text(given: &Result<Given, Refusal>) -> String {
            Paper::given_text(&given.map_err(|found| Refusal { number: found.cell, cell: found.number }))
        }
    }
    RefusalAsOneNumber {
        fn given_text(given: &Result<Given, Refusal>) -> String {
            match given {
                Err(found) => format!("refused {}", found.code()),
                _ => Paper::given_text(given),
            }
        }
    }
    GoverningWithoutItsNumber {
        fn governing_text(governing: &Option<Governing>) -> String {
            governing_as(governing, |row| Governing { number: 0, ..row })
        }
    }
    NumberAndCheckExchanged {
        fn governing_text(governing: &Option<Governing>) -> String {
            governing_as(governing, |row| Governing {
                number: row.verdict.check,
                verdict: Verdict { check: row.number, ..row.verdict },
            })
        }
    }
    UtilisationAndCountExchanged {
        fn governing_text(governing: &Option<Governing>) -> String {
            verdict_as(governing, |verdict| Verdict { utilisation: verdict.count, count: verdict.utilisation, ..verdict })
        }
    }
    UtilisationAndCheckExchanged {
        fn governing_text(governing: &Option<Governing>) -> String {
            verdict_as(governing, |verdict| Verdict { utilisation: verdict.check, check: verdict.utilisation, ..verdict })
        }
    }
    PassAndFailExchanged {
        fn governing_text(governing: &Option<Governing>) -> String {
            verdict_as(governing, |verdict| Verdict { passes: !verdict.passes, ..verdict })
        }
    }
    NoneAsNumberZero {
        fn governing_text(governing: &Option<Governing>) -> String {
            match governing {
                None => "governing 0".to_owned(),
                _ => Paper::governing_text(governing),
            }
        }
    }
    GoverningFirst {
        fn answer_line(answered: &Answered) -> String {
            let governing = Paper::governing_text(&answered.governing);
            format!("{governing} {}\n", Paper::given_text(&answered.given))
        }
    }
    RefusalWithoutWhatGoverns {
        fn answer_line(answered: &Answered) -> String {
            match answered.given {
                Err(_) => format!("{}\n", Paper::given_text(&answered.given)),
                Ok(_) => Paper::answer_line(answered),
            }
        }
    }
}
