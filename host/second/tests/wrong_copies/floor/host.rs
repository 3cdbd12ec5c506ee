//! Wrong copies of reading the host's beam and of answering.
use crate::answers;
use lvl_addin::answer::Refusal;
use lvl_addin::floor_beam::{BeamVerdict, BEAM_ANSWER_BYTES, BEAM_BYTES, BEAM_CELLS};
use lvl_addin::row::ANSWER_BYTES;
use lvl_second::cells::{GRADE, HEIGHT, MOISTURE, OFFICE_FACTOR, WIDTH};
use lvl_second::floor_beam::ROW_CELLS;
use lvl_second::{BeamRead, FloorRules, Paper};

/// The right answer with two of its floats exchanged.
fn exchanged(verdict: &BeamVerdict, one: usize, other: usize) -> [u8; BEAM_ANSWER_BYTES] {
    answers::exchanged(Paper::beam_answer_bytes(verdict), one, other)
}

/// The right answer with another float at a place.
fn with(verdict: &BeamVerdict, at: usize, float: f64) -> [u8; BEAM_ANSWER_BYTES] {
    answers::with_float(Paper::beam_answer_bytes(verdict), at, float)
}

/// The entry where other answer lengths are taken as well.
fn in_part(beam: &[u8], answer: &mut [u8], taken: impl Fn(usize) -> bool) -> u64 {
    answers::in_part::<_, BEAM_ANSWER_BYTES>(Paper::check_beam_bytes, beam, answer, taken)
}

/// The entry where the answer's length is refused before all that a rule does not refuse.
fn fits_before<T>(
    beam: &[u8],
    answer: &mut [u8],
    rule: impl Fn(&[u8]) -> Result<T, Refusal>,
) -> u64 {
    answers::fits_before(
        Paper::check_beam_bytes,
        beam,
        answer,
        Paper::beam_answer_fits,
        rule,
    )
}

wrong_copies! { FloorRules, Flooring:
    LongerBeamAccepted {
        fn read_beam_cells(beam: &[u8]) -> Result<BeamRead, Refusal> {
            Paper::read_beam_cells(&beam[..beam.len().min(BEAM_BYTES)])
        }
    }
    BeamOneShortAccepted {
        fn read_beam_cells(beam: &[u8]) -> Result<BeamRead, Refusal> {
            if beam.len() == BEAM_BYTES - 1 { Paper::read_beam_cells(&[beam, &[0]].concat()) } else { Paper::read_beam_cells(beam) }
        }
    }
    BeamOneLongAccepted {
        fn read_beam_cells(beam: &[u8]) -> Result<BeamRead, Refusal> {
            if beam.len() == BEAM_BYTES + 1 { Paper::read_beam_cells(&beam[..BEAM_BYTES]) } else { Paper::read_beam_cells(beam) }
        }
    }
    ShortBeamAsBlank {
        fn read_beam_cells(beam: &[u8]) -> Result<BeamRead, Refusal> {
            if beam.len() < BEAM_BYTES { Ok([Some(None); BEAM_CELLS]) } else { Paper::read_beam_cells(beam) }
        }
    }
    LengthAsRefusal8 {
        fn read_beam_cells(beam: &[u8]) -> Result<BeamRead, Refusal> {
            Paper::read_beam_cells(beam).map_err(|_| Refusal { number: 8, cell: 0 })
        }
    }
    ShortBeamNamesItsFirstMissingCell {
        fn read_beam_cells(beam: &[u8]) -> Result<BeamRead, Refusal> {
            Paper::read_beam_cells(beam).map_err(|found| Refusal { cell: beam.len() as u32 / 9 + 1, ..found })
        }
    }
    HeightBeforeWidth {
        fn row_cells() -> [usize; ROW_CELLS.len()] {
            [GRADE, MOISTURE, OFFICE_FACTOR, HEIGHT, WIDTH]
        }
    }
    OfficeFactorBeforeMoisture {
        fn row_cells() -> [usize; ROW_CELLS.len()] {
            [GRADE, OFFICE_FACTOR, MOISTURE, WIDTH, HEIGHT]
        }
    }
    GradeLast {
        fn row_cells() -> [usize; ROW_CELLS.len()] {
            [MOISTURE, OFFICE_FACTOR, WIDTH, HEIGHT, GRADE]
        }
    }
    UtilisationAndCheckExchanged {
        fn beam_answer_bytes(verdict: &BeamVerdict) -> [u8; BEAM_ANSWER_BYTES] {
            exchanged(verdict, 0, 2)
        }
    }
    CountAndCheckExchanged {
        fn beam_answer_bytes(verdict: &BeamVerdict) -> [u8; BEAM_ANSWER_BYTES] {
            exchanged(verdict, 1, 2)
        }
    }
    CheckAndRegimeExchanged {
        fn beam_answer_bytes(verdict: &BeamVerdict) -> [u8; BEAM_ANSWER_BYTES] {
            exchanged(verdict, 2, 3)
        }
    }
    RegimeAndMomentExchanged {
        fn beam_answer_bytes(verdict: &BeamVerdict) -> [u8; BEAM_ANSWER_BYTES] {
            exchanged(verdict, 3, 4)
        }
    }
    MomentAndShearExchanged {
        fn beam_answer_bytes(verdict: &BeamVerdict) -> [u8; BEAM_ANSWER_BYTES] {
            exchanged(verdict, 4, 5)
        }
    }
    RegimeAndShearExchanged {
        fn beam_answer_bytes(verdict: &BeamVerdict) -> [u8; BEAM_ANSWER_BYTES] {
            exchanged(verdict, 3, 5)
        }
    }
    MadeOfLoadsFirst {
        fn beam_answer_bytes(verdict: &BeamVerdict) -> [u8; BEAM_ANSWER_BYTES] {
            let mut bytes = Paper::beam_answer_bytes(verdict);
            bytes.rotate_left(ANSWER_BYTES);
            bytes
        }
    }
    RegimeAsItsPlace {
        fn beam_answer_bytes(verdict: &BeamVerdict) -> [u8; BEAM_ANSWER_BYTES] {
            with(verdict, 3, f64::from(verdict.regime - 1))
        }
    }
    RegimeAsDurationFactor {
        fn beam_answer_bytes(verdict: &BeamVerdict) -> [u8; BEAM_ANSWER_BYTES] {
            with(verdict, 3, if verdict.regime == 2 { 53.0 } else { 66.0 })
        }
    }
    MomentInNewtonMetres {
        fn beam_answer_bytes(verdict: &BeamVerdict) -> [u8; BEAM_ANSWER_BYTES] {
            with(verdict, 4, verdict.moment as f64 / 1000.0)
        }
    }
    MomentByWayOfAShortFloat {
        fn beam_answer_bytes(verdict: &BeamVerdict) -> [u8; BEAM_ANSWER_BYTES] {
            with(verdict, 4, f64::from(verdict.moment as f32))
        }
    }
    ShearInKilonewtons {
        fn beam_answer_bytes(verdict: &BeamVerdict) -> [u8; BEAM_ANSWER_BYTES] {
            with(verdict, 5, verdict.shear as f64 / 1000.0)
        }
    }
    FiguresAsWholeNumbers {
        fn beam_answer_bytes(verdict: &BeamVerdict) -> [u8; BEAM_ANSWER_BYTES] {
            with(verdict, 5, f64::from_bits(verdict.shear))
        }
    }
    AnswerOfRowAccepted {
        fn check_beam_bytes(beam: &[u8], answer: &mut [u8]) -> u64 {
            in_part(beam, answer, |length| length == ANSWER_BYTES)
        }
    }
    ShorterAnswersFilledInPart {
        fn check_beam_bytes(beam: &[u8], answer: &mut [u8]) -> u64 {
            in_part(beam, answer, |length| length < BEAM_ANSWER_BYTES)
        }
    }
    AnswerOneShortAccepted {
        fn check_beam_bytes(beam: &[u8], answer: &mut [u8]) -> u64 {
            in_part(beam, answer, |length| length == BEAM_ANSWER_BYTES - 1)
        }
    }
    AnswerOneLongAccepted {
        fn beam_answer_fits(length: usize) -> bool {
            length == BEAM_ANSWER_BYTES + 1 || Paper::beam_answer_fits(length)
        }
    }
    LongerAnswersAccepted {
        fn beam_answer_fits(length: usize) -> bool {
            length >= BEAM_ANSWER_BYTES
        }
    }
    AnswerLengthBeforeAll {
        fn check_beam_bytes(beam: &[u8], answer: &mut [u8]) -> u64 {
            fits_before(beam, answer, |_| Ok(()))
        }
    }
    AnswerLengthBeforeTheLoads {
        fn check_beam_bytes(beam: &[u8], answer: &mut [u8]) -> u64 {
            fits_before(beam, answer, Paper::read_beam_cells)
        }
    }
    AnswerLengthBeforeUnreadableCells {
        fn check_beam_bytes(beam: &[u8], answer: &mut [u8]) -> u64 {
            fits_before(beam, answer, |beam| {
                let [first, second, span, ..] = Paper::read_beam_cells(beam)?;
                Paper::loads(&[first, second, span])
            })
        }
    }
    AnswerLengthBeforeTheRow {
        fn check_beam_bytes(beam: &[u8], answer: &mut [u8]) -> u64 {
            fits_before(beam, answer, Paper::read_beam)
        }
    }
    AnswerLengthAsRefusal8 {
        fn check_beam_bytes(beam: &[u8], answer: &mut [u8]) -> u64 {
            let code = Paper::check_beam_bytes(beam, answer);
            if code == 5000 { 8000 } else { code }
        }
    }
    AnswerClearedFirst {
        fn check_beam_bytes(beam: &[u8], answer: &mut [u8]) -> u64 {
            answer.fill(0);
            Paper::check_beam_bytes(beam, answer)
        }
    }
    RefusalWrittenToTheAnswer {
        fn check_beam_bytes(beam: &[u8], answer: &mut [u8]) -> u64 {
            answers::refusal_written(Paper::check_beam_bytes, beam, answer)
        }
    }
    AnswerNotWrittenOnFail {
        fn check_beam_bytes(beam: &[u8], answer: &mut [u8]) -> u64 {
            answers::written_only_if(Paper::check_beam_bytes, beam, answer, |code| code != 1)
        }
    }
    /// Reads the first beam that it is given and judges that one for good.
    JudgesTheFirstBeamForGood {
        fn check_beam_bytes(beam: &[u8], answer: &mut [u8]) -> u64 {
            thread_local!(static FIRST: std::cell::OnceCell<Vec<u8>> = const { std::cell::OnceCell::new() });
            FIRST.with(|first| Paper::check_beam_bytes(first.get_or_init(|| beam.to_vec()), answer))
        }
    }
}
