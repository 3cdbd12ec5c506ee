//! The catalogue of document 01's rules: one method each, which the files beside this one spell out.
//!
//! The rules call one another through this trait and never directly, so that a copy which changes one of them
//! changes nothing else.
use crate::cells::{Cells, Codes, Factors, Grade, Joint, Kind, Member};
use crate::packing::Bits;
use crate::verdict::Outcome;
use crate::{
    acceptance, buckling, combined, host, joint, packing, reading, schedule, strength, tables,
    verdict,
};
use lvl_addin::answer::{Refusal, Verdict};
use lvl_addin::row::ANSWER_BYTES;
use std::ops::RangeInclusive;

/// Document 01's rules. Every method is provided; units are its own.
pub trait Rules: Sized {
    // Codes and tables.

    /// The kind of a code, if it is known.
    fn kind(code: u64) -> Option<Kind> {
        tables::kind(code)
    }

    /// The grade of a code, if it is known.
    fn grade(code: u64) -> Option<Grade> {
        tables::grade(code)
    }

    /// t of a regime's code, if it is known.
    fn duration_factor(code: u64) -> Option<u64> {
        tables::duration_factor(code)
    }

    /// Whether a row of Table 16 is known for a kind.
    fn knows_table_16_row(kind: Kind, row: u64) -> bool {
        tables::knows_table_16_row(kind, row)
    }

    /// The slenderness limit of a row of Table 16.
    fn slenderness_limit(row: u64) -> u64 {
        tables::slenderness_limit(row)
    }

    /// w of a moisture.
    fn moisture_factor(percent: u64) -> u64 {
        tables::moisture_factor(percent)
    }

    /// Table 7, bending.
    fn bending_strength(grade: Grade) -> u64 {
        tables::bending_strength(grade)
    }

    /// Table 7, compression.
    fn compression_strength(grade: Grade) -> u64 {
        tables::compression_strength(grade)
    }

    /// Table 7, tension.
    fn tension_strength(grade: Grade) -> u64 {
        tables::tension_strength(grade)
    }

    /// Table 7, shear.
    fn shear_strength(grade: Grade) -> u64 {
        tables::shear_strength(grade)
    }

    // Strengths and capacities.

    /// t × w × o.
    fn factor_product(factors: &Factors) -> u64 {
        strength::factor_product(factors)
    }

    /// R of a table value.
    fn design_strength(table_value: u64, factor_product: u64) -> u64 {
        strength::design_strength(table_value, factor_product)
    }

    /// R of a member in bending.
    fn design_bending(member: &Member) -> u64 {
        Self::design_strength(
            Self::bending_strength(member.grade),
            Self::factor_product(&member.factors),
        )
    }

    /// R of a member in compression.
    fn design_compression(member: &Member) -> u64 {
        Self::design_strength(
            Self::compression_strength(member.grade),
            Self::factor_product(&member.factors),
        )
    }

    /// R of a member in tension.
    fn design_tension(member: &Member) -> u64 {
        Self::design_strength(
            Self::tension_strength(member.grade),
            Self::factor_product(&member.factors),
        )
    }

    /// R of a member in shear.
    fn design_shear(member: &Member) -> u64 {
        Self::design_strength(
            Self::shear_strength(member.grade),
            Self::factor_product(&member.factors),
        )
    }

    /// The capacity of a rectangle along the grain: NR, and those of checks 5 and 6.
    fn axial_capacity(width: u64, height: u64, strength: u64) -> u64 {
        strength::axial_capacity(width, height, strength)
    }

    /// MR.
    fn bending_capacity(width: u64, height: u64, strength: u64) -> u64 {
        strength::bending_capacity(width, height, strength)
    }

    /// The capacity in shear.
    fn shear_capacity(width: u64, height: u64, strength: u64) -> u64 {
        strength::shear_capacity(width, height, strength)
    }

    // The joint.

    /// Check 1.
    fn layout_holds(height: u64, joint: &Joint) -> bool {
        joint::layout_holds(height, joint)
    }

    /// r × d.
    fn holes(joint: &Joint) -> u64 {
        joint::holes(joint)
    }

    /// The term of crushing in the middle piece.
    fn middle_term(width: u64, joint: &Joint) -> u64 {
        joint::middle_term(width, joint)
    }

    /// The term of crushing in the side piece.
    fn side_term(joint: &Joint) -> u64 {
        joint::side_term(joint)
    }

    /// The term of the dowel's bending.
    fn dowel_term(joint: &Joint) -> u64 {
        joint::dowel_term(joint)
    }

    /// s.
    fn factor_root(factor_product: u64) -> u64 {
        joint::factor_root(factor_product)
    }

    /// What a term of crushing carries.
    fn crushing_capacity(term: u64, factor_product: u64) -> u64 {
        joint::crushing_capacity(term, factor_product)
    }

    /// What the term of the dowel's bending carries.
    fn dowel_bending_capacity(term: u64, factor_root: u64) -> u64 {
        joint::dowel_bending_capacity(term, factor_root)
    }

    /// What a dowel carries by each mode of failure: middle piece, side piece, dowel.
    fn mode_capacities(member: &Member, joint: &Joint) -> [u64; 3] {
        joint::mode_capacities::<Self>(member, joint)
    }

    /// T.
    fn dowel_capacity(member: &Member, joint: &Joint) -> u64 {
        joint::dowel_capacity::<Self>(member, joint)
    }

    /// The count that an axial force needs.
    fn dowel_count(axial: u64, dowel_capacity: u64) -> u64 {
        joint::dowel_count(axial, dowel_capacity)
    }

    /// The count of a member.
    fn count(member: &Member) -> u64 {
        joint::count::<Self>(member)
    }

    /// The columns that a count needs.
    fn columns(count: u64, across: u64) -> u64 {
        joint::columns(count, across)
    }

    /// Check 4.
    fn joint_length_holds(columns: u64, joint: &Joint) -> bool {
        joint::joint_length_holds(columns, joint)
    }

    // Slenderness and buckling.

    /// Checks 2 and 3.
    fn slenderness_holds(length: u64, side: u64, limit: u64) -> bool {
        buckling::slenderness_holds(length, side, limit)
    }

    /// Whether φ takes its first form.
    fn is_stocky(length: u64, side: u64) -> bool {
        buckling::is_stocky(length, side)
    }

    /// The first form of φ.
    fn stocky_phi(length: u64, side: u64) -> u64 {
        buckling::stocky_phi(length, side)
    }

    /// The second form of φ.
    fn slender_phi(length: u64, side: u64) -> u64 {
        buckling::slender_phi(length, side)
    }

    /// φ.
    fn phi(length: u64, side: u64) -> u64 {
        buckling::phi::<Self>(length, side)
    }

    /// φ', which keeps the second form at every slenderness.
    fn enlarging_phi(length: u64, side: u64) -> u64 {
        Self::slender_phi(length, side)
    }

    /// NR times φ or φ'.
    fn buckling_capacity(axial_capacity: u64, phi: u64) -> u64 {
        buckling::buckling_capacity(axial_capacity, phi)
    }

    /// p.
    fn euler_share(axial: u64, capacity: u64) -> u64 {
        combined::euler_share(axial, capacity)
    }

    /// Md, if p is below one.
    fn enlarged_moment(moment: u64, euler_share: u64) -> Option<u64> {
        combined::enlarged_moment(moment, euler_share)
    }

    // The checks and the verdict.

    /// The checks of a kind in their order.
    fn checks(kind: Kind) -> &'static [u32] {
        verdict::checks(kind)
    }

    /// Whether a row has a check of its kind.
    fn applies(check: u32, member: &Member) -> bool {
        verdict::applies(check, member)
    }

    /// How a check comes out.
    fn outcome(check: u32, member: &Member, count: u64) -> Outcome {
        verdict::outcome::<Self>(check, member, count)
    }

    /// The utilisation of check 5.
    fn net_tension(member: &Member, joint: Option<&Joint>) -> u64 {
        verdict::net_tension::<Self>(member, joint)
    }

    /// The utilisation of check 6.
    fn side_pieces(member: &Member, joint: &Joint) -> u64 {
        verdict::side_pieces::<Self>(member, joint)
    }

    /// The utilisation of check 7.
    fn bending(member: &Member) -> u64 {
        verdict::bending::<Self>(member)
    }

    /// The utilisation of check 8.
    fn shear(member: &Member) -> u64 {
        verdict::shear::<Self>(member)
    }

    /// The utilisation of check 9.
    fn buckling_across_h(member: &Member) -> u64 {
        verdict::buckling::<Self>(member, member.length_h, member.height)
    }

    /// The utilisation of check 10.
    fn buckling_across_b(member: &Member) -> u64 {
        verdict::buckling::<Self>(member, member.length_b, member.width)
    }

    /// The utilisation of check 11.
    fn combined(member: &Member) -> u64 {
        match member.kind {
            Kind::TensionWithBending => combined::with_tension::<Self>(member),
            _ => combined::with_compression::<Self>(member),
        }
    }

    /// The utilisation of a force against a capacity.
    fn utilisation(force: u64, capacity: u64) -> u64 {
        verdict::utilisation::<Self>(force, capacity)
    }

    /// The sum of two utilisations.
    fn added(axial: u64, bending: u64) -> u64 {
        verdict::added::<Self>(axial, bending)
    }

    /// The greatest utilisation that is given.
    fn capped(utilisation: u128) -> u64 {
        verdict::capped(utilisation)
    }

    /// Whether a check governs over an earlier one and its utilisation.
    fn governs(check: u32, utilisation: u64, so_far: (u32, u64)) -> bool {
        verdict::governs(check, utilisation, so_far)
    }

    /// The pass limit.
    fn passes(utilisation: u64) -> bool {
        verdict::passes(utilisation)
    }

    /// The count given with a failed yes-or-no check.
    fn count_at_failure(check: u32, count: u64) -> u64 {
        verdict::count_at_failure(check, count)
    }

    /// The verdict on a member.
    fn judge(member: &Member) -> Verdict {
        verdict::judge::<Self>(member)
    }

    // Which rows are judged.

    /// The kind of a row, or a refusal for cell 1.
    fn kind_of(cells: &Cells) -> Result<Kind, Refusal> {
        acceptance::kind_of::<Self>(cells)
    }

    /// Whether a row has any cell of a joint.
    fn joint_begun(kind: Kind, cells: &Cells) -> bool {
        acceptance::joint_begun(kind, cells)
    }

    /// Whether a cell must be filled.
    fn must_be_filled(kind: Kind, number: usize, joint_begun: bool) -> bool {
        acceptance::must_be_filled(kind, number, joint_begun)
    }

    /// Refusal 2.
    fn refuse_misfilled(kind: Kind, cells: &Cells) -> Result<(), Refusal> {
        acceptance::refuse_misfilled::<Self>(kind, cells)
    }

    /// The known codes of a row, or refusal 3.
    fn codes(kind: Kind, cells: &Cells) -> Result<Codes, Refusal> {
        acceptance::codes::<Self>(kind, cells)
    }

    /// The range of a cell.
    fn range(number: usize) -> Option<RangeInclusive<u64>> {
        acceptance::range(number)
    }

    /// Refusal 4.
    fn refuse_outside_range(cells: &Cells) -> Result<(), Refusal> {
        acceptance::refuse_outside_range::<Self>(cells)
    }

    /// The member of a row, or the first of the refusals in their order.
    fn accept(cells: &Cells) -> Result<Member, Refusal> {
        acceptance::accept::<Self>(cells)
    }

    /// The row check.
    fn check_row(cells: &Cells) -> Result<Verdict, Refusal> {
        acceptance::check_row::<Self>(cells)
    }

    // The host's bytes.

    /// The whole number of a float's bits.
    fn whole_number(bits: u64) -> Option<u64> {
        reading::whole_number(bits)
    }

    /// The float's bits in the host's row.
    fn float_bits(bytes: [u8; 8]) -> u64 {
        reading::float_bits(bytes)
    }

    /// A cell of the host's row: its first byte and the float's bits.
    fn read_cell(tag: u8, bits: u64) -> Option<Option<u64>> {
        reading::read_cell::<Self>(tag, bits)
    }

    /// The cells of the host's row, or refusal 1.
    fn read_row(row: &[u8]) -> Result<Cells, Refusal> {
        reading::read_row::<Self>(row)
    }

    /// The answer's bytes.
    fn answer_bytes(verdict: &Verdict) -> [u8; ANSWER_BYTES] {
        host::answer_bytes::<Self>(verdict)
    }

    /// The bytes of one float of the answer.
    fn float_bytes(number: f64) -> [u8; 8] {
        host::float_bytes(number)
    }

    /// Whether the lent bytes have the answer's length.
    fn answer_fits(length: usize) -> bool {
        host::answer_fits(length)
    }

    /// The number returned for a verdict.
    fn verdict_code(verdict: &Verdict) -> u64 {
        host::verdict_code(verdict)
    }

    /// The number returned for a refusal.
    fn refusal_code(refusal: Refusal) -> u64 {
        host::refusal_code(refusal)
    }

    /// The entry for checking.
    fn check_bytes(row: &[u8], answer: &mut [u8]) -> u64 {
        host::check_bytes::<Self>(row, answer)
    }

    /// The entry for packing.
    fn pack_bytes(row: &[u8], out: &mut [u8]) -> u64 {
        host::pack_bytes::<Self>(row, out)
    }

    // Packed rows.

    /// The bits of a packed cell and how many they are.
    fn cell_bits(cell: Option<u64>) -> (u64, u32) {
        packing::cell_bits(cell)
    }

    /// The bits that fill the last byte.
    fn padding(width: u32) -> u64 {
        packing::padding(width)
    }

    /// Refusal 4 of packing.
    fn refuse_unpackable(cells: &Cells) -> Result<(), Refusal> {
        packing::refuse_unpackable(cells)
    }

    /// The bytes that a packed row takes.
    fn packed_length(cells: &Cells) -> usize {
        packing::packed_length::<Self>(cells)
    }

    /// The packed row's bits, laid into bytes.
    fn write_packed(cells: &Cells, out: &mut [u8]) {
        packing::write_packed::<Self>(cells, out)
    }

    /// Packing.
    fn pack(cells: &Cells, out: &mut [u8]) -> Result<usize, Refusal> {
        packing::pack::<Self>(cells, out)
    }

    /// The next cell of packed bits.
    fn take_cell(bits: &mut Bits) -> Option<Option<u64>> {
        packing::take_cell(bits)
    }

    /// Refusal 6.
    fn cut_off(number: usize) -> Refusal {
        packing::cut_off(number)
    }

    /// Whether padding bits give refusal 7.
    fn spoils_padding(padding: u64) -> bool {
        packing::spoils_padding(padding)
    }

    /// Unpacking.
    fn unpack(input: &[u8]) -> Result<(Cells, usize), Refusal> {
        packing::unpack::<Self>(input)
    }

    // The program `schedule`.

    /// How much of the input is looked at.
    fn input_limit() -> usize {
        schedule::INPUT_BYTES
    }

    /// The number of the first line.
    fn first_number() -> usize {
        1
    }

    /// The verdict on the next row and the input after it.
    fn next_row(input: &[u8]) -> (Result<Verdict, Refusal>, &[u8]) {
        schedule::next_row::<Self>(input)
    }

    /// The line of a row.
    fn line(number: usize, judged: Result<Verdict, Refusal>) -> String {
        schedule::line(number, judged)
    }

    /// The output.
    fn schedule(input: &[u8]) -> String {
        schedule::schedule::<Self>(input)
    }
}
