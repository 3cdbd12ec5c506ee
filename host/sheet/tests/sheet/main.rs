//! The sheet command on a hall roof, on floor beams and on whatever else people paste: always an answer, a refusal or a clear message.

mod common;

mod answer_columns;
mod columns;
mod command_line;
mod encodings;
mod first_lines;
mod floor;
mod formulas;
mod headers;
mod headings;
mod large_and_broken;
mod moment_units;
mod numbers;
mod output_file;
mod packing;
mod quotes;
mod reasons;
mod strengths;
mod terminals;
mod verdicts;
