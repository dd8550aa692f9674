//! The library beside parts that were written apart from it, from documents 01 and 02: a solver of
//! another method, the refusal table, a reader of the text and a writer of the listing.

// the parts
mod call;
mod came;
mod conditions;
mod flow;
mod fraction;
mod generate;
mod hair;
mod random;
mod records;
mod refusals;
mod sheet;
mod solver;
mod wide;

// the tests
mod bench;
mod c_example;
mod exact_gaps;
mod generated;
mod hard;
mod laws;
mod moved_wants;
mod numbering;
mod opposite_gaps;
mod raw_calls;
mod rounding;
mod rounding_cases;
mod slack;
mod slots;
mod stack;
mod station;
mod text;
mod words;
