// A stand-in for the published prefix_parser: which spellings of prefixes a name accepts belongs to parsing, which is left.
#[derive(Debug, Clone, Copy, PartialEq, Eq)]
pub struct AcceptsPrefix;
