//! The planted faults and what is wrong in each: the quoting page.

use crate::faults::Fault;

pub const PLANTED: [(Fault, &str); 22] = [
    (Fault::QuoteOf11, "12 terminals not quoted"),
    (Fault::QuoteOf13, "13 terminals quoted"),
    (Fault::QuoteOf20, "any number of terminals quoted"),
    (Fault::QuoteRefuses13Only, "cause 14 for 13 terminals alone"),
    (Fault::QuoteRefuses20Only, "cause 14 for 20 terminals alone"),
    (
        Fault::GroupsQuotedUnbounded,
        "cause 14 not given where groups are listed",
    ),
    (Fault::QuoteBeforeText, "cause 14 before 1"),
    (Fault::QuoteBeforeKind, "cause 14 before 2"),
    (Fault::QuoteBeforeOrder, "cause 14 before 3"),
    (Fault::QuoteBeforeHead, "cause 14 before 4"),
    (
        Fault::QuoteBeforeSource,
        "cause 14 before 4 of the source and of f",
    ),
    (Fault::QuoteAbove20, "cause 14 for n above 20"),
    (
        Fault::QuoteAfterLinks,
        "cause 14 after 5, and in a file after 1 to 6 of later lines",
    ),
    (Fault::QuoteAfterAll, "cause 14 after all others"),
    (Fault::QuoteWithoutLine, "cause 14 told with line 0"),
    (Fault::QuoteLimitInVerdict, "cause 14 given by the verdict"),
    (Fault::QuoteLimitInArchive, "cause 14 given by the archive"),
    (Fault::QuoteLimitInRuns, "cause 14 given by the run"),
    (
        Fault::DeafQuoted,
        "deaf terminals not looked for by the quoting page",
    ),
    (
        Fault::GroupNotQuoted,
        "kind 07 not known to the quoting page",
    ),
    (Fault::QuoteAlwaysPasses, "every plan quoted as passing"),
    (Fault::QuoteWithoutSets, "a fail quoted without its sets"),
];
