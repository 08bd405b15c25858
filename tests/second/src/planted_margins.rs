//! The planted faults and what is wrong in each: the margins.

use crate::faults::Fault;

pub const PLANTED: [(Fault, &str); 64] = [
    (Fault::MarginLessF, "margins less f instead of f+1"),
    (
        Fault::MarginOverAllSets,
        "margins over all sets, bad or not",
    ),
    (
        Fault::MarginWhereItIsBad,
        "margins over bad sets with the terminal in them too",
    ),
    (Fault::MarginWithNobodyBad, "margins with nobody bad alone"),
    (
        Fault::MarginOfVerdictSet,
        "margins over the bad set of the verdict alone",
    ),
    (
        Fault::MarginOfFewBad,
        "margins over bad sets of at most f members",
    ),
    (
        Fault::MarginOfOneBad,
        "margins over bad sets of at most one member",
    ),
    (
        Fault::MarginSourceUnbounded,
        "bound at the source not checked in the bad sets of margins",
    ),
    (
        Fault::MarginBadOnesBounded,
        "bound checked at bad terminals too in margins",
    ),
    (
        Fault::MarginGreatest,
        "the greatest instead of the least margin",
    ),
    (
        Fault::MarginAfterOneTurn,
        "one turn of growth instead of the final L in margins",
    ),
    (
        Fault::MarginSourceCountsOne,
        "who hears the source joins the L of margins by f+1 members alone",
    ),
    (
        Fault::MarginJoinsWithF,
        "f instead of f+1 members are enough for the L of margins",
    ),
    (
        Fault::MarginJoinsWithOne,
        "one member is enough for the L of margins",
    ),
    (
        Fault::MarginOfHearers,
        "margins by hearers instead of those heard",
    ),
    (
        Fault::MarginCountsBadOnes,
        "bad neighbours counted in margins",
    ),
    (
        Fault::MarginCountsAllGood,
        "all good neighbours counted in margins, those in R too",
    ),
    (Fault::MarginCutAtZero, "margins below zero cut to zero"),
    (Fault::DirectByMargin, "a number instead of direct"),
    (
        Fault::DirectWhereShort,
        "direct only where the margin is below zero",
    ),
    (
        Fault::DirectBackwards,
        "direct for those whom the source hears",
    ),
    (
        Fault::MarginLinksFirst,
        "cause 5 before 4 of a record for margins",
    ),
    (
        Fault::MarginGroupsAfterLinks,
        "cause 4 of a record's groups after 5 for margins",
    ),
    (
        Fault::MarginGroupsAs17,
        "a record with groups refused 17 by margins",
    ),
    (
        Fault::MarginBesideFAs17,
        "a record with a group beside f refused 17 by margins",
    ),
    (
        Fault::MarginBesideFAccepted,
        "a record with a group beside f accepted by margins",
    ),
    (
        Fault::MarginDeafRecordRefused,
        "a deaf record refused by margins",
    ),
    (
        Fault::MarginGroupsAccepted,
        "groups accepted by margins, their count as f",
    ),
    (Fault::MarginHeadAs17, "ff for f refused 17 by margins"),
    (
        Fault::MarginHeadWithoutLine,
        "cause 4 of ff told with line 0 by margins",
    ),
    (Fault::MarginHeadBeforeText, "cause 4 of ff before 1"),
    (Fault::MarginHeadBeforeKind, "cause 4 of ff before 2"),
    (Fault::MarginHeadBeforeOrder, "cause 4 of ff before 3"),
    (
        Fault::MarginHeadAfterAll,
        "cause 4 of ff after the causes of later lines",
    ),
    (Fault::GroupUnknownToMargins, "kind 07 not known to margins"),
    (
        Fault::DeafInMargins,
        "deaf terminals not looked for by margins",
    ),
    (Fault::QuoteLimitInMargins, "cause 14 given by margins"),
    (
        Fault::MarginsSourcePrinted,
        "a line for the source among the margins",
    ),
    (Fault::MarginsDescending, "margins in descending order"),
    (
        Fault::MarginsDirectFirst,
        "direct ones printed before the margins",
    ),
    (
        Fault::MarginsInTextOrder,
        "margins ordered as text, 10 before 2",
    ),
    (
        Fault::MarginsFromOne,
        "terminals numbered from 1 in the margins",
    ),
    (
        Fault::MarginsNumberInHex,
        "hexadecimal numbers of terminals in the margins",
    ),
    (
        Fault::MarginsNumberTwoDigits,
        "two digits for every number of a terminal in the margins",
    ),
    (
        Fault::MarginsUnended,
        "the last line of the margins not ended",
    ),
    (
        Fault::MarginPlusSign,
        "a plus sign before margins from zero on",
    ),
    (
        Fault::MarginPlusAboveZero,
        "a plus sign before margins above zero",
    ),
    (Fault::MarginTwoDigits, "two digits for every margin"),
    (Fault::MarginInHex, "hexadecimal margins"),
    (Fault::MarginLastDigit, "margins without their tens"),
    (Fault::MarginWithoutSign, "margins without their sign"),
    (Fault::MarginAsByte, "margins below zero as bytes"),
    (Fault::MarginCountsFirst, "the counts before the margins"),
    (Fault::MarginCountsNotPrinted, "no counts after the margins"),
    (
        Fault::MarginCountsSourceDirect,
        "the source counted as direct",
    ),
    (Fault::MarginCountsAtAsBelow, "zero counted as below zero"),
    (Fault::MarginCountsAtAsAbove, "zero counted as above zero"),
    (
        Fault::MarginCountsBelowInAll,
        "zero counted below and at zero",
    ),
    (
        Fault::MarginCountsDirectAndBelow,
        "counts of direct and below exchanged",
    ),
    (
        Fault::MarginCountsBelowAndAt,
        "counts of below and at exchanged",
    ),
    (
        Fault::MarginCountsAtAndAbove,
        "counts of at and above exchanged",
    ),
    (
        Fault::MarginCountsBelowAndAbove,
        "counts of below and above exchanged",
    ),
    (Fault::MarginCountsInHex, "hexadecimal counts"),
    (Fault::MarginCountsTwoDigits, "two digits for every count"),
];
