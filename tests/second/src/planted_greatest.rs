//! The planted faults and what is wrong in each: the greatest f.

use crate::faults::Fault;

pub const PLANTED: [(Fault, &str); 70] = [
    (
        Fault::GreatestByFewestHeard,
        "the greatest f by whoever hears fewest",
    ),
    (
        Fault::GreatestByOrder,
        "the greatest f by an order with 2f+1 earlier ones",
    ),
    (
        Fault::GreatestZeroAsNone,
        "none where a drawing passes for 0 alone",
    ),
    (Fault::GreatestNoneAsZero, "0 for none"),
    (Fault::GreatestFullAsNone, "none for n-1"),
    (
        Fault::GreatestUpToHead,
        "the head's f as an upper limit of the greatest f",
    ),
    (
        Fault::GreatestOfHead,
        "the head's f alone judged for the greatest f",
    ),
    (
        Fault::GreatestAboveHead,
        "none where the greatest f is below the head's",
    ),
    (Fault::GreatestNoneAsMinusOne, "-1 for none"),
    (Fault::GreatestNoneCapital, "none with a capital"),
    (Fault::GreatestNoneQuoted, "none in quotation marks"),
    (Fault::GreatestNoneEmpty, "an empty line for none"),
    (Fault::GreatestTwoDigits, "two digits for every greatest f"),
    (Fault::GreatestInHex, "the greatest f in hexadecimal"),
    (
        Fault::GreatestAsByte,
        "the greatest f as the digits of a byte",
    ),
    (Fault::GreatestLastDigit, "the greatest f without its tens"),
    (Fault::GreatestPlusSign, "a plus sign before the greatest f"),
    (
        Fault::GreatestUnended,
        "the line of the greatest f not ended",
    ),
    (
        Fault::GreatestEndedTwice,
        "an empty line after the greatest f",
    ),
    (
        Fault::GreatestWindowsEnd,
        "a carriage return after the greatest f",
    ),
    (Fault::GreatestOfOne, "the greatest f of one terminal given"),
    (Fault::GreatestOf21, "the greatest f of 21 terminals given"),
    (
        Fault::GreatestOf19,
        "20 terminals refused where the greatest f is asked",
    ),
    (
        Fault::GreatestSourceNotChecked,
        "source not checked where the greatest f is asked",
    ),
    (
        Fault::GreatestSourceNAllowed,
        "source n accepted where the greatest f is asked",
    ),
    (
        Fault::GreatestFNotChecked,
        "the head's f not checked where the greatest f is asked",
    ),
    (
        Fault::GreatestFOfNAllowed,
        "f = n accepted where the greatest f is asked",
    ),
    (
        Fault::GreatestLastFRefused,
        "f = n-1 refused where the greatest f is asked",
    ),
    (
        Fault::GreatestRowAboveAllowed,
        "a row at or above n accepted where the greatest f is asked",
    ),
    (
        Fault::GreatestOwnBitAllowed,
        "a link to itself accepted where the greatest f is asked",
    ),
    (
        Fault::GreatestBitAboveAllowed,
        "a bit at or above n accepted where the greatest f is asked",
    ),
    (
        Fault::GreatestBitNAllowed,
        "bit n accepted where the greatest f is asked",
    ),
    (
        Fault::GreatestBitAbove19Allowed,
        "a bit above 19 accepted where the greatest f is asked",
    ),
    (
        Fault::GreatestSourceRowNotChecked,
        "the source's row not checked where the greatest f is asked",
    ),
    (
        Fault::GreatestLinksFirst,
        "cause 5 before 4 of a record for the greatest f",
    ),
    (
        Fault::QuoteLimitInGreatest,
        "cause 14 given where the greatest f is asked",
    ),
    (
        Fault::GreatestDeafRecordRefused,
        "a deaf record refused where the greatest f is asked",
    ),
    (
        Fault::GreatestSourceZero,
        "the source taken for 0 in the greatest f",
    ),
    (
        Fault::GreatestOfHearers,
        "the greatest f by hearers instead of those heard",
    ),
    (
        Fault::GreatestLeast,
        "the least f that passes instead of the greatest",
    ),
    (
        Fault::GreatestCounted,
        "how many f pass instead of the greatest",
    ),
    (
        Fault::GreatestFirstFail,
        "the least f that fails instead of the greatest that passes",
    ),
    (Fault::GreatestOneLess, "one less than the greatest f"),
    (
        Fault::GreatestStopsAtOne,
        "the first f above 0 that passes instead of the greatest",
    ),
    (Fault::GreatestOfN, "f = n tried for the greatest f"),
    (
        Fault::GreatestBelowLast,
        "f = n-1 not tried for the greatest f",
    ),
    (
        Fault::GreatestOfOneDigit,
        "f above 9 not tried for the greatest f",
    ),
    (Fault::GreatestSourceBad, "a bad source in the greatest f"),
    (
        Fault::GreatestSourceUnbounded,
        "bound at the source not checked in the greatest f",
    ),
    (
        Fault::GreatestBadOnesBounded,
        "bound checked at bad terminals too in the greatest f",
    ),
    (
        Fault::GreatestOverAllSets,
        "the greatest f over all sets, bad or not",
    ),
    (
        Fault::GreatestBoundedInAll,
        "the greatest f over bad sets of at most f members",
    ),
    (
        Fault::GreatestWithNobodyBad,
        "the greatest f with nobody bad alone",
    ),
    (
        Fault::GreatestOfOneBad,
        "the greatest f over bad sets of at most one member",
    ),
    (
        Fault::GreatestDeafLeftOut,
        "deaf terminals not counted among R in the greatest f",
    ),
    (
        Fault::GreatestTwoLeft,
        "one alone in R not counted in the greatest f",
    ),
    (
        Fault::GreatestSourceCountsOne,
        "who hears the source joins by f+1 members alone in the greatest f",
    ),
    (
        Fault::GreatestJoinsWithF,
        "f instead of f+1 members are enough in the greatest f",
    ),
    (
        Fault::GreatestJoinsWithMore,
        "f+2 instead of f+1 members are needed in the greatest f",
    ),
    (
        Fault::GreatestJoinsWithOne,
        "one member is enough in the greatest f",
    ),
    (
        Fault::GreatestAfterOneTurn,
        "one turn of growth instead of the final L in the greatest f",
    ),
    (
        Fault::GreatestHeadAs17,
        "ff for f refused 17 where the greatest f is asked",
    ),
    (
        Fault::GreatestHeadWithoutLine,
        "cause 4 of ff told with line 0 where the greatest f is asked",
    ),
    (
        Fault::GreatestHeadBeforeText,
        "cause 4 of ff before 1 where the greatest f is asked",
    ),
    (
        Fault::GreatestHeadBeforeKind,
        "cause 4 of ff before 2 where the greatest f is asked",
    ),
    (
        Fault::GreatestHeadBeforeOrder,
        "cause 4 of ff before 3 where the greatest f is asked",
    ),
    (
        Fault::GreatestHeadAfterAll,
        "cause 4 of ff after the causes of later lines where the greatest f is asked",
    ),
    (
        Fault::GroupUnknownToGreatest,
        "kind 07 not known where the greatest f is asked",
    ),
    (
        Fault::GreatestGroupsAccepted,
        "ff accepted where the greatest f is asked",
    ),
    (
        Fault::GreatestDeafRefused,
        "cause 15 given where the greatest f is asked",
    ),
];
