//! The planted faults and what is wrong in each: the fail in sentences, composed.

use crate::faults::Fault;

pub const PLANTED: [(Fault, &str); 83] = [
    (Fault::SentenceStayOfOne, "\"stay\" of one silent terminal"),
    (
        Fault::SentenceStaysOfSeveral,
        "\"stays\" of several silent terminals",
    ),
    (Fault::SentenceGetOfOne, "\"get\" of one waiting terminal"),
    (
        Fault::SentenceGetsOfSeveral,
        "\"gets\" of several waiting terminals",
    ),
    (
        Fault::SentenceVerbsExchanged,
        "\"stays\" where one waits and \"gets\" where one is silent",
    ),
    (
        Fault::SentenceVerbsByLast,
        "\"stays\" and \"gets\" where the last number is 1",
    ),
    (
        Fault::SentenceCommaBeforeAnd,
        "a comma before \"and\" in a list of three or more",
    ),
    (
        Fault::SentenceCommaBeforeEveryAnd,
        "a comma before every \"and\"",
    ),
    (Fault::SentenceCommaForAnd, "a comma instead of \"and\""),
    (
        Fault::SentenceAndThroughout,
        "\"and\" between all numbers of a sentence",
    ),
    (
        Fault::SentenceNoBlankAfterComma,
        "no blank after the commas of a list",
    ),
    (
        Fault::SentenceDescending,
        "numbers of a sentence descending",
    ),
    (Fault::SentenceInTextOrder, "10 before 2 in a sentence"),
    (
        Fault::SentenceLastForgotten,
        "the last of a sentence's lists not named",
    ),
    (
        Fault::SentenceFromOne,
        "terminals of a sentence counted from 1",
    ),
    (
        Fault::SentenceTwoDigits,
        "two digits for every number of a sentence",
    ),
    (Fault::SentenceInHex, "numbers of a sentence in hexadecimal"),
    (
        Fault::SentenceLastDigit,
        "numbers of a sentence without their tens",
    ),
    (
        Fault::SentenceEmptyAsIf,
        "\"If  stay silent\" where nobody is silent",
    ),
    (
        Fault::SentenceEmptyAsNobody,
        "\"If nobody stays silent\" where nobody is silent",
    ),
    (Fault::SentenceEmptySmall, "\"even\" with a small letter"),
    (
        Fault::SentenceEmptyNoComma,
        "no comma after \"Even if all work\"",
    ),
    (Fault::SentenceSmallIf, "\"if\" with a small letter"),
    (Fault::SentenceNoComma, "no comma after \"silent\""),
    (Fault::SentenceNoticeCapital, "\"Notice\" with a capital"),
    (Fault::SentenceUnstopped, "a sentence without its full stop"),
    (
        Fault::SentenceStoppedTwice,
        "a sentence with two full stops",
    ),
    (
        Fault::SentenceEndedInText,
        "a line end composed after the full stop",
    ),
    (
        Fault::SentenceSetsExchanged,
        "F and R exchanged in a sentence",
    ),
    (
        Fault::SentenceReachedNamed,
        "L named instead of R in a sentence",
    ),
    (
        Fault::SentenceReachedSilent,
        "L named instead of F in a sentence",
    ),
    (
        Fault::SentenceOfOne,
        "sets of one terminal refused 2 instead of 4 by the composer",
    ),
    (Fault::SentenceOf19, "20 terminals refused by the composer"),
    (Fault::SentenceOf21, "21 terminals accepted by the composer"),
    (Fault::SentenceOfAnyN, "n not checked by the composer"),
    (
        Fault::SentenceSetsBeforeN,
        "cause 2 before 4 by the composer",
    ),
    (
        Fault::SentenceLengthBeforeSets,
        "cause 12 before 2 by the composer",
    ),
    (
        Fault::SentenceLengthBeforeN,
        "cause 12 before 4 by the composer",
    ),
    (
        Fault::SentenceWrongSetsAs5,
        "sets that are no partition refused 5",
    ),
    (
        Fault::SentenceWrongSetsAs7,
        "sets that are no partition refused 7",
    ),
    (Fault::SentenceReachedEmptyAccepted, "an empty L composed"),
    (Fault::SentenceWaitingEmptyAccepted, "an empty R composed"),
    (
        Fault::SentenceEmptySilentRefused,
        "an empty F refused by the composer",
    ),
    (
        Fault::SentenceZeroIsSource,
        "0 outside L refused by the composer",
    ),
    (
        Fault::SentenceReachedNotCompared,
        "L not compared with F and R by the composer",
    ),
    (
        Fault::SentenceMissingAccepted,
        "a terminal in no set accepted by the composer",
    ),
    (
        Fault::SentenceOverlapAccepted,
        "a terminal in two sets accepted by the composer",
    ),
    (
        Fault::SentenceSilentAndReached,
        "a terminal in F and L accepted by the composer",
    ),
    (
        Fault::SentenceSilentAndWaiting,
        "a terminal in F and R accepted by the composer",
    ),
    (
        Fault::SentenceReachedAndWaiting,
        "a terminal in L and R accepted by the composer",
    ),
    (
        Fault::SentenceSetsCounted,
        "a partition by the number of members alone",
    ),
    (
        Fault::SentenceSetsSummed,
        "a partition by the sum of the sets' numbers",
    ),
    (
        Fault::SentenceSetsXored,
        "a partition by the bits that an odd number of sets has",
    ),
    (
        Fault::SentenceMemberNAccepted,
        "terminal n accepted by the composer",
    ),
    (
        Fault::SentenceAboveInSilent,
        "a bit at or above n in F accepted by the composer",
    ),
    (
        Fault::SentenceAboveInReached,
        "a bit at or above n in L accepted by the composer",
    ),
    (
        Fault::SentenceAboveInWaiting,
        "a bit at or above n in R accepted by the composer",
    ),
    (
        Fault::SentenceAbove19Accepted,
        "a bit above 19 accepted by the composer",
    ),
    (
        Fault::SentenceExactRefused,
        "a list just as long as the sentence refused",
    ),
    (
        Fault::SentenceCutOff,
        "as much of a sentence as a short list holds written",
    ),
    (
        Fault::SentenceWrongSetsWritten,
        "the words of wrong sets written",
    ),
    (
        Fault::SentenceRefusedListCleared,
        "the list of a refused call cleared",
    ),
    (
        Fault::SentenceLengthBesideRefusal,
        "the sentence's length told beside 12",
    ),
    (
        Fault::SentenceRestCleared,
        "the bytes after a sentence cleared",
    ),
    (
        Fault::SentenceRestBlank,
        "the bytes after a sentence made blanks",
    ),
    (
        Fault::SentenceEndedInList,
        "a line end written after a sentence where there is room",
    ),
    (
        Fault::SentenceLengthOfList,
        "the list's length told instead of the sentence's",
    ),
    (
        Fault::SentenceLengthOneMore,
        "one more than the sentence's length told",
    ),
    (
        Fault::SentenceLengthWithoutStop,
        "the sentence's length told without the full stop",
    ),
    (
        Fault::SentenceAfterVerdict,
        "the verdict's line printed before a sentence",
    ),
    (Fault::SentenceUnended, "the line of a sentence not ended"),
    (Fault::SentenceEndedTwice, "an empty line after a sentence"),
    (
        Fault::SentenceWindowsEnd,
        "a carriage return after a sentence",
    ),
    (
        Fault::SentenceRefusedWithoutLine,
        "a refused file told with line 0 by `sentence`",
    ),
    (Fault::SentenceOfArchive, "a deaf plan told in a sentence"),
    (
        Fault::SentenceOfQuotes,
        "13 terminals refused by `sentence`",
    ),
    (Fault::SentenceWithoutGroups, "groups refused by `sentence`"),
    (Fault::PassCapital, "pass with a capital"),
    (Fault::PassUnended, "the line of a pass not ended"),
    (Fault::PassStopped, "a full stop after pass"),
    (Fault::PassEmpty, "an empty line for a pass"),
    (Fault::PassNotPrinted, "nothing printed of a pass"),
    (Fault::PassAsVerdict, "the verdict's line printed of a pass"),
];
