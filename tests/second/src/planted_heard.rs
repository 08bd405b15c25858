//! The planted faults and what is wrong in each: the fail in sentences, read back.

use crate::faults::Fault;

pub const PLANTED: [(Fault, &str); 94] = [
    (
        Fault::HeardOfOne,
        "a sentence of one terminal refused 2 instead of 4 by the reader",
    ),
    (
        Fault::HeardOf19,
        "20 terminals refused by the sentence's reader",
    ),
    (
        Fault::HeardOf21,
        "21 terminals accepted by the sentence's reader",
    ),
    (Fault::HeardOfAnyN, "n not checked by the sentence's reader"),
    (
        Fault::HeardTextBeforeN,
        "cause 2 before 4 by the sentence's reader",
    ),
    (
        Fault::HeardTextAs1,
        "other text refused 1 by the sentence's reader",
    ),
    (
        Fault::HeardNumberAs5,
        "a wrong number in a sentence refused 5",
    ),
    (Fault::HeardEvenRefused, "\"Even if all work\" refused"),
    (
        Fault::HeardEvenNotCompared,
        "\"Even if all work\" not compared after its first letter",
    ),
    (Fault::HeardEmptyIf, "\"If stay silent\" read as an empty F"),
    (
        Fault::HeardFirstByteNotCompared,
        "a sentence's first byte not compared",
    ),
    (Fault::HeardIfNotCompared, "\"If\" not compared"),
    (Fault::HeardSilentNotCompared, "\"silent\" not compared"),
    (Fault::HeardEndNotCompared, "\"the notice.\" not compared"),
    (
        Fault::HeardStopNotCompared,
        "another byte read as the full stop",
    ),
    (
        Fault::HeardBeginOfEnd,
        "what follows the full stop not looked at",
    ),
    (Fault::HeardStayOfOne, "\"stay\" of one read"),
    (Fault::HeardStaysOfSeveral, "\"stays\" of several read"),
    (Fault::HeardOneAlwaysStay, "\"stays\" not known"),
    (Fault::HeardGetOfOne, "\"get\" of one read"),
    (Fault::HeardGetsOfSeveral, "\"gets\" of several read"),
    (Fault::HeardCommaBeforeAnd, "a comma before \"and\" read"),
    (Fault::HeardCommaForAnd, "a comma instead of \"and\" read"),
    (
        Fault::HeardAndThroughout,
        "\"and\" between all numbers read",
    ),
    (
        Fault::HeardNoBlankAfterComma,
        "a comma without its blank read",
    ),
    (Fault::HeardUnordered, "numbers in any order read"),
    (
        Fault::HeardLastUnordered,
        "the last number of a list in any place read",
    ),
    (Fault::HeardTwice, "the same number twice in a row read"),
    (Fault::HeardDescending, "numbers read descending"),
    (Fault::HeardLeadingZeros, "07 read as a terminal"),
    (Fault::HeardPlusSign, "+7 read as a terminal"),
    (
        Fault::HeardOneDigit,
        "terminals from 10 on refused in a sentence",
    ),
    (Fault::HeardNumberAsByte, "256 read as terminal 0"),
    (Fault::HeardNumberAsWord, "4294967296 read as terminal 0"),
    (Fault::HeardFromOne, "terminals of a sentence read from 1"),
    (Fault::HeardTerminalN, "terminal n read"),
    (Fault::HeardTerminalsTo19, "terminals from n to 19 read"),
    (Fault::HeardTerminalsAbove, "terminals from n to 31 read"),
    (
        Fault::HeardInBoth,
        "a terminal that is silent and waits read",
    ),
    (
        Fault::HeardReachedEmpty,
        "a sentence that names all terminals read",
    ),
    (Fault::HeardZeroIsSource, "terminal 0 refused in a sentence"),
    (
        Fault::HeardTwoReached,
        "a sentence that leaves one terminal for L refused",
    ),
    (Fault::HeardDoubledBlank, "a doubled blank read"),
    (Fault::HeardTrimmed, "white space around a sentence read"),
    (
        Fault::HeardBlankBefore,
        "white space before a sentence read",
    ),
    (Fault::HeardLineEnd, "a line end after the full stop read"),
    (
        Fault::HeardCarriageReturn,
        "a carriage return after the full stop read",
    ),
    (Fault::HeardStoppedTwice, "two full stops read"),
    (Fault::HeardUnstopped, "no full stop read"),
    (Fault::HeardAnyCase, "capitals read anywhere"),
    (Fault::HeardSmallFirst, "a small first letter read"),
    (Fault::HeardTabAsBlank, "a tab read as a blank"),
    (
        Fault::HeardHighBitIgnored,
        "the highest bit of each byte not looked at",
    ),
    (
        Fault::HeardToFirstZero,
        "a sentence read up to its first zero byte",
    ),
    (
        Fault::HeardSetsExchanged,
        "F and R exchanged by the sentence's reader",
    ),
    (
        Fault::HeardReachedAndWaiting,
        "L and R exchanged by the sentence's reader",
    ),
    (
        Fault::HeardReachedNotTold,
        "L empty in what a sentence says",
    ),
    (
        Fault::HeardReachedAll,
        "L all terminals in what a sentence says",
    ),
    (
        Fault::HeardReachedNotSilent,
        "L all but F in what a sentence says",
    ),
    (
        Fault::HeardReachedTo19,
        "L up to 19 in what a sentence says",
    ),
    (
        Fault::HeardSetsBesideRefusal,
        "the named sets told beside a refusal",
    ),
    (Fault::HeardSizeLast, "cause 1 of a long file after 4"),
    (
        Fault::HeardSizeWithLine,
        "cause 1 of the whole file told with line 1 by `heard`",
    ),
    (
        Fault::HeardShorterFiles,
        "the longest file refused by `heard`",
    ),
    (
        Fault::HeardLongerFiles,
        "a file of 24,577 bytes read by `heard`",
    ),
    (Fault::HeardEmptyAs4, "an empty file refused 4 by `heard`"),
    (Fault::HeardNTrimmed, "blanks around n read"),
    (Fault::HeardNWindowsEnd, "a carriage return after n read"),
    (
        Fault::HeardNByFirstWord,
        "what follows n and a blank not looked at",
    ),
    (Fault::HeardNInHex, "n read in hexadecimal"),
    (Fault::HeardNAsByte, "258 read as n 2"),
    (Fault::HeardNLeadingZeros, "07 read as n"),
    (Fault::HeardNPlusSign, "+7 read as n"),
    (Fault::HeardNTwoDigits, "n of one digit refused"),
    (Fault::HeardN21, "n 21 read"),
    (Fault::HeardN1, "n 1 read"),
    (Fault::HeardNNotChecked, "any n read"),
    (Fault::HeardUnended, "a sentence without its line end read"),
    (Fault::HeardThirdLine, "more lines after the sentence read"),
    (Fault::HeardEmptyThirdLine, "an empty third line read"),
    (
        Fault::HeardWindowsEnd,
        "a carriage return before the second line end read",
    ),
    (
        Fault::HeardNWithoutLine,
        "cause 4 told with line 0 by `heard`",
    ),
    (Fault::HeardNOnLine2, "cause 4 told with line 2 by `heard`"),
    (
        Fault::HeardNForeignAs1,
        "a first line that does not begin with a digit refused 1",
    ),
    (
        Fault::HeardNoLineEndAs1,
        "a file without line end refused 1 by `heard`",
    ),
    (
        Fault::HeardNoLineEndAs2,
        "a file without line end refused 2 by `heard`",
    ),
    (
        Fault::HeardUnendedAs1,
        "a sentence without its line end refused 1",
    ),
    (
        Fault::HeardTextWithoutLine,
        "cause 2 told with line 0 by `heard`",
    ),
    (
        Fault::HeardTextOnLine1,
        "cause 2 told with line 1 by `heard`",
    ),
    (
        Fault::HeardLineUnended,
        "the line of what was heard not ended",
    ),
    (
        Fault::HeardLineCapital,
        "the line of what was heard in capitals",
    ),
    (Fault::HeardAsPass, "what was heard told as a pass"),
    (
        Fault::HeardSetsInFour,
        "sets in four bytes of what was heard",
    ),
    (Fault::HeardReachedUntold, "L not printed of what was heard"),
];
