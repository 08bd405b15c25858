//! The planted faults about editions and later notices, and what is wrong in each.

use crate::faults::Fault;

pub const PLANTED: [(Fault, &str); 95] = [
    (Fault::LowerEditionWipes, "a lower edition wipes a higher"),
    (
        Fault::LowerEditionNoted,
        "a layout of a lower edition noted in the higher",
    ),
    (
        Fault::HigherEditionNoted,
        "a layout of a higher edition noted in the lower",
    ),
    (
        Fault::FirstEditionKept,
        "a higher edition than the first not noted",
    ),
    (
        Fault::LaterPlacesStayOnWipe,
        "later places not zeroed where an edition is wiped",
    ),
    (
        Fault::CountNotResetOnWipe,
        "the count goes on where an edition is wiped",
    ),
    (
        Fault::LayoutsKeptOnWipe,
        "layouts of the lower edition kept in the higher",
    ),
    (
        Fault::GreaterLayoutWipes,
        "a greater layout wipes a smaller of the same edition",
    ),
    (
        Fault::EditionLowByteCompared,
        "editions of words compared by their low byte",
    ),
    (
        Fault::EmptyNoteForgotten,
        "the edition of a note without layouts not looked at",
    ),
    (Fault::LayoutZeroHeard, "a word with layout 0 noted"),
    (Fault::EditionZeroHeard, "a word with edition 0 noted"),
    (Fault::TakenNotesNothing, "a taken terminal does not note"),
    (Fault::SourceNotesNothing, "the source does not note"),
    (
        Fault::CountOverAllEditions,
        "whatever stands in a row counted for cause 13",
    ),
    (
        Fault::CountOfEditionZeroNotChecked,
        "more layouts than rounds accepted in edition 0",
    ),
    (
        Fault::CountBelowHeldNotChecked,
        "more layouts than rounds accepted below the edition that is held",
    ),
    (
        Fault::EditionZeroTakenAccepted,
        "edition 0 in a taken record accepted",
    ),
    (
        Fault::LayoutZeroTakenAccepted,
        "layout 0 in a taken record accepted",
    ),
    (Fault::SourceTakes, "the source takes from neighbours"),
    (
        Fault::EqualEditionTakenAgain,
        "an equal edition taken again",
    ),
    (
        Fault::AnyEditionTaken,
        "a lower edition than the one that is held taken",
    ),
    (
        Fault::LowestEditionTaken,
        "the lowest edition that qualifies taken",
    ),
    (
        Fault::HighestEditionOnly,
        "nothing taken where the highest edition does not qualify",
    ),
    (Fault::EditionZeroQualifies, "a note of edition 0 counted"),
    (
        Fault::TakenNeverTakesAgain,
        "a taken terminal takes no higher edition",
    ),
    (
        Fault::FirstRoundKept,
        "the round of the first take kept by a second",
    ),
    (
        Fault::SourceBeforeHigherEditions,
        "the source's word before a higher edition with enough votes",
    ),
    (
        Fault::SourceEditionNotAsked,
        "the source's word taken in another edition",
    ),
    (
        Fault::VotesBeforeSource,
        "enough votes before the source's word",
    ),
    (
        Fault::VotesOverEditions,
        "votes for a layout counted over all editions",
    ),
    (
        Fault::VotesOfHigherEditions,
        "votes for a layout in higher editions counted too",
    ),
    (
        Fault::LaterBeforeSteps,
        "a later notice written before the round's steps",
    ),
    (
        Fault::LaterTakenBefore,
        "a later notice written with the round before",
    ),
    (
        Fault::LaterInLastRoundLost,
        "a later notice of the last round not written",
    ),
    (Fault::PassedOnTwice, "a notice passed on twice"),
    (
        Fault::FirstNoticePassedOnOnly,
        "only the first notice passed on",
    ),
    (
        Fault::EqualEditionIssued,
        "an edition issued twice accepted",
    ),
    (
        Fault::AnyEditionIssued,
        "a lower edition issued later accepted",
    ),
    (
        Fault::IssuedByLowByte,
        "editions that are issued compared by their low byte",
    ),
    (
        Fault::LaterBesideStartOnly,
        "later editions compared with the start's alone",
    ),
    (
        Fault::EditionZeroStartAccepted,
        "a start with edition 0 accepted",
    ),
    (Fault::EditionBeforeLayout, "cause 16 before 9"),
    (Fault::EditionAfterLength, "cause 16 after 12"),
    (
        Fault::LaterLengthNotChecked,
        "a list of later notices of the wrong length accepted",
    ),
    (
        Fault::LaterPastRoundsNotLookedAt,
        "later notices past the last round not looked at",
    ),
    (
        Fault::EditionZeroEntryRefused,
        "a later notice with edition 0 refused instead of silent",
    ),
    (
        Fault::LayoutZeroEntryCounts,
        "a later notice with layout 0 compared like others",
    ),
    (Fault::NoticeUnknown, "kind 08 not known"),
    (
        Fault::NoticeKnownInPlans,
        "kind 08 known to the readers of plans",
    ),
    (
        Fault::NoticeInOldRunAccepted,
        "kind 08 in an old run accepted",
    ),
    (
        Fault::NoticeInOldRunOrder,
        "kind 08 in an old run refused by 3",
    ),
    (
        Fault::NoticeInNewRunUnknown,
        "kind 08 in a new run refused by 2",
    ),
    (
        Fault::NoticeBeforeStartUnknown,
        "kind 08 before the start refused by 2",
    ),
    (
        Fault::NoticeNoPlace,
        "kind 08 where the links end: cause 3 before 15",
    ),
    (
        Fault::NoticeAfterWordAccepted,
        "kind 08 after a word accepted",
    ),
    (
        Fault::NoticeRoundZeroAccepted,
        "kind 08 in round 0 accepted",
    ),
    (
        Fault::NoticePastLastAccepted,
        "kind 08 past the last round accepted",
    ),
    (
        Fault::NoticeRoundTwiceAccepted,
        "two of kind 08 in one round accepted",
    ),
    (
        Fault::NoticeRoundsFallAccepted,
        "kind 08 in a lower round than the one before accepted",
    ),
    (
        Fault::NoticeLengthNotChecked,
        "kind 08 with more than 6 bytes accepted",
    ),
    (Fault::LayoutBeforeOrder, "cause 9 before 3 in kind 08"),
    (Fault::EditionBeforeOrder, "cause 16 before 3 in kind 08"),
    (
        Fault::OtherStartOrder,
        "a second start of the other form refused by 3",
    ),
    (
        Fault::SecondStartUnknown,
        "a second start of the same form refused by 2",
    ),
    (
        Fault::NewStartNeedsRounds,
        "a start with an edition and without rounds refused",
    ),
    (Fault::OldWordInNewRun, "an old word in a new run accepted"),
    (Fault::NewWordInOldRun, "a new word in an old run accepted"),
    (
        Fault::NewWordBeforeStartUnknown,
        "a new word before the start refused by 2",
    ),
    (
        Fault::OldWordBeforeStartUnknown,
        "an old word before the start refused by 2",
    ),
    (
        Fault::EditionZeroWordAccepted,
        "a word with edition 0 accepted",
    ),
    (
        Fault::LayoutZeroWordAccepted,
        "a new word with layout 0 accepted",
    ),
    (
        Fault::EditionZeroWordAsNotice,
        "edition 0 in a word refused by 16",
    ),
    (
        Fault::OtherEditionNotTwice,
        "a second word in another edition accepted",
    ),
    (Fault::OldPrintedNew, "an old run printed in the new form"),
    (Fault::NewPrintedOld, "a new run printed in the old form"),
    (Fault::OldCountsAsTwo, "an old run counted as edition 2"),
    (
        Fault::LaterRoomNotChecked,
        "a reader's list of later notices of the wrong length accepted",
    ),
    (
        Fault::WordsWrittenBesideLater,
        "words written beside a list of later notices of the wrong length",
    ),
    (
        Fault::LaterWrittenBesideWords,
        "later notices written beside a list of words of the wrong length",
    ),
    (
        Fault::LaterNotWritten,
        "later notices not written into the reader's list",
    ),
    (
        Fault::SilenceNotWritten,
        "places of the reader's lists left where nothing is said",
    ),
    (
        Fault::IssueToWaiting,
        "a later notice issued to a waiting record",
    ),
    (
        Fault::IssueToEditionZero,
        "a later notice issued to a record of edition 0",
    ),
    (
        Fault::IssueToLayoutZero,
        "a later notice issued to a record of layout 0",
    ),
    (
        Fault::IssueTakenLaterAccepted,
        "a later notice issued to a record taken later than its round",
    ),
    (Fault::Issue40Refused, "a later notice in round 40 refused"),
    (
        Fault::Issue41Accepted,
        "a later notice in round 41 accepted",
    ),
    (
        Fault::IssueEditionZero,
        "a later notice with edition 0 issued",
    ),
    (
        Fault::IssueRecordFirst,
        "cause 13 of a record before 16 of a later notice",
    ),
    (
        Fault::IssueRecordBeforeLayout,
        "cause 13 of a record before 9 of a later notice",
    ),
    (
        Fault::IssueKeepsRound,
        "the round of the earlier notice kept by a later one",
    ),
    (
        Fault::IssueRaisesRound,
        "a later notice raises the record's round",
    ),
    (
        Fault::IssueClearsNotes,
        "a later notice clears the record's notes",
    ),
    (
        Fault::IssueLooksAtNotes,
        "more layouts than rounds refused by the issue of a notice",
    ),
];
