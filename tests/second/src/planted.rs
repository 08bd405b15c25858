//! The planted faults and what is wrong in each: plans, verdicts, files, steps and groups.

use crate::faults::Fault;

pub const PLANTED: [(Fault, &str); 107] = [
    (Fault::VotesWithoutOne, "f instead of f+1 votes in the step"),
    (Fault::ClosureWithoutOne, "f instead of f+1 in the closure"),
    (
        Fault::SourceUnbounded,
        "bound at the source not checked in the bad set",
    ),
    (
        Fault::BadSetBoundedInAll,
        "bad set bounded by f members in all",
    ),
    (Fault::FirstWordOnly, "a neighbour's second value not noted"),
    (
        Fault::FirstValueCounted,
        "only a neighbour's first value counted",
    ),
    (Fault::LastWordKept, "only a neighbour's last word kept"),
    (
        Fault::WordsCounted,
        "words counted instead of different neighbours",
    ),
    (
        Fault::PlacesCounted,
        "a value that stands twice in a row counted twice",
    ),
    (Fault::RepeatedNoted, "an equal word noted again"),
    (
        Fault::LastWordOfSource,
        "the source's last word instead of its first",
    ),
    (
        Fault::ZeroSkippedAtSource,
        "0 in the source's first place passed over",
    ),
    (
        Fault::SourceCountNotAsked,
        "the source's first place taken where nothing is noted",
    ),
    (
        Fault::SourceRowNotCounted,
        "the source's row not counted among the votes",
    ),
    (
        Fault::CountAtRoundRefused,
        "as many values as rounds refused",
    ),
    (Fault::CountNotChecked, "more values than rounds accepted"),
    (
        Fault::CountCheckedByPlaces,
        "more values than rounds accepted up to 40",
    ),
    (
        Fault::CountOfTakenNotChecked,
        "more values than rounds accepted of a taken record",
    ),
    (
        Fault::CountOfUnheardChecked,
        "more values than rounds refused of one not heard",
    ),
    (
        Fault::CountsFirst,
        "more values than rounds before causes 4 and 5",
    ),
    (
        Fault::LengthBeforeCounts,
        "cause 12 before more values than rounds",
    ),
    (Fault::UnheardNoted, "words noted of terminals not heard"),
    (
        Fault::UnheardCounted,
        "values counted of terminals not heard",
    ),
    (
        Fault::StalePlacesKnown,
        "a value after the count held to be noted",
    ),
    (Fault::StalePlacesCounted, "values after the count counted"),
    (Fault::StalePlacesCleared, "places after the count cleared"),
    (
        Fault::SameRoundPassedOn,
        "value passed on in the round that takes it",
    ),
    (Fault::LargestValue, "largest instead of smallest value"),
    (Fault::WitnessByNumber, "witness by number before size"),
    (
        Fault::ReachedAndLeftSwapped,
        "R and L swapped in the output",
    ),
    (Fault::LinesFromZero, "line numbers from 0"),
    (Fault::KindAndOrderExchanged, "causes 2 and 3 exchanged"),
    (
        Fault::UnendedLineAccepted,
        "last line without an end accepted",
    ),
    (Fault::LinkTwiceAccepted, "link given twice accepted"),
    (Fault::Round41Accepted, "41 rounds accepted"),
    (
        Fault::SourceInBadSetAccepted,
        "bad set naming the source accepted",
    ),
    (Fault::CapitalsAccepted, "capital digits accepted"),
    (Fault::CharactersExchanged, "digits b and c exchanged"),
    (Fault::CharacterMissing, "digit f refused"),
    (
        Fault::UnnamedRoundsForty,
        "40 rounds where the start names none",
    ),
    (
        Fault::UnnamedRoundsAsTerminals,
        "n rounds where the start names none",
    ),
    (
        Fault::NamedRoundsIgnored,
        "n-1 rounds where the start names another number",
    ),
    (
        Fault::SourceDeaf,
        "a source that hears nobody counted as deaf",
    ),
    (
        Fault::DeafByDeaf,
        "a terminal that hears only deaf ones called deaf",
    ),
    (Fault::DeafInArchive, "cause 15 given by the archive"),
    (
        Fault::DeafNotInRuns,
        "deaf terminals not looked for in run files",
    ),
    (
        Fault::DeafWithLine,
        "cause 15 told with the line's number instead of 0",
    ),
    (Fault::DeafBeforeText, "cause 15 before 1"),
    (Fault::DeafBeforeKind, "cause 15 before 2"),
    (
        Fault::DeafAfterLine,
        "cause 15 after the other causes of the line",
    ),
    (
        Fault::DeafAtEndOnly,
        "cause 15 checked at the end of the file only",
    ),
    (
        Fault::DeafAtBadSetOnly,
        "cause 15 checked at a bad set only, or at the end",
    ),
    (
        Fault::MissingBeforeDeaf,
        "a missing frame before cause 15 at the end",
    ),
    (
        Fault::MembersCounted,
        "members counted instead of fitting in a group",
    ),
    (
        Fault::FitInAllGroups,
        "enough unless they fit in every group",
    ),
    (Fault::UnionOfGroups, "all groups taken for one"),
    (Fault::LastGroupForgotten, "the last group not looked at"),
    (Fault::FirstGroupOnly, "only the first group looked at"),
    (
        Fault::BadSetInUnion,
        "bad set part of all groups together accepted",
    ),
    (
        Fault::BadSetInAllGroups,
        "bad set refused that is not part of every group",
    ),
    (
        Fault::BadSetBySize,
        "bad set with no more members than a group accepted",
    ),
    (
        Fault::WholeGroupsOnly,
        "bad sets are whole groups, or empty, and not their parts",
    ),
    (
        Fault::WitnessOfFirstGroup,
        "witness of the first group that has one",
    ),
    (
        Fault::LeftCountedTogether,
        "the neighbours of all of R counted together in the witness check",
    ),
    (
        Fault::SourceInGroupAccepted,
        "group naming the source accepted",
    ),
    (Fault::GroupMemberNAccepted, "group naming n accepted"),
    (
        Fault::GroupMembersAbove19Accepted,
        "group naming 20 or above accepted",
    ),
    (
        Fault::SeventeenthGroupAccepted,
        "seventeenth group accepted",
    ),
    (Fault::EmptyGroupRefused, "group without members refused"),
    (Fault::EmptyGroupDropped, "group without members not kept"),
    (Fault::GroupTwiceRefused, "group given twice refused"),
    (Fault::GroupTwiceDropped, "group given twice kept once"),
    (Fault::HeadOfGroupsRefused, "ff for f refused by cause 4"),
    (Fault::GroupKindUnknown, "kind 07 not known"),
    (
        Fault::GroupLengthNotChecked,
        "kind 07 with more than 3 bytes accepted",
    ),
    (Fault::GroupBeforeOrder, "cause 17 of a group before 3"),
    (Fault::LinkAfterGroupAccepted, "link after a group accepted"),
    (
        Fault::LateLinkEndsPlan,
        "a link after a group taken for the end of the plan",
    ),
    (
        Fault::GroupAfterBadSetAccepted,
        "group after the bad set accepted",
    ),
    (
        Fault::GroupBesideNumberNoPlace,
        "kind 07 beside f: cause 3 before 15",
    ),
    (
        Fault::FirstGroupEndsLinks,
        "cause 15 checked at the first group",
    ),
    (Fault::NoGroupAccepted, "no group accepted"),
    (
        Fault::NoGroupInArchiveAccepted,
        "no group accepted by the archive",
    ),
    (
        Fault::NoGroupWithLine,
        "cause 17 of no group told with the line's number",
    ),
    (Fault::NoGroupBeforeText, "cause 17 of no group before 1"),
    (Fault::NoGroupBeforeKind, "cause 17 of no group before 2"),
    (
        Fault::NoGroupAfterLine,
        "cause 17 of no group after the other causes of the line",
    ),
    (
        Fault::NoGroupAtEndOnly,
        "cause 17 of no group at the end of the file only",
    ),
    (Fault::NoGroupAfterDeaf, "cause 17 of no group after 15"),
    (
        Fault::MissingBeforeNoGroup,
        "a missing frame before cause 17 of no group at the end",
    ),
    (
        Fault::GroupsWrittenBeforeLinks,
        "groups written before the links",
    ),
    (
        Fault::GroupsWrittenSorted,
        "groups written by their numbers instead of in their order",
    ),
    (
        Fault::EmptyGroupsNotWritten,
        "groups without members not written",
    ),
    (
        Fault::NoGroupInRecord,
        "a record with groups and the count 0 accepted",
    ),
    (
        Fault::CountAbove16InRecord,
        "a record with a count above 16 accepted",
    ),
    (
        Fault::PastCountAccepted,
        "a group past a record's count accepted",
    ),
    (Fault::PastCountUsed, "a group past a record's count used"),
    (
        Fault::GroupsBesideNumber,
        "a group in a record with f accepted",
    ),
    (Fault::GroupsBeforeLinkEnds, "cause 17 of a record before 5"),
    (Fault::GroupsAfterBadSet, "cause 17 of a record after 7"),
    (Fault::GroupsAfterRecord, "cause 17 of a step after 13"),
    (
        Fault::CountTakenForF,
        "the count of groups taken for f by the step and in the verdict",
    ),
    (
        Fault::NoMembersTakenForF,
        "groups without any member taken for f = 0",
    ),
    (
        Fault::GroupHighByteIgnored,
        "the high byte of a group not looked at",
    ),
    (Fault::GroupLowByteFirst, "a group read low byte first"),
    (
        Fault::DeafNotWithGroups,
        "deaf terminals not looked for where groups are listed",
    ),
    (
        Fault::CountWrittenInHead,
        "the count of groups written instead of ff",
    ),
];
