//! The planted faults about one radio for all and a source that is not trusted, and what is wrong in
//! each.

use crate::faults::Fault;

pub const PLANTED: [(Fault, &str); 80] = [
    (
        Fault::ModeKnownAtStart,
        "frames of other forms between the default and the start refused by 3",
    ),
    (
        Fault::NoticeInModeAccepted,
        "kind 08 in this mode looked at as elsewhere",
    ),
    (
        Fault::DefaultLengthNotChecked,
        "kind 09 with more than 3 bytes accepted",
    ),
    (
        Fault::DefaultAfterStartUnknown,
        "kind 09 after the start refused by 2",
    ),
    (
        Fault::EditionStartInMode,
        "a start with an edition in this mode accepted",
    ),
    (
        Fault::SecondStartInModeUnknown,
        "a second start in this mode refused by 2",
    ),
    (
        Fault::HearerInModeAccepted,
        "a word that names a hearer in this mode accepted",
    ),
    (
        Fault::EditionWordInModeAccepted,
        "a word with an edition in this mode accepted",
    ),
    (
        Fault::NoHearerAccepted,
        "a word without hearer in an old run accepted",
    ),
    (
        Fault::NoHearerInNewRunAccepted,
        "a word without hearer in a new run accepted",
    ),
    (
        Fault::NoHearerBeforeModeUnknown,
        "a word without hearer before the start refused by 2",
    ),
    (Fault::DefaultUnknown, "kind 09 not known"),
    (
        Fault::DefaultKnownInPlans,
        "kind 09 known to the readers of plans",
    ),
    (
        Fault::DefaultNoPlace,
        "kind 09 not the place where links and groups end",
    ),
    (
        Fault::LinkAfterDefaultAccepted,
        "a link after kind 09 accepted",
    ),
    (
        Fault::GroupAfterDefaultAccepted,
        "a group after kind 09 accepted",
    ),
    (Fault::SecondDefaultAccepted, "a second of kind 09 accepted"),
    (
        Fault::DefaultAfterBadSetAccepted,
        "kind 09 after the bad set accepted",
    ),
    (
        Fault::DefaultAfterStartAccepted,
        "kind 09 after the start accepted",
    ),
    (
        Fault::DefaultZeroAccepted,
        "a default of 0 accepted in a file",
    ),
    (Fault::DefaultZeroBeforeOrder, "cause 9 before 3 in kind 09"),
    (
        Fault::BadSourceMayNotSpeak,
        "a word of the bad source refused",
    ),
    (
        Fault::SharedGoodSenderAccepted,
        "a word of a good sender accepted in this mode",
    ),
    (
        Fault::SharedSenderOutsideAccepted,
        "a word of a sender at or above n accepted in this mode",
    ),
    (
        Fault::SharedTwiceAccepted,
        "a second word of one sender in one round accepted",
    ),
    (
        Fault::SharedTwiceInAnyRound,
        "a second word of one sender in another round refused",
    ),
    (
        Fault::SharedTwiceByAnySender,
        "a word of another sender in the same round refused",
    ),
    (
        Fault::SharedPastLastAccepted,
        "a word past the last round accepted in this mode",
    ),
    (
        Fault::SharedTwiceBeforeWord,
        "cause 11 before 10 in a word without hearer",
    ),
    (
        Fault::UnheardSenderRefused,
        "a word of a bad sender that nobody hears refused",
    ),
    (
        Fault::SharedZeroAccepted,
        "a word of value 0 accepted in this mode",
    ),
    (
        Fault::FirstRoundNotNoted,
        "nothing noted in the round that takes what the source said",
    ),
    (
        Fault::CarriedInRoundZero,
        "what the source said taken in round 0",
    ),
    (
        Fault::DefaultNoted,
        "the default noted as if the source had said it",
    ),
    (
        Fault::SourceWordInAnyRound,
        "the source's word or the default taken in any round",
    ),
    (
        Fault::DefaultInSecondRound,
        "the source's word or the default taken in round 2 too",
    ),
    (
        Fault::TakenTakesCarried,
        "a taken record takes what the source said in round 1",
    ),
    (
        Fault::CarriedToAll,
        "the source's word or the default taken by those who do not hear the source",
    ),
    (
        Fault::DefaultWhereSourceSpoke,
        "the default taken where the source spoke",
    ),
    (Fault::DefaultNeverTaken, "the default never taken"),
    (Fault::VotesBeforeDefault, "enough votes before the default"),
    (
        Fault::VotesBeforeSourceWord,
        "enough votes before what the source said in round 1",
    ),
    (
        Fault::SmallerOfDefault,
        "the smaller of the source's word and the default taken",
    ),
    (
        Fault::NotedWordOfSource,
        "the source's noted word instead of this round's",
    ),
    (
        Fault::DefaultToAll,
        "the default taken by those who do not hear the source",
    ),
    (
        Fault::DefaultInLaterRound,
        "the default taken in a later round",
    ),
    (
        Fault::LaterNeverTaken,
        "a later record that hears the source never takes",
    ),
    (
        Fault::UnheardNeverTake,
        "who does not hear the source takes nothing in round 1",
    ),
    (
        Fault::SourceWordToAll,
        "the source's word taken by those who do not hear it",
    ),
    (
        Fault::SharedCountsAsTwo,
        "words of this mode counted as edition 2",
    ),
    (
        Fault::StepDefaultZeroAccepted,
        "a default of 0 accepted by the step",
    ),
    (Fault::DefaultBeforeHead, "cause 9 of the default before 4"),
    (
        Fault::DefaultBeforeGroups,
        "cause 9 of the default before 17",
    ),
    (Fault::DefaultAfterRecord, "cause 9 of the default after 13"),
    (Fault::DefaultAfterLength, "cause 9 of the default after 12"),
    (
        Fault::SourceStillBarred,
        "the source in the bad set refused by 7 in this mode",
    ),
    (
        Fault::OutsideAbove19Accepted,
        "bits 20 and above in the bad set accepted in this mode",
    ),
    (
        Fault::SourceCountedAsBad,
        "the bad source counted against the bound",
    ),
    (
        Fault::BadSourceUnbounded,
        "the bound not asked at a bad source",
    ),
    (
        Fault::SourceUnboundedInMode,
        "the bound not asked at any source in this mode",
    ),
    (Fault::BoundNotAskedInMode, "no bound asked in this mode"),
    (
        Fault::BoundNotAskedOfBadSource,
        "no bound asked where the source is bad",
    ),
    (
        Fault::BadSourceRecordTaken,
        "the bad source's record left as taken",
    ),
    (
        Fault::BadSourceValueNotAsked,
        "value 0 of a bad source accepted by the run",
    ),
    (
        Fault::RunDefaultZeroAccepted,
        "a default of 0 accepted by the run",
    ),
    (
        Fault::SharedWordsByHearer,
        "a list of words for each hearer asked for in this mode",
    ),
    (
        Fault::LongerWordsAccepted,
        "a longer list of words accepted in this mode",
    ),
    (
        Fault::StartBeforeSet,
        "cause 9 before 7 and 8 in the run of this mode",
    ),
    (
        Fault::LengthBeforeStart,
        "cause 12 before 9 in the run of this mode",
    ),
    (
        Fault::BadSourceTrusted,
        "the bad source plays with its start value",
    ),
    (Fault::BadSourceUnheard, "the bad source's words not heard"),
    (
        Fault::GoodEntriesFirst,
        "a good sender's entry instead of what it has taken",
    ),
    (
        Fault::GoodEntriesLookedAt,
        "a good sender's entry heard where it is silent",
    ),
    (
        Fault::SharedWordsBySender,
        "words taken by sender, then by round",
    ),
    (
        Fault::SharedWordsOfRoundBefore,
        "words of the round before taken",
    ),
    (
        Fault::SharedPrintedNew,
        "a run of this mode printed with editions",
    ),
    (
        Fault::BadSourceLineWaiting,
        "the bad source printed as waiting",
    ),
    (
        Fault::SharedListedByHearer,
        "words without hearer listed by hearer",
    ),
    (
        Fault::SharedListedAsLayouts,
        "words without hearer listed without edition",
    ),
    (
        Fault::DefaultNotAnswered,
        "the default not answered by the reader",
    ),
];
