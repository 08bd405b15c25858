//! Planted faults: the implementation broken in one place at a time, to see that the cases
//! would find it.

use crate::generate::{case, shared_case, Kind};
use crate::greatest::greatest;
use crate::greatest_files::{
    greatest_answers, greatest_case, greatest_record, shaped as shaped_drawing, thin, Bounded,
    GreatestAnswer, SHAPED as SHAPED_DRAWINGS, THIN,
};
use crate::heard_files::{
    by_hand, by_hand_file, every_sentence, heard_case, hearing_answer, hearing_case, listed_file,
    sized_file, spoilt, HeardCase, BY_HAND, LISTED, SIZED, SPOILT,
};
use crate::issues::{issue_case, IssueCase};
use crate::lent::{read_answer, read_case, shared_read_case, ReadAnswer, ReadCase};
use crate::margin_files::{
    margin_answers, margin_case, margin_record, shaped, Fitted, MarginAnswer, SHAPED,
};
use crate::margins::margins;
use crate::output::{
    archive_text, heard_text, plan_text, rewritten_text, run_text, sentence_text, verdict_text,
};
use crate::plan::{Cause, Plan, Set};
use crate::quotes::{
    is_short_search, judged, quote_answers, quote_case, quote_record, Judged, QuoteAnswer,
};
use crate::reader::{read_archive, read_greatest, read_margins, Filed, Refusal};
use crate::records::{record_answer, record_case, RecordAnswer, RecordCase};
use crate::run::issue;
use crate::sentence::Sets;
use crate::sentence_files::{
    compose_answer, compose_case, every, sentence_case, wrong_sets, ComposeAnswer, ComposeCase,
    EVERY, WRONG_SETS,
};
use crate::shared::shared_fault_cause;
use crate::shared_calls::{
    shared_set_case, shared_site_case, shared_step_case, SharedSite, SharedStep,
};
use crate::sites::{site_case, Site};
use crate::step::{shared_step, step, Record, Row, State};
use crate::steps::{step_case, StepCase};
use crate::{
    planted, planted_greatest, planted_heard, planted_margins, planted_notices, planted_quote,
    planted_sentence, planted_shared,
};

/// The place that is broken. Normal use is `None`.
#[derive(Clone, Copy, Debug, PartialEq, Eq)]
pub enum Fault {
    None,
    VotesWithoutOne,
    ClosureWithoutOne,
    SourceUnbounded,
    BadSetBoundedInAll,
    FirstWordOnly,
    FirstValueCounted,
    LastWordKept,
    WordsCounted,
    PlacesCounted,
    RepeatedNoted,
    LastWordOfSource,
    ZeroSkippedAtSource,
    SourceCountNotAsked,
    SourceRowNotCounted,
    CountAtRoundRefused,
    CountNotChecked,
    CountCheckedByPlaces,
    CountOfTakenNotChecked,
    CountOfUnheardChecked,
    CountsFirst,
    LengthBeforeCounts,
    UnheardNoted,
    UnheardCounted,
    StalePlacesKnown,
    StalePlacesCounted,
    StalePlacesCleared,
    SameRoundPassedOn,
    LargestValue,
    WitnessByNumber,
    ReachedAndLeftSwapped,
    LinesFromZero,
    KindAndOrderExchanged,
    UnendedLineAccepted,
    LinkTwiceAccepted,
    Round41Accepted,
    SourceInBadSetAccepted,
    CapitalsAccepted,
    CharactersExchanged,
    CharacterMissing,
    UnnamedRoundsForty,
    UnnamedRoundsAsTerminals,
    NamedRoundsIgnored,
    SourceDeaf,
    DeafByDeaf,
    DeafInArchive,
    DeafNotInRuns,
    DeafWithLine,
    DeafBeforeText,
    DeafBeforeKind,
    DeafAfterLine,
    DeafAtEndOnly,
    DeafAtBadSetOnly,
    MissingBeforeDeaf,
    MembersCounted,
    FitInAllGroups,
    UnionOfGroups,
    LastGroupForgotten,
    FirstGroupOnly,
    BadSetInUnion,
    BadSetInAllGroups,
    BadSetBySize,
    WholeGroupsOnly,
    WitnessOfFirstGroup,
    LeftCountedTogether,
    SourceInGroupAccepted,
    GroupMemberNAccepted,
    GroupMembersAbove19Accepted,
    SeventeenthGroupAccepted,
    EmptyGroupRefused,
    EmptyGroupDropped,
    GroupTwiceRefused,
    GroupTwiceDropped,
    HeadOfGroupsRefused,
    GroupKindUnknown,
    GroupLengthNotChecked,
    GroupBeforeOrder,
    LinkAfterGroupAccepted,
    LateLinkEndsPlan,
    GroupAfterBadSetAccepted,
    GroupBesideNumberNoPlace,
    FirstGroupEndsLinks,
    NoGroupAccepted,
    NoGroupInArchiveAccepted,
    NoGroupWithLine,
    NoGroupBeforeText,
    NoGroupBeforeKind,
    NoGroupAfterLine,
    NoGroupAtEndOnly,
    NoGroupAfterDeaf,
    MissingBeforeNoGroup,
    GroupsWrittenBeforeLinks,
    GroupsWrittenSorted,
    EmptyGroupsNotWritten,
    NoGroupInRecord,
    CountAbove16InRecord,
    PastCountAccepted,
    PastCountUsed,
    GroupsBesideNumber,
    GroupsBeforeLinkEnds,
    GroupsAfterBadSet,
    GroupsAfterRecord,
    CountTakenForF,
    NoMembersTakenForF,
    GroupHighByteIgnored,
    GroupLowByteFirst,
    DeafNotWithGroups,
    CountWrittenInHead,
    LowerEditionWipes,
    LowerEditionNoted,
    HigherEditionNoted,
    FirstEditionKept,
    LaterPlacesStayOnWipe,
    CountNotResetOnWipe,
    LayoutsKeptOnWipe,
    GreaterLayoutWipes,
    EditionLowByteCompared,
    EmptyNoteForgotten,
    LayoutZeroHeard,
    EditionZeroHeard,
    TakenNotesNothing,
    SourceNotesNothing,
    CountOverAllEditions,
    CountOfEditionZeroNotChecked,
    CountBelowHeldNotChecked,
    EditionZeroTakenAccepted,
    LayoutZeroTakenAccepted,
    SourceTakes,
    EqualEditionTakenAgain,
    AnyEditionTaken,
    LowestEditionTaken,
    HighestEditionOnly,
    EditionZeroQualifies,
    TakenNeverTakesAgain,
    FirstRoundKept,
    SourceBeforeHigherEditions,
    SourceEditionNotAsked,
    VotesBeforeSource,
    VotesOverEditions,
    VotesOfHigherEditions,
    LaterBeforeSteps,
    LaterTakenBefore,
    LaterInLastRoundLost,
    PassedOnTwice,
    FirstNoticePassedOnOnly,
    EqualEditionIssued,
    AnyEditionIssued,
    IssuedByLowByte,
    LaterBesideStartOnly,
    EditionZeroStartAccepted,
    EditionBeforeLayout,
    EditionAfterLength,
    LaterLengthNotChecked,
    LaterPastRoundsNotLookedAt,
    EditionZeroEntryRefused,
    LayoutZeroEntryCounts,
    NoticeUnknown,
    NoticeKnownInPlans,
    NoticeInOldRunAccepted,
    NoticeInOldRunOrder,
    NoticeInNewRunUnknown,
    NoticeBeforeStartUnknown,
    NoticeNoPlace,
    NoticeAfterWordAccepted,
    NoticeRoundZeroAccepted,
    NoticePastLastAccepted,
    NoticeRoundTwiceAccepted,
    NoticeRoundsFallAccepted,
    NoticeLengthNotChecked,
    LayoutBeforeOrder,
    EditionBeforeOrder,
    OtherStartOrder,
    SecondStartUnknown,
    NewStartNeedsRounds,
    OldWordInNewRun,
    NewWordInOldRun,
    NewWordBeforeStartUnknown,
    OldWordBeforeStartUnknown,
    EditionZeroWordAccepted,
    LayoutZeroWordAccepted,
    EditionZeroWordAsNotice,
    OtherEditionNotTwice,
    OldPrintedNew,
    NewPrintedOld,
    OldCountsAsTwo,
    LaterRoomNotChecked,
    WordsWrittenBesideLater,
    LaterWrittenBesideWords,
    LaterNotWritten,
    SilenceNotWritten,
    IssueToWaiting,
    IssueToEditionZero,
    IssueToLayoutZero,
    IssueTakenLaterAccepted,
    Issue40Refused,
    Issue41Accepted,
    IssueEditionZero,
    IssueRecordFirst,
    IssueRecordBeforeLayout,
    IssueKeepsRound,
    IssueRaisesRound,
    IssueClearsNotes,
    IssueLooksAtNotes,
    ModeKnownAtStart,
    NoticeInModeAccepted,
    DefaultLengthNotChecked,
    DefaultAfterStartUnknown,
    EditionStartInMode,
    SecondStartInModeUnknown,
    HearerInModeAccepted,
    EditionWordInModeAccepted,
    NoHearerAccepted,
    NoHearerInNewRunAccepted,
    NoHearerBeforeModeUnknown,
    DefaultUnknown,
    DefaultKnownInPlans,
    DefaultNoPlace,
    LinkAfterDefaultAccepted,
    GroupAfterDefaultAccepted,
    SecondDefaultAccepted,
    DefaultAfterBadSetAccepted,
    DefaultAfterStartAccepted,
    DefaultZeroAccepted,
    DefaultZeroBeforeOrder,
    BadSourceMayNotSpeak,
    SharedGoodSenderAccepted,
    SharedSenderOutsideAccepted,
    SharedTwiceAccepted,
    SharedTwiceInAnyRound,
    SharedTwiceByAnySender,
    SharedPastLastAccepted,
    SharedTwiceBeforeWord,
    UnheardSenderRefused,
    SharedZeroAccepted,
    FirstRoundNotNoted,
    CarriedInRoundZero,
    DefaultNoted,
    SourceWordInAnyRound,
    DefaultInSecondRound,
    TakenTakesCarried,
    CarriedToAll,
    DefaultWhereSourceSpoke,
    DefaultNeverTaken,
    VotesBeforeDefault,
    VotesBeforeSourceWord,
    SmallerOfDefault,
    NotedWordOfSource,
    DefaultToAll,
    DefaultInLaterRound,
    LaterNeverTaken,
    UnheardNeverTake,
    SourceWordToAll,
    SharedCountsAsTwo,
    StepDefaultZeroAccepted,
    DefaultBeforeHead,
    DefaultBeforeGroups,
    DefaultAfterRecord,
    DefaultAfterLength,
    SourceStillBarred,
    OutsideAbove19Accepted,
    SourceCountedAsBad,
    BadSourceUnbounded,
    SourceUnboundedInMode,
    BoundNotAskedInMode,
    BoundNotAskedOfBadSource,
    BadSourceRecordTaken,
    BadSourceValueNotAsked,
    RunDefaultZeroAccepted,
    SharedWordsByHearer,
    LongerWordsAccepted,
    StartBeforeSet,
    LengthBeforeStart,
    BadSourceTrusted,
    BadSourceUnheard,
    GoodEntriesFirst,
    GoodEntriesLookedAt,
    SharedWordsBySender,
    SharedWordsOfRoundBefore,
    SharedPrintedNew,
    BadSourceLineWaiting,
    SharedListedByHearer,
    SharedListedAsLayouts,
    DefaultNotAnswered,
    QuoteOf11,
    QuoteOf13,
    QuoteOf20,
    QuoteRefuses13Only,
    QuoteRefuses20Only,
    GroupsQuotedUnbounded,
    QuoteBeforeText,
    QuoteBeforeKind,
    QuoteBeforeOrder,
    QuoteBeforeHead,
    QuoteBeforeSource,
    QuoteAbove20,
    QuoteAfterLinks,
    QuoteAfterAll,
    QuoteWithoutLine,
    QuoteLimitInVerdict,
    QuoteLimitInArchive,
    QuoteLimitInRuns,
    DeafQuoted,
    GroupNotQuoted,
    QuoteAlwaysPasses,
    QuoteWithoutSets,
    MarginLessF,
    MarginOverAllSets,
    MarginWhereItIsBad,
    MarginWithNobodyBad,
    MarginOfVerdictSet,
    MarginOfFewBad,
    MarginOfOneBad,
    MarginSourceUnbounded,
    MarginBadOnesBounded,
    MarginGreatest,
    MarginAfterOneTurn,
    MarginSourceCountsOne,
    MarginJoinsWithF,
    MarginJoinsWithOne,
    MarginOfHearers,
    MarginCountsBadOnes,
    MarginCountsAllGood,
    MarginCutAtZero,
    DirectByMargin,
    DirectWhereShort,
    DirectBackwards,
    MarginLinksFirst,
    MarginGroupsAfterLinks,
    MarginGroupsAs17,
    MarginBesideFAs17,
    MarginBesideFAccepted,
    MarginDeafRecordRefused,
    MarginGroupsAccepted,
    MarginHeadAs17,
    MarginHeadWithoutLine,
    MarginHeadBeforeText,
    MarginHeadBeforeKind,
    MarginHeadBeforeOrder,
    MarginHeadAfterAll,
    GroupUnknownToMargins,
    DeafInMargins,
    QuoteLimitInMargins,
    MarginsSourcePrinted,
    MarginsDescending,
    MarginsDirectFirst,
    MarginsInTextOrder,
    MarginsFromOne,
    MarginsNumberInHex,
    MarginsNumberTwoDigits,
    MarginsUnended,
    MarginPlusSign,
    MarginPlusAboveZero,
    MarginTwoDigits,
    MarginInHex,
    MarginLastDigit,
    MarginWithoutSign,
    MarginAsByte,
    MarginCountsFirst,
    MarginCountsNotPrinted,
    MarginCountsSourceDirect,
    MarginCountsAtAsBelow,
    MarginCountsAtAsAbove,
    MarginCountsBelowInAll,
    MarginCountsDirectAndBelow,
    MarginCountsBelowAndAt,
    MarginCountsAtAndAbove,
    MarginCountsBelowAndAbove,
    MarginCountsInHex,
    MarginCountsTwoDigits,
    GreatestByFewestHeard,
    GreatestByOrder,
    GreatestZeroAsNone,
    GreatestNoneAsZero,
    GreatestFullAsNone,
    GreatestUpToHead,
    GreatestOfHead,
    GreatestAboveHead,
    GreatestNoneAsMinusOne,
    GreatestNoneCapital,
    GreatestNoneQuoted,
    GreatestNoneEmpty,
    GreatestTwoDigits,
    GreatestInHex,
    GreatestAsByte,
    GreatestLastDigit,
    GreatestPlusSign,
    GreatestUnended,
    GreatestEndedTwice,
    GreatestWindowsEnd,
    GreatestOfOne,
    GreatestOf21,
    GreatestOf19,
    GreatestSourceNotChecked,
    GreatestSourceNAllowed,
    GreatestFNotChecked,
    GreatestFOfNAllowed,
    GreatestLastFRefused,
    GreatestRowAboveAllowed,
    GreatestOwnBitAllowed,
    GreatestBitAboveAllowed,
    GreatestBitNAllowed,
    GreatestBitAbove19Allowed,
    GreatestSourceRowNotChecked,
    GreatestLinksFirst,
    QuoteLimitInGreatest,
    GreatestDeafRecordRefused,
    GreatestSourceZero,
    GreatestOfHearers,
    GreatestLeast,
    GreatestCounted,
    GreatestFirstFail,
    GreatestOneLess,
    GreatestStopsAtOne,
    GreatestOfN,
    GreatestBelowLast,
    GreatestOfOneDigit,
    GreatestSourceBad,
    GreatestSourceUnbounded,
    GreatestBadOnesBounded,
    GreatestOverAllSets,
    GreatestBoundedInAll,
    GreatestWithNobodyBad,
    GreatestOfOneBad,
    GreatestDeafLeftOut,
    GreatestTwoLeft,
    GreatestSourceCountsOne,
    GreatestJoinsWithF,
    GreatestJoinsWithMore,
    GreatestJoinsWithOne,
    GreatestAfterOneTurn,
    GreatestHeadAs17,
    GreatestHeadWithoutLine,
    GreatestHeadBeforeText,
    GreatestHeadBeforeKind,
    GreatestHeadBeforeOrder,
    GreatestHeadAfterAll,
    GroupUnknownToGreatest,
    GreatestGroupsAccepted,
    GreatestDeafRefused,
    SentenceStayOfOne,
    SentenceStaysOfSeveral,
    SentenceGetOfOne,
    SentenceGetsOfSeveral,
    SentenceVerbsExchanged,
    SentenceVerbsByLast,
    SentenceCommaBeforeAnd,
    SentenceCommaBeforeEveryAnd,
    SentenceCommaForAnd,
    SentenceAndThroughout,
    SentenceNoBlankAfterComma,
    SentenceDescending,
    SentenceInTextOrder,
    SentenceLastForgotten,
    SentenceFromOne,
    SentenceTwoDigits,
    SentenceInHex,
    SentenceLastDigit,
    SentenceEmptyAsIf,
    SentenceEmptyAsNobody,
    SentenceEmptySmall,
    SentenceEmptyNoComma,
    SentenceSmallIf,
    SentenceNoComma,
    SentenceNoticeCapital,
    SentenceUnstopped,
    SentenceStoppedTwice,
    SentenceEndedInText,
    SentenceSetsExchanged,
    SentenceReachedNamed,
    SentenceReachedSilent,
    SentenceOfOne,
    SentenceOf19,
    SentenceOf21,
    SentenceOfAnyN,
    SentenceSetsBeforeN,
    SentenceLengthBeforeSets,
    SentenceLengthBeforeN,
    SentenceWrongSetsAs5,
    SentenceWrongSetsAs7,
    SentenceReachedEmptyAccepted,
    SentenceWaitingEmptyAccepted,
    SentenceEmptySilentRefused,
    SentenceZeroIsSource,
    SentenceReachedNotCompared,
    SentenceMissingAccepted,
    SentenceOverlapAccepted,
    SentenceSilentAndReached,
    SentenceSilentAndWaiting,
    SentenceReachedAndWaiting,
    SentenceSetsCounted,
    SentenceSetsSummed,
    SentenceSetsXored,
    SentenceMemberNAccepted,
    SentenceAboveInSilent,
    SentenceAboveInReached,
    SentenceAboveInWaiting,
    SentenceAbove19Accepted,
    SentenceExactRefused,
    SentenceCutOff,
    SentenceWrongSetsWritten,
    SentenceRefusedListCleared,
    SentenceLengthBesideRefusal,
    SentenceRestCleared,
    SentenceRestBlank,
    SentenceEndedInList,
    SentenceLengthOfList,
    SentenceLengthOneMore,
    SentenceLengthWithoutStop,
    SentenceAfterVerdict,
    SentenceUnended,
    SentenceEndedTwice,
    SentenceWindowsEnd,
    SentenceRefusedWithoutLine,
    SentenceOfArchive,
    SentenceOfQuotes,
    SentenceWithoutGroups,
    PassCapital,
    PassUnended,
    PassStopped,
    PassEmpty,
    PassNotPrinted,
    PassAsVerdict,
    HeardOfOne,
    HeardOf19,
    HeardOf21,
    HeardOfAnyN,
    HeardTextBeforeN,
    HeardTextAs1,
    HeardNumberAs5,
    HeardEvenRefused,
    HeardEvenNotCompared,
    HeardEmptyIf,
    HeardFirstByteNotCompared,
    HeardIfNotCompared,
    HeardSilentNotCompared,
    HeardEndNotCompared,
    HeardStopNotCompared,
    HeardBeginOfEnd,
    HeardStayOfOne,
    HeardStaysOfSeveral,
    HeardOneAlwaysStay,
    HeardGetOfOne,
    HeardGetsOfSeveral,
    HeardCommaBeforeAnd,
    HeardCommaForAnd,
    HeardAndThroughout,
    HeardNoBlankAfterComma,
    HeardUnordered,
    HeardLastUnordered,
    HeardTwice,
    HeardDescending,
    HeardLeadingZeros,
    HeardPlusSign,
    HeardOneDigit,
    HeardNumberAsByte,
    HeardNumberAsWord,
    HeardFromOne,
    HeardTerminalN,
    HeardTerminalsTo19,
    HeardTerminalsAbove,
    HeardInBoth,
    HeardReachedEmpty,
    HeardZeroIsSource,
    HeardTwoReached,
    HeardDoubledBlank,
    HeardTrimmed,
    HeardBlankBefore,
    HeardLineEnd,
    HeardCarriageReturn,
    HeardStoppedTwice,
    HeardUnstopped,
    HeardAnyCase,
    HeardSmallFirst,
    HeardTabAsBlank,
    HeardHighBitIgnored,
    HeardToFirstZero,
    HeardSetsExchanged,
    HeardReachedAndWaiting,
    HeardReachedNotTold,
    HeardReachedAll,
    HeardReachedNotSilent,
    HeardReachedTo19,
    HeardSetsBesideRefusal,
    HeardSizeLast,
    HeardSizeWithLine,
    HeardShorterFiles,
    HeardLongerFiles,
    HeardEmptyAs4,
    HeardNTrimmed,
    HeardNWindowsEnd,
    HeardNByFirstWord,
    HeardNInHex,
    HeardNAsByte,
    HeardNLeadingZeros,
    HeardNPlusSign,
    HeardNTwoDigits,
    HeardN21,
    HeardN1,
    HeardNNotChecked,
    HeardUnended,
    HeardThirdLine,
    HeardEmptyThirdLine,
    HeardWindowsEnd,
    HeardNWithoutLine,
    HeardNOnLine2,
    HeardNForeignAs1,
    HeardNoLineEndAs1,
    HeardNoLineEndAs2,
    HeardUnendedAs1,
    HeardTextWithoutLine,
    HeardTextOnLine1,
    HeardLineUnended,
    HeardLineCapital,
    HeardAsPass,
    HeardSetsInFour,
    HeardReachedUntold,
}

/// All planted faults, and what is wrong in each.
pub fn planted() -> impl Iterator<Item = (Fault, &'static str)> {
    let older = planted::PLANTED.iter().copied();
    let notices = planted_notices::PLANTED.iter().copied();
    let shared = planted_shared::PLANTED.iter().copied();
    let quote = planted_quote::PLANTED.iter().copied();
    let margins = planted_margins::PLANTED.iter().copied();
    let greatest = planted_greatest::PLANTED.iter().copied();
    let sentence = planted_sentence::PLANTED.iter().copied();
    let heard = planted_heard::PLANTED.iter().copied();
    older
        .chain(notices)
        .chain(shared)
        .chain(quote)
        .chain(margins)
        .chain(greatest)
        .chain(sentence)
        .chain(heard)
}

/// Larger sites cost time in the verdict and show no fault that smaller ones hide.
const LARGEST_SITE: u32 = 11;

/// How many cases of each sort show a fault.
#[derive(Clone, Copy, Debug, Default, PartialEq, Eq)]
pub struct Found {
    pub verdicts: u64,
    pub archive: u64,
    pub runs: u64,
    pub steps: u64,
    pub records: u64,
    pub sites: u64,
    pub issues: u64,
    pub reads: u64,
    /// Steps, runs and bad sets where one radio is for all.
    pub shared_steps: u64,
    pub shared_sites: u64,
    pub shared_sets: u64,
    /// Files and plan records for the quoting page.
    pub quotes: u64,
    pub quote_records: u64,
    /// Files and plan records for the margins.
    pub margins: u64,
    pub margin_records: u64,
    /// Files and drawings for the greatest f.
    pub greatest: u64,
    pub greatest_records: u64,
    /// Plan files told in sentences, and calls of the composer.
    pub sentences: u64,
    pub sentence_calls: u64,
    /// Files with a sentence that was heard, and calls of its reader.
    pub heard: u64,
    pub heard_calls: u64,
}

impl Found {
    pub fn all(&self) -> u64 {
        let files = self.verdicts + self.archive + self.runs + self.reads;
        let shared = self.shared_steps + self.shared_sites + self.shared_sets;
        let quotes = self.quotes + self.quote_records;
        let margins = self.margins + self.margin_records;
        let greatest = self.greatest + self.greatest_records;
        let sentences = self.sentences + self.sentence_calls;
        let heard = self.heard + self.heard_calls;
        let others = self.steps + self.records + self.sites + self.issues;
        files + others + shared + quotes + margins + greatest + sentences + heard
    }
}

/// Cases of one sort with the sound answers, and who answers.
struct Answered<C, A> {
    cases: Vec<(C, A)>,
    answer: fn(&C, Fault) -> A,
}

impl<C, A: PartialEq> Answered<C, A> {
    fn new(cases: impl Iterator<Item = C>, answer: fn(&C, Fault) -> A) -> Answered<C, A> {
        let answered = cases.map(|case| {
            let sound = answer(&case, Fault::None);
            (case, sound)
        });
        Answered {
            cases: answered.collect(),
            answer,
        }
    }

    fn count(&self) -> u64 {
        self.cases.len() as u64
    }

    /// How many are answered otherwise.
    fn found(&self, fault: Fault) -> u64 {
        let told = |(case, sound): &&(C, A)| (self.answer)(case, fault) != *sound;
        self.cases.iter().filter(told).count() as u64
    }
}

/// Cases with the sound answers, made once for all faults.
pub struct Sound {
    verdicts: Answered<Vec<u8>, Vec<u8>>,
    archive: Answered<Vec<u8>, Opened>,
    runs: Answered<Vec<u8>, Vec<u8>>,
    steps: Answered<StepCase, Stepped>,
    records: Answered<RecordCase, RecordAnswer>,
    sites: Answered<Site, Played>,
    issues: Answered<IssueCase, Stepped>,
    reads: Answered<ReadCase, ReadAnswer>,
    shared_steps: Answered<SharedStep, Stepped>,
    shared_sites: Answered<SharedSite, Played>,
    shared_sets: Answered<(Plan, Set), Option<Cause>>,
    quotes: Answered<Vec<u8>, QuoteAnswer>,
    quote_records: Answered<Plan, Judged>,
    margins: Answered<Vec<u8>, MarginAnswer>,
    margin_records: Answered<Plan, Fitted>,
    greatest: Answered<Vec<u8>, GreatestAnswer>,
    greatest_records: Answered<Plan, Bounded>,
    sentences: Answered<Vec<u8>, Vec<u8>>,
    sentence_calls: Answered<ComposeCase, ComposeAnswer>,
    heard: Answered<Vec<u8>, Vec<u8>>,
    heard_calls: Answered<HeardCase, Result<Sets, (Cause, Sets)>>,
}

/// What the archive prints of a file, the plan written anew, and what the archive's reader answers.
type Opened = (Vec<u8>, Vec<u8>, Result<Filed, Refusal>);

/// The cause, if there is one, and the record as it is seen: the tally exists for one fault only and
/// must not give it away by itself.
type Stepped = (Option<Cause>, Seen);
type Played = (Option<Cause>, Vec<Seen>);
type Seen = (u32, State, Vec<Row>);

impl Sound {
    pub fn new(seed: u64, count: u64) -> Sound {
        let small = |text: &Vec<u8>| {
            read_archive(text, Fault::None).map_or(true, |filed| filed.plan.n <= LARGEST_SITE)
        };
        let files = |kind: Kind| {
            let others = (0..count).map(move |index| case(kind, seed, index));
            others.chain((0..count / 4).map(move |index| shared_case(kind, seed, index)))
        };
        let plans: Vec<Vec<u8>> = files(Kind::Verdict).filter(small).collect();
        let runs = files(Kind::Run);
        // The lists of a read are long, and few of its answers are about them.
        let reads = (0..count / 4).map(|index| read_case(seed, index));
        let reads = reads.chain((0..count / 16).map(|index| shared_read_case(seed, index)));
        let quotes = (0..count / 4).map(|index| quote_case(seed, index));
        let quotes = quotes.filter(|text| {
            read_archive(text, Fault::None).map_or(true, |filed| is_short_search(&filed.plan))
        });
        let quote_records = (0..count / 4).map(|index| quote_record(seed, index));
        let quote_records =
            quote_records.filter(|plan| plan.check_head().is_err() || is_short_search(plan));
        Sound {
            verdicts: Answered::new(plans.iter().cloned(), |text, fault| {
                verdict_text(text, fault)
            }),
            archive: Answered::new(plans.iter().cloned(), |text, fault| opened(text, fault)),
            runs: Answered::new(runs, |text, fault| run_text(text, fault)),
            steps: Answered::new((0..count).map(|index| step_case(seed, index)), stepped),
            records: Answered::new(
                (0..count).map(|index| record_case(seed, index)),
                record_answer,
            ),
            sites: Answered::new((0..count).map(|index| site_case(seed, index)), played),
            issues: Answered::new((0..count).map(|index| issue_case(seed, index)), issued),
            reads: Answered::new(reads, read_answer),
            shared_steps: Answered::new(
                (0..count).map(|index| shared_step_case(seed, index)),
                shared_stepped,
            ),
            shared_sites: Answered::new(
                (0..count).map(|index| shared_site_case(seed, index)),
                shared_played,
            ),
            shared_sets: Answered::new(
                (0..count).map(|index| shared_set_case(seed, index)),
                |(plan, bad), fault| shared_fault_cause(plan, bad, fault).err(),
            ),
            quotes: Answered::new(quotes, |text, fault| quote_answers(text, fault)),
            quote_records: Answered::new(quote_records, judged),
            margins: margin_texts(seed, count),
            margin_records: margin_plans(seed, count),
            greatest: greatest_texts(seed, count),
            greatest_records: greatest_drawings(seed, count),
            sentences: failing_plans(seed, count),
            sentence_calls: composer_calls(seed, count),
            heard: heard_files(seed, count),
            heard_calls: hearing_calls(seed, count),
        }
    }

    /// How many cases there are of each sort.
    pub fn cases(&self) -> Found {
        Found {
            verdicts: self.verdicts.count(),
            archive: self.archive.count(),
            runs: self.runs.count(),
            steps: self.steps.count(),
            records: self.records.count(),
            sites: self.sites.count(),
            issues: self.issues.count(),
            reads: self.reads.count(),
            shared_steps: self.shared_steps.count(),
            shared_sites: self.shared_sites.count(),
            shared_sets: self.shared_sets.count(),
            quotes: self.quotes.count(),
            quote_records: self.quote_records.count(),
            margins: self.margins.count(),
            margin_records: self.margin_records.count(),
            greatest: self.greatest.count(),
            greatest_records: self.greatest_records.count(),
            sentences: self.sentences.count(),
            sentence_calls: self.sentence_calls.count(),
            heard: self.heard.count(),
            heard_calls: self.heard_calls.count(),
        }
    }

    /// How many cases tell the broken implementation from the sound one.
    pub fn found(&self, fault: Fault) -> Found {
        Found {
            verdicts: self.verdicts.found(fault),
            archive: self.archive.found(fault),
            runs: self.runs.found(fault),
            steps: self.steps.found(fault),
            records: self.records.found(fault),
            sites: self.sites.found(fault),
            issues: self.issues.found(fault),
            reads: self.reads.found(fault),
            shared_steps: self.shared_steps.found(fault),
            shared_sites: self.shared_sites.found(fault),
            shared_sets: self.shared_sets.found(fault),
            quotes: self.quotes.found(fault),
            quote_records: self.quote_records.found(fault),
            margins: self.margins.found(fault),
            margin_records: self.margin_records.found(fault),
            greatest: self.greatest.found(fault),
            greatest_records: self.greatest_records.found(fault),
            sentences: self.sentences.found(fault),
            sentence_calls: self.sentence_calls.found(fault),
            heard: self.heard.found(fault),
            heard_calls: self.heard_calls.found(fault),
        }
    }
}

/// Margins take a look at every set, so most sites are smaller still.
const LARGEST_FITTED: u32 = 8;

/// Plans in which numbers, margins and counts have two digits.
fn two_digit_plans() -> impl Iterator<Item = Plan> {
    let shapes = (0..SHAPED).map(shaped);
    shapes.filter(|plan| [12, 13].contains(&plan.n))
}

fn margin_texts(seed: u64, count: u64) -> Answered<Vec<u8>, MarginAnswer> {
    let texts = (0..count / 4).map(|index| margin_case(seed, index));
    let small = texts.filter(|text| {
        read_margins(text, Fault::None).map_or(true, |plan| plan.n <= LARGEST_FITTED)
    });
    let large = two_digit_plans().map(|plan| plan_text(&plan, Fault::None));
    Answered::new(small.chain(large), |text, fault| {
        margin_answers(text, fault)
    })
}

fn margin_plans(seed: u64, count: u64) -> Answered<Plan, Fitted> {
    let plans = (0..count / 4).map(|index| margin_record(seed, index));
    let small = plans.filter(|plan| plan.n <= LARGEST_FITTED || plan.check_head().is_err());
    Answered::new(small.chain(two_digit_plans()), margins)
}

/// Drawings of which the greatest f has two digits, one is refused, and one is soon judged.
fn large_drawings() -> impl Iterator<Item = Plan> {
    let shapes = (0..SHAPED_DRAWINGS).map(shaped_drawing);
    let shapes = shapes.filter(|plan| ![12, 14, 16, 17, 18, 19].contains(&plan.n));
    let near = |plan: &Plan| plan.n <= LARGEST_FITTED || plan.check_head().is_err();
    let star = |plan: &Plan| plan.links.iter().all(|link| link.0 == plan.source);
    shapes.filter(move |plan| near(plan) || star(plan))
}

fn greatest_texts(seed: u64, count: u64) -> Answered<Vec<u8>, GreatestAnswer> {
    let texts = (0..count / 4).map(|index| greatest_case(seed, index));
    let small = texts.filter(|text| {
        read_greatest(text, Fault::None).map_or(true, |plan| plan.n <= LARGEST_FITTED)
    });
    let large = large_drawings().map(|plan| plan_text(&plan, Fault::None));
    Answered::new(small.chain(large), |text, fault| {
        greatest_answers(text, fault)
    })
}

fn greatest_drawings(seed: u64, count: u64) -> Answered<Plan, Bounded> {
    let plans = (0..count / 4).map(|index| greatest_record(seed, index));
    let plans = plans.chain((0..THIN).map(thin));
    let small = plans.filter(|plan| plan.n <= LARGEST_FITTED || plan.check_head().is_err());
    Answered::new(small.chain(large_drawings()), greatest)
}

/// Plans of which a search through all bad sets is short.
fn failing_plans(seed: u64, count: u64) -> Answered<Vec<u8>, Vec<u8>> {
    let texts = (0..count / 8).map(|index| sentence_case(seed, index));
    let short = texts.filter(|text| {
        let filed = read_archive(text, Fault::None);
        filed.map_or(true, |filed| {
            is_short_search(&filed.plan) || filed.plan.bound.has_groups()
        })
    });
    Answered::new(short, |text, fault| sentence_text(text, fault))
}

fn composer_calls(seed: u64, count: u64) -> Answered<ComposeCase, ComposeAnswer> {
    let seeded = (0..count / 8).map(|index| compose_case(seed, index));
    let parted = (0..EVERY).map(|index| {
        let ((n, sets), room) = (every(index), 60);
        ComposeCase { n, sets, room }
    });
    let wrong = (0..WRONG_SETS).map(wrong_sets);
    Answered::new(seeded.chain(parted).chain(wrong), compose_answer)
}

fn heard_files(seed: u64, count: u64) -> Answered<Vec<u8>, Vec<u8>> {
    let seeded = (0..count / 8).map(|index| heard_case(seed, index));
    let listed = (0..LISTED).map(listed_file);
    let sized = (0..SIZED).map(sized_file);
    let by_hand = (0..BY_HAND).map(by_hand_file);
    let all = seeded.chain(listed).chain(sized).chain(by_hand);
    Answered::new(all, |text, fault| heard_text(text, fault))
}

fn hearing_calls(seed: u64, count: u64) -> Answered<HeardCase, Result<Sets, (Cause, Sets)>> {
    let seeded = (0..count / 8).map(|index| hearing_case(seed, index));
    let parted = (0..EVERY).map(every_sentence);
    let listed = (0..BY_HAND).map(by_hand);
    let damaged = (0..SPOILT).map(spoilt);
    let all = seeded.chain(parted).chain(listed).chain(damaged);
    Answered::new(all, hearing_answer)
}

fn opened(text: &[u8], fault: Fault) -> Opened {
    (
        archive_text(text, fault),
        rewritten_text(text, fault),
        read_archive(text, fault),
    )
}

fn seen(record: Record) -> Seen {
    (record.round, record.state, record.notes)
}

fn told_record(answer: Result<Record, (Cause, Record)>) -> Stepped {
    match answer {
        Ok(after) => (None, seen(after)),
        Err((cause, after)) => (Some(cause), seen(after)),
    }
}

fn stepped(call: &StepCase, fault: Fault) -> Stepped {
    told_record(step(&call.place, call.record.clone(), &call.said, fault))
}

fn shared_stepped(call: &SharedStep, fault: Fault) -> Stepped {
    let record = call.record.clone();
    told_record(shared_step(
        &call.place,
        record,
        call.default,
        &call.said,
        fault,
    ))
}

fn shared_played(site: &SharedSite, fault: Fault) -> Played {
    let (answer, records) = site.played(fault);
    (answer.err(), records.into_iter().map(seen).collect())
}

fn issued(call: &IssueCase, fault: Fault) -> Stepped {
    told_record(issue(call.record.clone(), call.later, fault))
}

fn played(site: &Site, fault: Fault) -> Played {
    let (answer, records) = site.played(fault);
    (answer.err(), records.into_iter().map(seen).collect())
}

fn told(found: &Found) -> String {
    let Found {
        verdicts,
        archive,
        runs,
        steps,
        records,
        sites,
        issues,
        reads,
        shared_steps,
        shared_sites,
        shared_sets,
        quotes,
        quote_records,
        margins,
        margin_records,
        greatest,
        greatest_records,
        sentences,
        sentence_calls,
        heard,
        heard_calls,
    } = found;
    format!(
        "{verdicts} verdicts, {archive} of the archive, {runs} runs, {steps} steps, \
         {records} plan records, {sites} calls of the run, {issues} of the issue, {reads} of the reader; \
         one radio for all: {shared_steps} steps, {shared_sites} runs, {shared_sets} bad sets; \
         the quoting page: {quotes} files, {quote_records} plan records; \
         margins: {margins} files, {margin_records} plan records; \
         the greatest f: {greatest} files, {greatest_records} drawings; \
         sentences: {sentences} files, {sentence_calls} calls; heard: {heard} files, {heard_calls} calls"
    )
}

/// Prints one line a fault; true if every fault was found.
pub fn faults(seed: u64, count: u64) -> bool {
    let sound = Sound::new(seed, count);
    println!("cases: {} (seed {seed})", told(&sound.cases()));
    let mut all_found = true;
    for (fault, name) in planted() {
        let found = sound.found(fault);
        let word = if found.all() > 0 {
            "found"
        } else {
            "NOT FOUND"
        };
        println!("{word}: {name}: {} cases ({})", found.all(), told(&found));
        all_found = all_found && found.all() > 0;
    }
    all_found
}
