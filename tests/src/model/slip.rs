//! Mistakes that the model can be told to make, to see that the tests notice them.

use super::Model;
use mungaite::Section;
use std::fmt::Debug;

/// A predicate that looks at the rules.
#[derive(Clone, Copy, Debug, PartialEq, Eq)]
pub enum Predicate {
    Separation,
    Roster,
    Companion,
}

impl Predicate {
    const ALL: [Predicate; 3] = [Predicate::Separation, Predicate::Roster, Predicate::Companion];

    /// The predicate of a number; a ban, 0, looks at no rule.
    pub fn of(number: u8) -> Option<Predicate> {
        match number {
            1 => Some(Predicate::Separation),
            2 => Some(Predicate::Roster),
            3 => Some(Predicate::Companion),
            _ => None,
        }
    }
}

/// Who asks whether a rule is on.
#[derive(Clone, Copy, Debug, PartialEq, Eq)]
pub enum Reader {
    /// All of the others.
    Each,
    Cover,
    Steps,
    Separation,
    Roster,
    Companion,
}

impl Reader {
    const ALL: [Reader; 6] =
        [Reader::Each, Reader::Cover, Reader::Steps, Reader::Separation, Reader::Roster, Reader::Companion];

    pub fn of(predicate: Predicate) -> Reader {
        match predicate {
            Predicate::Separation => Reader::Separation,
            Predicate::Roster => Reader::Roster,
            Predicate::Companion => Reader::Companion,
        }
    }
}

/// A kind of mistakes that the model can be told to make.
pub trait Mistake: Copy + Debug + 'static {
    fn all() -> Vec<Self>;

    /// The mistake's name, in letters only.
    fn name(self) -> String {
        format!("{self:?}").replace(['(', ')'], "")
    }

    /// What the mistaken model does.
    fn says(self) -> &'static str;

    /// The mistaken model.
    fn model(self) -> Model;
}

/// The mistakes, each with what the mistaken model does. One with a kind in brackets is a mistake for each of that
/// kind. The model is told of one by the function that stands behind `by`.
macro_rules! slips {
    ($slip:ident by $with:ident: $($name:ident $(($kind:ident))? => $says:literal,)*) => {
        /// One mistake.
        #[derive(Clone, Copy, Debug, PartialEq, Eq)]
        pub enum $slip {
            $(#[doc = $says] $name $(($kind))?,)*
        }

        impl $crate::model::Mistake for $slip {
            fn all() -> Vec<$slip> {
                [$(slips!(@each $slip $name $($kind)?),)*].concat()
            }

            fn says(self) -> &'static str {
                match self {
                    $($slip::$name { .. } => $says,)*
                }
            }

            fn model(self) -> $crate::model::Model {
                $crate::model::Model::$with(self)
            }
        }
    };
    (@each $slip:ident $name:ident) => { vec![$slip::$name] };
    (@each $slip:ident $name:ident $kind:ident) => { $kind::ALL.map($slip::$name).to_vec() };
}

pub(super) use slips;

slips! { Slip by with:
    // The five misreadings of document 01.
    LastRuleSkipped => "the last rule is skipped, since nothing follows it",
    FailureLiftsUncovered => "a failing constraint lifts an uncovered query to UnKnown",
    CoverByTouch => "a rule covers a query that only touches it",
    OffRuleLive(Predicate) => "rules that are off are counted by a predicate",
    PredicateOfOneClass(Predicate) => "a predicate searches only rules of the query's class",
    // Cover.
    HighestRule => "the highest rule that covers is named",
    OffRuleCovers => "a rule that is off covers",
    SwappedCover => "source and destination are swapped in the cover",
    CoverOutward => "a rule covers a query that its own types are within",
    CoverBySameSet => "a rule covers a query of its own types only",
    SourceNotCompared => "a rule covers whatever its source",
    DestinationNotCompared => "a rule covers whatever its destination",
    ClassNotCompared => "an allow rule covers queries of any class",
    ActionNotCompared => "an allow rule covers queries of any action",
    TransitionOfOneClass => "a transition has a class step, so it covers only queries of its class",
    TransitionNeverCovers => "a transition covers nothing",
    GroupJudgedOnce => "a group that is a rule's source and its destination is compared as destination alone",
    FirstMemberLost => "a group's first member is lost",
    LastMemberLost => "a group's last member is lost",
    // Constraints.
    HighestConstraint => "the highest constraint that fails is named",
    LowestApplying => "the lowest constraint that applies is named, where another fails",
    FirstApplyingOnly => "only the lowest constraint that applies is looked at",
    AllMustFail => "UnKnown only where every constraint that applies fails",
    LastConstraintSkipped => "the last constraint is skipped, since nothing follows it",
    TransitionUnconstrained => "a query that a transition covers meets no constraint",
    ConstraintOfAnyClass => "a constraint applies whatever its class",
    ConstraintOfAnyAction => "a constraint applies whatever its action",
    // The arguments within which a predicate may be false.
    GateByTouch => "a constraint concerns a query that only touches its arguments",
    GateOutward => "a constraint concerns a query that its arguments are within",
    GateSwapped => "the query's source is compared with the second argument, its destination with the first",
    GateBySourceOnly => "a constraint concerns a query whatever its destination",
    GateByDestinationOnly => "a constraint concerns a query whatever its source",
    ArgumentJudgedOnce => "a group that is both arguments is compared with the query's source alone",
    BanWithoutGate => "a ban is false whatever its arguments",
    NoGate(Predicate) => "a predicate is asked of a query outside of its arguments",
    BanHolds => "a ban is true",
    // What the predicates ask of the rules.
    PredicateOfOneAction(Predicate) => "a predicate searches only rules of the query's action",
    LastRuleNotLive(Predicate) => "the last rule is skipped by a predicate, since nothing follows it",
    TransitionLive(Predicate) => "a transition is live",
    PredicateByWithin(Predicate) => "a predicate wants a rule's type within an argument",
    PredicateOutward(Predicate) => "a predicate wants an argument within a rule's type",
    PredicateOfQuery(Predicate) => "a predicate looks for the query's types in place of its arguments",
    JudgedOnce(Predicate) => "a predicate does not judge a group again, in another field or for another argument",
    SeparationBySameSet => "separation wants sources that stand for the same set",
    SeparationByWithin => "separation wants a source within the other",
    SeparationFromArguments => "separation wants sources that touch the arguments, not each other",
    SeparationWithinFirst => "separation counts only basic types of the first argument",
    SeparationOfTwoRules => "separation wants two different rules",
    SeparationOfTwoTypes => "separation wants two different source types",
    SeparationOfFirst => "separation looks for the first argument twice",
    SeparationOfSecond => "separation looks for the second argument twice",
    SeparationWithoutSources => "separation does not compare the sources",
    RosterByFirst => "the roster's rules are selected by the first argument",
    RosterOfAnyRule => "the roster looks at every live rule",
    RosterOfOneType => "the roster wants a source within one listed type",
    RosterByTouch => "the roster wants a source that touches a listed type",
    RosterOfSome => "the roster is true where one rule's source is listed",
    LastListedLost => "a roster's last listed type is lost",
    CompanionSameWay => "the companion's rule goes the same way as the query",
    CompanionByTwoRules => "the companion is found in two rules, one by its source, one by its destination",
    CompanionBySource => "the companion's destination is not looked at",
    CompanionByDestination => "the companion's source is not looked at",
    // Switches.
    SwitchAbove => "a condition names the switch above its own",
    SwitchBelow => "a condition names the switch below its own",
    SwitchesReversed => "switches are counted from the word's highest bit",
    SwitchAtZero => "a switch rule is on where the word is 0",
    SwitchInverted => "a switch rule is on where its switch is off",
    AnySwitch => "a switch rule is on where any switch is",
    NotOdd => "a switch is on where the word divided by its power of 2 is not 0",
    LowHalfOnly => "only the low half of a word counts",
    OffWraps => "condition 0 goes by switch 30, as if switch numbers wrapped around",
    OnWraps => "condition 1 goes by switch 31, as if switch numbers wrapped around",
    SwitchOn(Reader) => "a switch rule is on whatever the word, for all who ask or for one of them",
    SwitchOff(Reader) => "a switch rule is off whatever the word, for all who ask or for one of them",
    // How near a denied query came.
    HighestNearest => "of the rules with the most steps the highest is named",
    RuleZeroNearest => "rule 0 is named, whichever rule has the most steps",
    FewestSteps => "the fewest steps are given, and a rule that has them",
    FirstStepEnds => "the search for the nearest ends at the first rule that passes a step",
    LastRuleNotNear => "the last rule is skipped where the nearest is searched for",
    OffRulesLeftOut => "rules that are off are left out, so that where all are off there are no rules",
    TransitionsLeftOut => "only an allow rule can be the nearest",
    StepsForgotten => "a denied query gets no rules, whatever rules there are",
    NoRulesAreRuleZero => "where there are no rules, rule 0 is named with no step",
    AllPassesCount => "steps that pass behind the first failure count",
    FailedStepCounts => "the step that fails counts",
    OffRuleGoesOn => "a rule that is off counts with its later steps",
    ConditionLast => "the condition is the last step",
    ClassBeforeSource => "the class is looked at before the source",
    DestinationBeforeSource => "the destination is looked at before the source",
    ActionBeforeClass => "the action is looked at before the class",
    TransitionHelped => "a transition of the query's class has one step more",
    TransitionHurt => "a transition of another class has no step",
    TransitionWithoutFirstStep => "a transition's first step does not count",
    NearByTouch => "a step passes where the types only touch",
    NearOutward => "a step passes where the rule's type is within the query's",
    NearBySameSet => "a step passes for the rule's own type only",
    // Checking: header and records.
    AnyVersion => "any version passes",
    VersionBeforeSize => "a wrong version comes before an image under 9 bytes",
    LengthBeforeVersion => "a wrong length field comes before a wrong version",
    CountsBeforeLength => "counts over their limits come before a wrong length field",
    LastCountFirst => "the counts are looked at from the last to the first",
    LimitReached(Section) => "a count at its limit is refused",
    LimitPassed(Section) => "a count one over its limit passes",
    LongerSlicePasses => "bytes past the length field pass",
    KindOfAnySection => "any kind of record may stand in any section",
    LongTransitionPasses => "a transition of length 11 passes",
    EmptyGroupPasses => "a group without members passes",
    LengthOver => "65 members and 17 listed types pass",
    LengthAtLimit => "64 members and 16 listed types are refused",
    HalfFieldPasses => "a group of odd length and a constraint of even length pass",
    RecordPlaceOff => "a record's place is one too high",
    FieldBeforeShape => "a rule's bad source comes before its wrong length",
    FieldsAfterSection => "a section's records are framed before a field of theirs is looked at",
    FieldsAfterRecords => "all records are framed before any field is looked at",
    CheckIn15Bits => "the place that the check comes to has 15 bits",
    TrailingPasses => "bytes after the last record pass",
    LastTrailingNamed => "of the bytes after the last record the last is named",
    // Checking: fields.
    FieldPlaceOff => "a field's place is one too high",
    RisingNotStrict => "equal members pass",
    EarlierMemberNamed => "of two members that do not rise the earlier is named",
    BasicBeforeRising => "a member that is no basic type comes before members that do not rise",
    RisingBeforeBasic => "members that do not rise come before one that is no basic type",
    LastMemberBasic => "of a group only the last member must be a basic type",
    BasicTypeOver => "1024 is a basic type",
    BasicTypeUnder => "1023 is no basic type",
    GroupOver => "the group count itself names a group",
    GroupUnder => "the last group cannot be named",
    RuleDestinationFirst => "a rule's bad destination comes before its bad source",
    ConditionFirst => "a bad condition comes before bad types",
    ConditionAny => "any condition passes",
    ConditionOver => "condition 34 passes",
    ConditionUnder => "condition 33 is refused",
    SwitchesRefused => "conditions above 1 are refused",
    SecondArgumentFirst => "a bad second argument comes before a bad first",
    PredicateFirst => "a bad predicate byte comes before bad arguments",
    PredicateLast => "a bad predicate byte comes after bad listed types",
    LastListedFirst => "the last bad listed type is named",
    ListUnchecked => "any list suits any predicate",
    CompanionWithList => "a companion may have a list",
    UnsuitedListPlace => "a list that does not suit is named at its own place",
    LastListedUnchecked => "a roster's last listed type may be any number",
    // Queries, records and adding.
    QueryBeforeImage => "a query's own causes come before the image's",
    DestinationFirst => "a bad destination comes before a bad source",
    RecordBeforeImage => "a section without that record comes before the image's causes",
    RecordPastEnd => "the record number that equals the count gives the last record",
    RecordsFromOne => "records are numbered from 1",
    RecordIn15Bits => "the place of the record that is given has 15 bits",
    AddedBeforeImage => "an added record's own causes come before the image's",
    LentLengthIgnored => "an added record may have bytes behind it",
    ImageToBufferEnd => "adding takes the whole buffer for the image",
    FullBeforeField => "a full section comes before a bad field",
    ShortBeforeField => "a short buffer comes before a bad field",
    ShortBeforeFull => "a short buffer comes before a full section",
    FullElsewhere => "a record is refused where another section is full",
    ExactRoomShort => "a buffer that just holds the new image is short",
    FieldPlaceInImage => "an added record's bad field is named by its place in the new image",
    AddedAtImageEnd => "an added record goes to the end of the image",
    AddedFirst => "an added record goes to the start of its section",
    LengthFieldStays => "adding leaves the length field as it was",
    CountStays => "adding leaves the section's count as it was",
    RefusedAddWrites => "a refused call of adding writes to the buffer",
    NumberAfterAdding => "the answer to adding is the new count",
    RestCleared => "adding clears the bytes past the image",
    RestMoved => "adding moves the bytes past the image up",
    // Runs.
    StopsAtUnfitRow => "a run stops at its first row that is not Permitted",
    StopsAtRefusedRow => "a refused row ends the run",
    LastRowSkipped => "a run's last row is skipped, since nothing follows it",
    RowsFromOne => "rows are numbered from 1",
    LastUnfitRow => "the last row that is not Permitted is named",
    RefusedRowFits => "a refused row counts as Permitted",
    UnKnownRowFits => "an UnKnown row counts as Permitted",
    RefusedRowRefuses => "a refused row refuses the call",
    SourceKept => "a row's source has the basic types of the rows before it too",
    DestinationKept => "a row's destination has the basic types of the rows before it too",
    FailureKept => "a constraint that fails for a row fails for later rows of that class and action",
    NearestKept => "a denied row gets the nearest of the rows before it where that has more steps",
    RowLimitReached => "64 rows are refused",
    RowLimitPassed => "65 rows pass",
    NoRowsPass => "a run of no rows is fit",
    ShortListPasses => "a list that is shorter than the rows passes",
    LongListPasses => "a list that is longer than the rows passes",
    RowCountBeforeImage => "a wrong number of rows comes before the image's causes",
    ListBeforeImage => "a list of another length comes before the image's causes",
    ListBeforeRowCount => "a list of another length comes before a wrong number of rows",
    RefusedRunWrites => "a refused run writes an answer",
    ImageRefusalInSlots => "a refused image's refusal goes to each slot of a run",
    // The words of rows.
    HalvesSwapped => "the halves of a row's word are swapped",
    FirstWordKept => "every row of a run goes by the first row's word",
    VerdictKept(Predicate) => "a run keeps what a predicate said though the word changes",
    VerdictKeptBack(Predicate) => "a run keeps what a predicate said under another word when the first comes back",
    VerdictOfWordBefore(Predicate) => "a run keeps what a predicate said under the word before the last for a third one",
    // The program.
    ImageToInputEnd => "the program takes the whole input for the image",
    StopsAtRefusedQuery => "the program stops at a refused query",
    LeftoverIgnored => "the program ignores 1 to 11 bytes left",
    LeftoverAlone => "the program answers no query where 1 to 11 bytes are left",
    ShortWordPasses => "the program takes 8 to 11 bytes left for a query, its word filled up with 0",
    QueriesOf8 => "the program's queries have 8 bytes and no word",
    WordFirst => "the word comes first in a query of the program",
    WordLittleEndian => "the word of a query of the program has its lowest byte first",
    ProgramVerdictKept(Predicate) => "the program keeps what a predicate said though the word changes",
    ConstraintBeforeRule => "the program prints the constraint before the rule",
    DenialAlone => "the program prints N alone",
    RuleBeforeSteps => "the program prints the rule before the steps",
    NoRulesAsNumbers => "the program prints N 0 65535 where there are no rules",
}
