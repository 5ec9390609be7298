//! Mistakes about twin groups and in the conversion of old images.

use super::slip::slips;

/// A call that checks an image first.
#[derive(Clone, Copy, Debug, PartialEq, Eq)]
pub enum Call {
    Check,
    Record,
    Decide,
    Run,
    Add,
    Permit,
}

impl Call {
    const ALL: [Call; 6] = [Call::Check, Call::Record, Call::Decide, Call::Run, Call::Add, Call::Permit];
}

/// A field that may name a group.
#[derive(Clone, Copy, Debug, PartialEq, Eq)]
pub enum Field {
    Source,
    Destination,
    /// Both types of a transition.
    Transition,
    First,
    Second,
    FirstListed,
    LastListed,
    Listed,
}

impl Field {
    const ALL: [Field; 8] = [
        Field::Source,
        Field::Destination,
        Field::Transition,
        Field::First,
        Field::Second,
        Field::FirstListed,
        Field::LastListed,
        Field::Listed,
    ];
}

slips! { TwinSlip by with_twins:
    // Which groups are twins.
    ByLength => "groups of equal length are twins",
    ByFirstMember => "groups with the same first member are twins",
    ByLastMember => "groups with the same last member are twins",
    LastMemberIgnored => "groups that differ in their last member alone are twins",
    FirstMemberIgnored => "groups that differ in their first member alone are twins",
    ByFront => "a group that starts as another one goes on is its twin",
    ByLowBytes => "members are compared by their low bytes",
    ByTouch => "groups that share a member are twins",
    ByInclusion => "a group within another is its twin",
    NeverTwins => "no groups are twins",
    LastGroupIgnored => "the last group is not compared, since nothing follows it",
    FirstGroupIgnored => "no group is compared with the first",
    NeighboursOnly => "a group is compared with the one before it alone",
    WithFirstOnly => "a group is compared with the first alone",
    OneMemberIsTwin => "a group of one member is a twin of that basic type",
    EqualRulesRefused => "equal rules are refused as twins are",
    EqualConstraintsRefused => "equal constraints are refused as twins are",
    // An image with twins: 19.
    Taken(Call) => "a call takes an image with twins",
    EarlierNamed => "of two twins the earlier is named",
    LastNamed => "of several twins the last is named",
    NamedAtZero => "19 has place 0",
    MemberNamed => "19 has the place of the first member",
    NumberNamed => "19 has the group's number for a place",
    BeforeTrailing => "twins come before bytes after the last record",
    BeforeLaterSections => "twins come before bad rules and constraints",
    BeforeLaterGroups => "twins come before bad groups that follow them",
    AfterQuery => "a query's own causes come before twins",
    AfterRecordNumber => "a record's number that is not there comes before twins",
    AfterAdded => "an added record's own causes come before twins",
    AfterRows => "a wrong number of rows comes before twins",
    AfterList => "a list of another length comes before twins",
    // An added twin: 20.
    AddedTaken => "a twin is added",
    AddedAnswersTwin => "adding a twin answers the number of the group that is there",
    AddedNotWithLast => "an added group is not compared with the last one",
    AddedNotWithFirst => "an added group is not compared with the first one",
    AddedWithLastOnly => "an added group is compared with the last one alone",
    AddedRefusedAsField => "an added twin gives 11",
    AddedBeforeField => "an added group's bad field comes after its members being there",
    FullBeforeAdded => "a full section comes before an added twin",
    ShortBeforeAdded => "a short buffer comes before an added twin",
    AddedPlaceOfTwin => "20 has the place of the group that is there",
    AddedPlaceOfMember => "20 has the place of the first member in the record",
    // The conversion.
    ConvertRefusesTwins => "the converter refuses twins",
    HighestStays => "of twins the highest stays",
    OneGoes => "of a set of twins only one goes",
    NumbersKept => "groups that come behind one that goes keep their numbers in references",
    TwinsMovedOn => "a reference to a group that goes is moved down as others are, and names another group",
    TwinsKept => "a reference to a group that goes is left as it was",
    NotFollowed(Field) => "a reference is left as it was in one field",
    OneMemberGoes => "a group of one member goes, and references name the basic type",
    LengthKept => "the length field stays",
    CountKept => "the count of groups stays",
    GroupsSorted => "the groups that stay are sorted",
    EqualRulesGo => "of equal rules one stays",
    EqualConstraintsGo => "of equal constraints one stays",
    EqualListedGo => "of equal listed types one stays",
    OldAnswered => "the answer is the old image's length",
    OldMeasured => "a buffer is short where it cannot hold the old image",
    ExactShort => "a buffer that just holds the new image is short",
    ShortFits => "a buffer that is one byte short gets what it holds",
    ShortFirst => "a buffer under 9 bytes comes before the image's causes",
    OldLeft => "the old image's end is left behind the new one",
    RestCleared => "bytes past the new image are cleared",
    ShortWritten => "a short buffer is written to",
    RefusedWritten => "a buffer is written to where the image is refused",
    FrontTaken => "the converter takes bytes behind the length field",
    // The program.
    ProgramTakesFront => "the program takes bytes behind the length field",
    ProgramPrintsRow => "the program prints a row behind the place",
    ProgramWritesOld => "the program writes the old image where it refuses it",
    ProgramChecks => "the program refuses twins",
}
