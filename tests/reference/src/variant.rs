//! Known blunders, to test whether a comparison catches them.

use crate::table::{Clause, Starts, FIRST_ROW, ROW_WORDS};

/// The steps of a call that go to rows by their starts.
#[derive(Clone, Copy, Debug, PartialEq, Eq)]
pub enum Step {
    /// The test of the live rows, and the counting of a writer's.
    Sound,
    /// The test that all words after them are 0.
    PastLive,
    Search,
    /// The fields of the entry that was found.
    Fields,
    Put,
    /// The closing up of the rows after a taken one.
    Removal,
    /// The clearing of the row that is freed by it.
    Freed,
}

impl Step {
    pub const ALL: [Step; 7] = [
        Step::Sound,
        Step::PastLive,
        Step::Search,
        Step::Fields,
        Step::Put,
        Step::Removal,
        Step::Freed,
    ];
}

/// Which reference to be: the right one, or one with a blunder.
#[derive(Clone, Copy, Debug, PartialEq, Eq)]
pub enum Variant {
    Correct,
    /// Takes two keys for matching when they are equal.
    ComparesKeyNotCoKey,
    /// Tests the read pair in a take.
    TakeTestsReadPair,
    /// The rules with a partition in the place of each set, and compared for equality: no blunder,
    /// but what rule M7 compares with. The set of a pair is then the number of a partition.
    SinglePartitions,
    /// Lets a template with the default partition match every set.
    DefaultPartitionMatchesAll,
    /// Lets a template of wildcards alone match every set.
    WildcardsMatchPartition,
    /// A take lowers the writer's charge and raises the taker's.
    ChargesTaker,
    /// A take lowers the taker's charge and not the writer's.
    LowersTakersCharge,
    /// A take lowers no charge.
    NeverLowersCharge,
    /// Finds a match before it looks at the result's length.
    TestsResultLate,
    /// A receive or a take gives the names in the template and not those in the entry.
    GivesNamesOfTemplate,
    /// Gives the co-key of a carried key as well.
    GivesCoKeyToo,
    /// Finds the newest match.
    NewestFirst,
    /// Leaves the freed last row as it was.
    LeavesFreedRow,
    /// Allows a seventeenth live entry.
    LimitOneTooHigh,
    /// A look gives the names that it finds, as a receive does.
    LookGivesNames,
    /// A look removes the entry.
    LookRemoves,
    /// Tests the take pair in a look.
    LookTestsTakePair,
    /// A look finds the newest match.
    LookFindsNewest,
    /// A look needs none of the names that it uses.
    LookNeedsNoNames,
    /// A look takes every space of the right length for sound.
    LookTrustsSpace,
    /// A receive gives no names, as a look does.
    ReceiveGivesNoNames,
    /// A receive removes the entry.
    ReceiveRemoves,
    /// Tests the take pair in a receive.
    ReceiveTestsTakePair,
    /// A take gives no names.
    TakeGivesNoNames,
    /// Takes at least a number for more than it.
    AtLeastIsMoreThan,
    /// Takes at most a number for less than it.
    AtMostIsLessThan,
    /// Takes each bound for the other.
    BoundsExchanged,
    /// Compares at least, and a message with it, as numbers that have a sign.
    AtLeastIsSigned,
    /// The same of at most.
    AtMostIsSigned,
    /// Lets at least agree with a partition by its number.
    AtLeastAgreesWithPartition,
    /// The same of at most.
    AtMostAgreesWithPartition,
    /// Lets at least agree with a key by the number it is stored as.
    AtLeastAgreesWithKey,
    /// The same of at most.
    AtMostAgreesWithKey,
    /// Takes at most for a partition when it asks what the party holds.
    AtMostNamesPartition,
    /// Lets a template with a bound match every set.
    BoundedMatchesAllPartitions,
    /// Lets a put carry at least.
    PutsAtLeast,
    /// Lets a put carry at most.
    PutsAtMost,
    /// Takes a word of kind 6 in a template for the wildcard.
    KindSixIsWildcard,
    /// Takes a row with at least for sound.
    AtLeastInRowIsSound,
    /// Takes a row with at most for sound.
    AtMostInRowIsSound,
    /// Takes sets for agreeing only where they are the same.
    SetsMustBeEqual,
    /// Only where all of the template's is in the entry's.
    TemplatesMustBeWithin,
    /// Only where all of the entry's is in the template's.
    EntrysMustBeWithin,
    /// Only where the smallest partition of each is the same.
    SmallestMustBeShared,
    /// Only where the smallest of the template's is in the entry's.
    SmallestOfTemplates,
    /// Only where the smallest of the entry's is in the template's.
    SmallestOfEntrys,
    /// Only where they share a partition below 32.
    SharedBelow32,
    /// Only where they share a partition below 63.
    Partition63IsNotShared,
    /// Goes by the read set in a take, and by the take key.
    TakeTestsReadSet,
    /// Stores the set for reading in both pairs.
    PutsReadSetTwice,
    /// Asks for one partition of a set to be held.
    OneHeldIsEnough,
    /// Asks for the smallest.
    SmallestHeldIsEnough,
    /// Asks for the largest.
    LargestHeldIsEnough,
    /// Asks for those below 32.
    HeldBelow32IsEnough,
    /// Asks for each to be held, by whomever.
    HeldByAnybodyIsEnough,
    /// A receive or a take gives the partitions of the entry's set for reading.
    GivesReadSet,
    /// Lets a put name the empty set for reading.
    PutsEmptyReadSet,
    /// Lets a put name the empty set for taking.
    PutsEmptyTakeSet,
    /// Lets a template name the empty set.
    SeeksEmptySet,
    /// Refuses by 4 a set of several partitions.
    RefusesSeveral,
    /// Refuses by 4 the set of all.
    RefusesAll,
    /// Refuses by 4 a set with partition 63.
    RefusesPartition63,
    /// Refuses by 4 what would be above 63 as a number.
    RefusesWordsAbove63,
    /// Refuses by 4 a set without a partition below 32.
    RefusesNoneBelow32,
    /// Takes a row with a set of several for unsound.
    SeveralInRowAreUnsound,
    /// Takes a row with partition 63 in a set for unsound.
    Partition63InRowIsUnsound,
    /// Takes a row with a set that would be above 63 as a number for unsound.
    WordAbove63InRowIsUnsound,
    /// Takes a row with a set without a partition below 32 for unsound.
    NoneBelow32InRowIsUnsound,
    /// All names by 7, as before they were told apart, and all else as it is now: what the
    /// comparison before and after goes by, and a blunder today.
    OneRefusalForNames,
    /// Refuses by 13 for every name that isn't held.
    AllNamesBy13,
    /// By 7 in a put, and tells names apart elsewhere.
    NamesOfPutBy7,
    /// By 7 in a look.
    NamesOfLookBy7,
    /// Refuses by 14 for a partition of a pair, and by 13 for a key.
    Exchanges13And14,
    /// By 7 for a key of a pair, and by 14 for a name in a field.
    Exchanges14And7,
    /// By 7 for a partition of a pair, and by 13 for a name in a field.
    Exchanges13And7,
    /// By 13 for a partition that a field carries.
    CarriedPartitionBy13,
    /// By 14 for a key that a field carries.
    CarriedKeyBy14,
    /// Tests the keys of the pairs before their partitions.
    KeysBeforePartitions,
    /// Tests the names in fields before the keys of the pairs.
    CarriedBeforeKeys,
    /// Tests the names in fields before those of the pairs.
    CarriedFirst,
    /// Tests a put's pair for reading, partitions and key, before its other pair.
    NamesPairByPair,
    /// Asks for the partitions of a put's set for reading to be held, and not for the other set's.
    ReadSetAloneHeld,
    /// The same of the set for taking.
    TakeSetAloneHeld,
    /// The same of the key for reading.
    ReadKeyAloneHeld,
    /// The same of the key for taking.
    TakeKeyAloneHeld,
    /// Lets a set of several partitions have one that isn't held.
    OneOfSeveralIsForgiven,
    /// Tests the party's live entries before names.
    TestsLimitBeforeNames,
    /// The table as it was before names came before the result, with 6 before 13: what the
    /// comparison before and after goes by, and a blunder today.
    TestsResultBeforeNames,
    /// Tests the result's length, by 6, between 13 and 14.
    TestsResultBeforeKeys,
    /// Between 14 and 7.
    TestsResultBeforeCarried,
    /// Before 13 in a look, and after 7 elsewhere.
    LookTestsResultFirst,
    /// The same of a receive.
    ReceiveTestsResultFirst,
    /// The same of a take.
    TakeTestsResultFirst,
    /// Refuses by 6 unless there are more result words than fields.
    WantsOneMoreResultWord,
    /// An opening gives partition 0 to everybody.
    OpensWithPartition0,
    /// An opening gives it to nobody, not even where the roster lists it.
    OpensWithoutPartition0,
    /// An opening gives key 0 only where the roster lists it.
    OpensWithoutKey0,
    /// Takes a space for unsound in which somebody lacks partition 0.
    WantsPartition0,
    /// The same where it is the party of the call that lacks it.
    WantsPartition0OfCaller,
    /// Takes partition 0 in a pair for held, whoever names it.
    Partition0IsHeldInPairs,
    /// The same of partition 0 in a field.
    Partition0IsHeldInFields,
    /// A receive gives every name that it finds but partition 0.
    ReceivesNoPartition0,
    /// The same of a take.
    TakesNoPartition0,
    /// The rules as they were while partition 0 was everybody's, by the opening and by soundness:
    /// what the comparison before and after goes by, and a blunder today.
    FreePartition0,
    /// Leaves the last live row where it is, and as it was, when the rows close up.
    LeavesLastRow,
    /// Closes up to the start of the last live row and clears it, so that its entry is lost.
    LosesLastRow,
    /// Clears the row before the freed one as well.
    ClearsTwoRows,
    /// Has this row start at this word, in one step of a call or in all.
    Misplaces {
        row: usize,
        start: usize,
        step: Option<Step>,
    },
    /// Takes the space as sound without testing this clause.
    Skips(Clause),
}

impl Variant {
    /// The six blunders that the rules name, those with two readings in each.
    pub const BLUNDERS: [Variant; 9] = [
        Variant::ComparesKeyNotCoKey,
        Variant::TakeTestsReadPair,
        Variant::DefaultPartitionMatchesAll,
        Variant::WildcardsMatchPartition,
        Variant::ChargesTaker,
        Variant::LowersTakersCharge,
        Variant::NeverLowersCharge,
        Variant::TestsResultLate,
        Variant::GivesNamesOfTemplate,
    ];

    /// Further slips that are easily made.
    pub const SLIPS: [Variant; 4] = [
        Variant::GivesCoKeyToo,
        Variant::NewestFirst,
        Variant::LeavesFreedRow,
        Variant::LimitOneTooHigh,
    ];

    /// Slips about what tells looks, receives and takes apart.
    pub const OPERATION_SLIPS: [Variant; 10] = [
        Variant::LookGivesNames,
        Variant::LookRemoves,
        Variant::LookTestsTakePair,
        Variant::LookFindsNewest,
        Variant::LookNeedsNoNames,
        Variant::LookTrustsSpace,
        Variant::ReceiveGivesNoNames,
        Variant::ReceiveRemoves,
        Variant::ReceiveTestsTakePair,
        Variant::TakeGivesNoNames,
    ];

    /// Slips about the bounds.
    pub const BOUND_SLIPS: [Variant; 16] = [
        Variant::AtLeastIsMoreThan,
        Variant::AtMostIsLessThan,
        Variant::BoundsExchanged,
        Variant::AtLeastIsSigned,
        Variant::AtMostIsSigned,
        Variant::AtLeastAgreesWithPartition,
        Variant::AtMostAgreesWithPartition,
        Variant::AtLeastAgreesWithKey,
        Variant::AtMostAgreesWithKey,
        Variant::AtMostNamesPartition,
        Variant::BoundedMatchesAllPartitions,
        Variant::PutsAtLeast,
        Variant::PutsAtMost,
        Variant::KindSixIsWildcard,
        Variant::AtLeastInRowIsSound,
        Variant::AtMostInRowIsSound,
    ];

    /// Slips about sets. Those that take an empty set in a row for sound are skipped clauses.
    pub const SET_SLIPS: [Variant; 28] = [
        Variant::SetsMustBeEqual,
        Variant::TemplatesMustBeWithin,
        Variant::EntrysMustBeWithin,
        Variant::SmallestMustBeShared,
        Variant::SmallestOfTemplates,
        Variant::SmallestOfEntrys,
        Variant::SharedBelow32,
        Variant::Partition63IsNotShared,
        Variant::TakeTestsReadSet,
        Variant::PutsReadSetTwice,
        Variant::OneHeldIsEnough,
        Variant::SmallestHeldIsEnough,
        Variant::LargestHeldIsEnough,
        Variant::HeldBelow32IsEnough,
        Variant::HeldByAnybodyIsEnough,
        Variant::GivesReadSet,
        Variant::PutsEmptyReadSet,
        Variant::PutsEmptyTakeSet,
        Variant::SeeksEmptySet,
        Variant::RefusesSeveral,
        Variant::RefusesAll,
        Variant::RefusesPartition63,
        Variant::RefusesWordsAbove63,
        Variant::RefusesNoneBelow32,
        Variant::SeveralInRowAreUnsound,
        Variant::Partition63InRowIsUnsound,
        Variant::WordAbove63InRowIsUnsound,
        Variant::NoneBelow32InRowIsUnsound,
    ];

    /// Slips about which name isn't held.
    pub const NAME_SLIPS: [Variant; 19] = [
        Variant::OneRefusalForNames,
        Variant::AllNamesBy13,
        Variant::NamesOfPutBy7,
        Variant::NamesOfLookBy7,
        Variant::Exchanges13And14,
        Variant::Exchanges14And7,
        Variant::Exchanges13And7,
        Variant::CarriedPartitionBy13,
        Variant::CarriedKeyBy14,
        Variant::KeysBeforePartitions,
        Variant::CarriedBeforeKeys,
        Variant::CarriedFirst,
        Variant::NamesPairByPair,
        Variant::ReadSetAloneHeld,
        Variant::TakeSetAloneHeld,
        Variant::ReadKeyAloneHeld,
        Variant::TakeKeyAloneHeld,
        Variant::OneOfSeveralIsForgiven,
        Variant::TestsLimitBeforeNames,
    ];

    /// Slips about the test of the result's length. The one that tests it only once there is a match
    /// is a blunder that the rules name.
    pub const RESULT_SLIPS: [Variant; 7] = [
        Variant::TestsResultBeforeNames,
        Variant::TestsResultBeforeKeys,
        Variant::TestsResultBeforeCarried,
        Variant::LookTestsResultFirst,
        Variant::ReceiveTestsResultFirst,
        Variant::TakeTestsResultFirst,
        Variant::WantsOneMoreResultWord,
    ];

    /// Slips about partition 0 and key 0. The one that takes a space without key 0 for sound is a
    /// skipped clause.
    pub const DEFAULT_SLIPS: [Variant; 10] = [
        Variant::OpensWithPartition0,
        Variant::OpensWithoutPartition0,
        Variant::OpensWithoutKey0,
        Variant::WantsPartition0,
        Variant::WantsPartition0OfCaller,
        Variant::Partition0IsHeldInPairs,
        Variant::Partition0IsHeldInFields,
        Variant::ReceivesNoPartition0,
        Variant::TakesNoPartition0,
        Variant::FreePartition0,
    ];

    /// Slips about where rows start and end, in the first row, one in the middle and the last.
    pub const ROW_SLIPS: [Variant; 7] = [
        Variant::LeavesLastRow,
        Variant::LosesLastRow,
        Variant::ClearsTwoRows,
        Variant::misplaces(0, FIRST_ROW - 1),
        Variant::misplaces(0, FIRST_ROW + 1),
        Variant::misplaces(64, FIRST_ROW + 64 * ROW_WORDS + 1),
        Variant::misplaces(127, FIRST_ROW + 126 * ROW_WORDS),
    ];

    const fn misplaces(row: usize, start: usize) -> Variant {
        Variant::Misplaces {
            row,
            start,
            step: None,
        }
    }

    /// Clauses that can be skipped: without the first two there would be no table to look at.
    pub fn skipped_clauses() -> impl Iterator<Item = Variant> {
        Clause::ALL
            .into_iter()
            .filter(|clause| !matches!(clause, Clause::Length | Clause::LiveCount))
            .map(Variant::Skips)
    }

    /// Whether only an unsound space shows it.
    pub fn is_about_soundness(self) -> bool {
        matches!(
            self,
            Variant::LookTrustsSpace
                | Variant::AtLeastInRowIsSound
                | Variant::AtMostInRowIsSound
                | Variant::Skips(_)
        )
    }

    /// Where rows start in this step.
    pub(crate) fn starts(self, in_step: Step) -> Starts {
        match self {
            Variant::Misplaces { row, start, step } if step.is_none_or(|step| step == in_step) => {
                Starts::with(row, start)
            }
            _ => Starts::RIGHT,
        }
    }

    /// Whether charges are kept apart from the rows, as only some blunders do.
    pub(crate) fn keeps_charges(self) -> bool {
        matches!(
            self,
            Variant::ChargesTaker | Variant::LowersTakersCharge | Variant::NeverLowersCharge
        )
    }
}
