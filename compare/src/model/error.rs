//! The errors that look reasonable.

use super::Sum;

/// The model with one of them built in has to be told apart from the library.
#[derive(Clone, Copy, Debug, PartialEq, Eq)]
pub enum Error {
    /// 1: the search starts from a guess.
    StartsFromGuess,
    /// 2: no response where the demand at the limit is above the limit.
    JudgesAtLimit,
    /// 3: the combined method takes the smaller cost of each pair in one equation.
    CombinesPerPair,
    /// 4: one activation too many where R + J is a multiple of T.
    CountsOneMore,
    /// 5: task i is left out of those affected.
    LeavesOutLowest,
    /// 5b: task j is put among those affected.
    PutsInPreempting,
    /// 6: the response is held against D, not D - J.
    ForgetsOwnJitter,
    /// 7: the combined method is explained by the dearer union.
    ExplainsDearer,
    /// 8: the combined method is explained by method 3 where both unions are equal.
    ExplainsThreeIfEqual,
    /// 9: an explanation, but not its figure, has one activation too many where R + J is a multiple
    /// of T.
    ListsOneMore,
    /// 10: an explanation has the reload counts of the task above where that has one.
    ListsRowAbove,
    /// 11: the search for a figure ends at the task's limit.
    EndsAtLimit,
    /// 12: the victim is the last of those with the largest value.
    HitsLastOfEquals,
    /// 13: the tasks above are listed though the figure is beyond the search's end.
    ListsAfterBeyond,
    /// 14: numbers of a written table have at least two digits.
    PadsNumbers,
    /// 15: the cache sets of a written table have the digits A to F.
    UsesLargeLetters,
    /// 16: the cache sets of a written table start from the lowest digit.
    StartsFromLowestSets,
    /// 17: the tasks of a written table stand from the last to the first.
    TurnsTasksRound,
    /// 18: the period of a written task is its deadline.
    WritesDeadlineForPeriod,
    /// 19: a table value is written though two of its tasks have the same name.
    OverlooksEqualNames,
    /// 20: a table value is written, without the mark, though it marks a set that the cache does
    /// not have.
    OverlooksHighMarks,
    /// 21: a table value is written though a place past its last task is not empty.
    OverlooksPastEnd,
    /// 22: 14 comes before 25.
    LooksAtRoomFirst,
    /// 23: an access may block its own task.
    BlocksItself,
    /// 24: the ceiling is held against the access's task: an access may block every task above it.
    HoldsCeilingAgainstTask,
    /// 25: an access may block a task only if its ceiling is above that, as (18) is printed.
    WantsCeilingAbove,
    /// 26: the task at the ceiling pre-empts the access as well.
    PreemptsAtCeiling,
    /// 27: every task above the blocked one pre-empts the access, whatever the ceiling.
    PreemptsBelowCeiling,
    /// 28: the access's UCB does not count in method 2.
    LeavesAccessOutOf2,
    /// 29: the access's UCB does not count in method 3.
    LeavesAccessOutOf3,
    /// 30: the access's UCB does not count in method 4.
    LeavesAccessOutOf4,
    /// 31: the response is the smallest over the accesses.
    TakesSmallest,
    /// 32: the response is the largest over the accesses that leave one.
    PassesOverNone,
    /// 33: the lengths of all accesses that may block a task are added up.
    AddsLengths,
    /// 34: only the first of the longest accesses is looked at.
    TakesLongest,
    /// 35: all accesses that may block a task are affected at once, for the longest length.
    TakesAllAtOnce,
    /// 36: combined is taken for each access, and the largest of these is the response.
    CombinesPerAccess,
    /// 37: the last of the accesses with the largest figure is explained.
    ExplainsLastOfEquals,
    /// 38: the first access that may block the task is explained.
    ExplainsFirst,
    /// 39: a figure that is beyond is smaller than any number where accesses are compared.
    ExplainsLargestNumber,
    /// 40: B is shown as the task line has it, 0.
    ShowsNoBlocking,
    /// 41: the access's task is the victim where it is equal to an affected one.
    HitsAccessOfEquals,
    /// 42: 15 comes before 7.
    LooksUpNamesFirst,
    /// 43: 16 comes after 3.
    CountsFieldsFirst,
    /// 44: 10 is given for every 33rd line after line 1.
    CountsAllLines,
    /// 45: 3 comes before 10 on a task line after an access line.
    LooksAtOrderFirst,
    /// 46: 15 is given for a ceiling that is the task itself.
    RefusesOwnCeiling,
    /// 47: 9 is given for an access that stands on an earlier line.
    RefusesEqualAccess,
    /// 48: 17 is given only in a table with accesses.
    AllowsBlockingAlone,
    /// 49: a written access has the ceiling's name before the task's.
    WritesCeilingFirst,
    /// 50: a table value is written though a ceiling is below its task.
    OverlooksLowCeiling,
    /// 51: a table value is written though its text is too long.
    OverlooksLength,
    /// 52: a table value is written though a place past its last access is not empty.
    OverlooksPastLastAccess,
    /// 53: the plain equation is looked at before the accesses that may block the task. That shows only
    /// in explanations of what is beyond with and without them.
    LooksAtNothingFirst,
    /// 54: scaled execution times are rounded down.
    RoundsDown,
    /// 55: scaled execution times are rounded to the nearest.
    RoundsToNearest,
    /// 56: scaled execution times are worked out in 32 bits.
    MultipliesIn32Bits,
    /// 57: k goes up to 4,001.
    TriesOneMore,
    /// 58: k goes from 1,000 on, so that a table without a verdict of `yes` has no growth.
    StartsFromWhole,
    /// 59: 1 is told where no k passes.
    TellsOneForNone,
    /// 60: the first k that fails is told.
    TellsFirstFailing,
    /// 61: the lengths of accesses are scaled as well.
    ScalesLengths,
    /// 62: a scaled table passes though its text is too long.
    LetsLongPass,
    /// 63: T and D are scaled as well.
    ScalesPeriods,
    /// 64: a scaled table that is refused counts as `yes`.
    LetsRefusedPass,
    /// 65: the verdict is that of the last task.
    LooksAtLastTask,
    /// 66: the verdict is that of method 0.
    TakesVerdictWithoutCosts,
    /// 67: the combined method's verdict is that of UCB-Union.
    TakesVerdictOfUsefulUnion,
    /// 68: the combined method's verdict is `yes` where that of either union is.
    CombinesVerdicts,
    /// 69: where no k passes, the table scaled by k = 1 is written.
    WritesScaledByOne,
    /// 70: where no k passes, the table scaled by k = 0 is written.
    WritesScaledByNone,
    /// 71: a refusal of the text comes before 12.
    ReadsBeforeMethod,
    /// 72: 14 is given, before all else, where the text itself would not fit.
    LooksForRoomOfText,
    /// 73: a worker starts each search from the answer that its last table had there.
    HandsAnswersOn,
    /// 74 to 77: of the members of a sum one is taken twice and another one not at all.
    TakesOneTwice(Sum),
    /// 78 to 81: a member of a sum is left out.
    LeavesOneOut(Sum),
    /// 82: a worker leaves the end of what it printed last behind a shorter text.
    LeavesLastText,
    /// 83: in method 3 the counts of a set are added up and not capped.
    AddsWithoutCap,
    /// 84: in method 3 each count is capped, and their sum is not. As no count is above the ways, this
    /// gives what 83 does.
    CapsEachAlone,
    /// 85: in method 3 the sum over the tasks is capped before the access's count is added.
    CapsTasksAlone,
    /// 86: in method 1 the size is not multiplied by the ways.
    ForgetsWays,
    /// 87: the first digit of a counted field is that of the lowest set.
    CountsFromLowestSet,
    /// 88: 18 comes before 7.
    LooksAtCountsFirst,
    /// 89: 18 comes after 8.
    LooksAtOrderOfTimesFirst,
    /// 90: 18 comes after 15.
    LooksUpNamesBeforeCounts,
    /// 91: a field in hex is good in a table with counts as well.
    TakesHexFields,
    /// 92: a counted field may have the digits a to f.
    TakesHexDigits,
    /// 93: there may be nine ways.
    TakesNineWays,
    /// 94: a table with counts and one way is written without them.
    ForgetsForm,
    /// 95: the counts of a written table start from the lowest set.
    WritesCountsFromLowestSet,
    /// 96: a table value is written, without the surplus, though a count is above the ways.
    OverlooksHighCounts,
    /// 97: 17 tells the last line with a B above 0.
    TellsLastBlocked,
    /// 98: a line more changes the answers of the tasks above it as well.
    ChangesAbove,
    /// 99: with a line more every task stands where it stood.
    ForgetsToMove,
    /// 100: no answer counts as smaller than any number.
    TakesNoneForLeast,
    /// 101: method 4 is held against method 1.
    HoldsFourAgainstOne,
    /// 102: the task just below a line more keeps its answer.
    TakesNextForAbove,
    /// 103: a task's answer does not depend on its own line.
    LeavesOwnLineOut,
    /// 104: a task's answer does not depend on accesses of which it is the ceiling itself.
    LeavesOwnCeilingOut,
    /// 105: every number from the response up to the limit is `ok`.
    TakesLargerForOk,
    /// 106: `-` is `bad`.
    CallsNoneBad,
    /// 107: a number is held against D, not D - J.
    HoldsBoundAgainstDeadline,
    /// 108: a list may name the tasks in any order.
    PassesAnyOrder,
    /// 109: 20 comes before 19 on a line.
    LooksAtNameFirst,
    /// 110: where a line is missing the last one is told.
    TellsLastForMissing,
    /// 111: the combined method is `bad` where a union says `open` and none says `ok`.
    CombinesToBad,
    /// 112: a number is `ok` only if its demand is smaller.
    WantsSmallerDemand,
    /// 113: a number is `ok` if its demand is no larger for one of the accesses.
    AsksOneAccess,
    /// 114: a number is held against the plain equation, whatever may block the task.
    AsksPlainEquation,
    /// 115: a number may be `open` where a single access may block the task.
    OpensForOneAccess,
    /// 116: with several accesses a number is `open` past the limit as well.
    OpensPastLimit,
    /// 117: a number is never `open`.
    NeverOpens,
    /// 118: the combined method is `ok` only if both unions say so.
    WantsBothUnions,
    /// 119: the last line of a list need not be ended.
    PassesUnended,
    /// 120: 19 on any line comes before 20.
    LooksAtFormsFirst,
    /// 121: 19 comes before 12 and the refusals of the text.
    LooksAtListFirst,
    /// 122: lines after the last task's are not looked at.
    PassesSurplus,
    /// 123: 0 is taken for `-`.
    TakesZeroForNone,
    /// 124: by deadlines, the demand bound has ⌊(t - D) / T⌋ jobs.
    CountsJobTooFew,
    /// 125: by deadlines, the demand bound has to be smaller than the time.
    WantsSmallerBound,
    /// 126: by deadlines, only the first two periods are looked at.
    TakesFirstTwoPeriods,
    /// 127: by deadlines, a task is charged once for each with the same deadline.
    ChargesAtEqualDeadline,
    /// 128: by deadlines, only the first deadline of each task is looked at.
    LooksAtFirstDeadlines,
    /// 129: by deadlines, nothing is charged.
    ChargesNothing,
    /// 130: by deadlines, a task is charged once for each with a smaller deadline.
    ChargesOnce,
    /// 131: by deadlines, a task is charged ⌊(D - D') / T'⌋ times.
    RoundsChargesDown,
    /// 132: by deadlines, what the other task has in the task's ECB is charged.
    ChargesTheOtherWay,
    /// 133: by deadlines, a task is charged for each with a larger deadline.
    ChargesLargerDeadlines,
    /// 134: by deadlines, a set is charged once, whatever it counts.
    CountsSetsForBlocks,
    /// 135: by deadlines, the product of the periods stands for their least common multiple.
    MultipliesPeriods,
    /// 136: by deadlines, 22 comes before 21.
    LooksAtAccessesFirst,
    /// 137: by deadlines, 21 tells the last line with a jitter.
    TellsLastJitter,
    /// 138: by deadlines, 22 tells the last access line.
    TellsLastAccess,
    /// 139: by deadlines, 23 comes before 21 and 22.
    LooksAtPeriodsFirst,
    /// 140: by deadlines, 23 is given for a least common multiple of 250,000,000.
    RefusesLastMultiple,
    /// 141: by deadlines, the least common multiple is cut to 32 bits.
    CutsMultipleTo32Bits,
    /// 142: in a replay, a job is lost where the task's next one comes before its end.
    LosesUnfinished,
    /// 143: in a replay, the lowest task that has work runs.
    RunsLowestFirst,
    /// 144: in a replay, every job is released a tick late.
    ReleasesTickLate,
    /// 145: in a replay, the end is counted from 1, so that it is a tick late.
    CountsEndFromOne,
    /// 146: in a replay, the number of the last tick is told, which is one less than the end.
    TellsLastTick,
    /// 147: in a replay, the first job has up to its period.
    JudgesByPeriod,
    /// 148: in a replay, a job that ends at its deadline is late.
    EndsBeforeDeadline,
    /// 149: in a replay, 24 is given for a deadline of 100,000.
    RefusesLastDeadline,
    /// 150: in a replay, 24 is given for the deadline of any task.
    LooksAtAnyDeadline,
    /// 151: in a replay, 13 comes before 21 and 22.
    LooksAtPositionFirst,
    /// 152: in a replay, 24 comes before 21 and 22.
    LooksAtDeadlineFirst,
    /// 153: in a replay, every task is released once.
    ReleasesOnce,
    /// 154: in a replay, a job that has begun runs up to its end.
    LetsJobsEnd,
}

/// What of the model an error is built into.
#[derive(Clone, Copy, Debug, PartialEq, Eq)]
pub enum Part {
    Reading,
    Answering,
    Explaining,
    Writing,
    Growing,
    /// Taking the members of a sum in any order.
    Summing,
    /// Having one table after another.
    Working,
    /// Saying what holds of two answers.
    Relating,
    /// Holding a list of bounds against the equations.
    Checking,
    /// The verdict where the earliest deadline comes first.
    ByDeadline,
    Replaying,
}

use Part::{
    Answering, ByDeadline, Checking, Explaining, Growing, Reading, Relating, Replaying, Summing,
    Working, Writing,
};

const ERRORS: [(&str, Error, Part); 155] = [
    ("1", Error::StartsFromGuess, Answering),
    ("2", Error::JudgesAtLimit, Answering),
    ("3", Error::CombinesPerPair, Answering),
    ("4", Error::CountsOneMore, Answering),
    ("5", Error::LeavesOutLowest, Answering),
    ("5b", Error::PutsInPreempting, Answering),
    ("6", Error::ForgetsOwnJitter, Answering),
    ("7", Error::ExplainsDearer, Explaining),
    ("8", Error::ExplainsThreeIfEqual, Explaining),
    ("9", Error::ListsOneMore, Explaining),
    ("10", Error::ListsRowAbove, Explaining),
    ("11", Error::EndsAtLimit, Explaining),
    ("12", Error::HitsLastOfEquals, Explaining),
    ("13", Error::ListsAfterBeyond, Explaining),
    ("14", Error::PadsNumbers, Writing),
    ("15", Error::UsesLargeLetters, Writing),
    ("16", Error::StartsFromLowestSets, Writing),
    ("17", Error::TurnsTasksRound, Writing),
    ("18", Error::WritesDeadlineForPeriod, Writing),
    ("19", Error::OverlooksEqualNames, Writing),
    ("20", Error::OverlooksHighMarks, Writing),
    ("21", Error::OverlooksPastEnd, Writing),
    ("22", Error::LooksAtRoomFirst, Writing),
    ("23", Error::BlocksItself, Answering),
    ("24", Error::HoldsCeilingAgainstTask, Answering),
    ("25", Error::WantsCeilingAbove, Answering),
    ("26", Error::PreemptsAtCeiling, Answering),
    ("27", Error::PreemptsBelowCeiling, Answering),
    ("28", Error::LeavesAccessOutOf2, Answering),
    ("29", Error::LeavesAccessOutOf3, Answering),
    ("30", Error::LeavesAccessOutOf4, Answering),
    ("31", Error::TakesSmallest, Answering),
    ("32", Error::PassesOverNone, Answering),
    ("33", Error::AddsLengths, Answering),
    ("34", Error::TakesLongest, Answering),
    ("35", Error::TakesAllAtOnce, Answering),
    ("36", Error::CombinesPerAccess, Answering),
    ("37", Error::ExplainsLastOfEquals, Explaining),
    ("38", Error::ExplainsFirst, Explaining),
    ("39", Error::ExplainsLargestNumber, Explaining),
    ("40", Error::ShowsNoBlocking, Explaining),
    ("41", Error::HitsAccessOfEquals, Explaining),
    ("42", Error::LooksUpNamesFirst, Reading),
    ("43", Error::CountsFieldsFirst, Reading),
    ("44", Error::CountsAllLines, Reading),
    ("45", Error::LooksAtOrderFirst, Reading),
    ("46", Error::RefusesOwnCeiling, Reading),
    ("47", Error::RefusesEqualAccess, Reading),
    ("48", Error::AllowsBlockingAlone, Reading),
    ("49", Error::WritesCeilingFirst, Writing),
    ("50", Error::OverlooksLowCeiling, Writing),
    ("51", Error::OverlooksLength, Writing),
    ("52", Error::OverlooksPastLastAccess, Writing),
    ("53", Error::LooksAtNothingFirst, Explaining),
    ("54", Error::RoundsDown, Growing),
    ("55", Error::RoundsToNearest, Growing),
    ("56", Error::MultipliesIn32Bits, Growing),
    ("57", Error::TriesOneMore, Growing),
    ("58", Error::StartsFromWhole, Growing),
    ("59", Error::TellsOneForNone, Growing),
    ("60", Error::TellsFirstFailing, Growing),
    ("61", Error::ScalesLengths, Growing),
    ("62", Error::LetsLongPass, Growing),
    ("63", Error::ScalesPeriods, Growing),
    ("64", Error::LetsRefusedPass, Growing),
    ("65", Error::LooksAtLastTask, Growing),
    ("66", Error::TakesVerdictWithoutCosts, Growing),
    ("67", Error::TakesVerdictOfUsefulUnion, Growing),
    ("68", Error::CombinesVerdicts, Growing),
    ("69", Error::WritesScaledByOne, Growing),
    ("70", Error::WritesScaledByNone, Growing),
    ("71", Error::ReadsBeforeMethod, Growing),
    ("72", Error::LooksForRoomOfText, Growing),
    ("73", Error::HandsAnswersOn, Working),
    ("74", Error::TakesOneTwice(Sum::Demand), Summing),
    ("75", Error::TakesOneTwice(Sum::UsefulUnion), Summing),
    ("76", Error::TakesOneTwice(Sum::EvictingUnion), Summing),
    ("77", Error::TakesOneTwice(Sum::Largest), Summing),
    ("78", Error::LeavesOneOut(Sum::Demand), Summing),
    ("79", Error::LeavesOneOut(Sum::UsefulUnion), Summing),
    ("80", Error::LeavesOneOut(Sum::EvictingUnion), Summing),
    ("81", Error::LeavesOneOut(Sum::Largest), Summing),
    ("82", Error::LeavesLastText, Working),
    ("83", Error::AddsWithoutCap, Answering),
    ("84", Error::CapsEachAlone, Answering),
    ("85", Error::CapsTasksAlone, Answering),
    ("86", Error::ForgetsWays, Answering),
    ("87", Error::CountsFromLowestSet, Reading),
    ("88", Error::LooksAtCountsFirst, Reading),
    ("89", Error::LooksAtOrderOfTimesFirst, Reading),
    ("90", Error::LooksUpNamesBeforeCounts, Reading),
    ("91", Error::TakesHexFields, Reading),
    ("92", Error::TakesHexDigits, Reading),
    ("93", Error::TakesNineWays, Reading),
    ("94", Error::ForgetsForm, Writing),
    ("95", Error::WritesCountsFromLowestSet, Writing),
    ("96", Error::OverlooksHighCounts, Writing),
    ("97", Error::TellsLastBlocked, Reading),
    ("98", Error::ChangesAbove, Relating),
    ("99", Error::ForgetsToMove, Relating),
    ("100", Error::TakesNoneForLeast, Relating),
    ("101", Error::HoldsFourAgainstOne, Relating),
    ("102", Error::TakesNextForAbove, Relating),
    ("103", Error::LeavesOwnLineOut, Relating),
    ("104", Error::LeavesOwnCeilingOut, Relating),
    ("105", Error::TakesLargerForOk, Checking),
    ("106", Error::CallsNoneBad, Checking),
    ("107", Error::HoldsBoundAgainstDeadline, Checking),
    ("108", Error::PassesAnyOrder, Checking),
    ("109", Error::LooksAtNameFirst, Checking),
    ("110", Error::TellsLastForMissing, Checking),
    ("111", Error::CombinesToBad, Checking),
    ("112", Error::WantsSmallerDemand, Checking),
    ("113", Error::AsksOneAccess, Checking),
    ("114", Error::AsksPlainEquation, Checking),
    ("115", Error::OpensForOneAccess, Checking),
    ("116", Error::OpensPastLimit, Checking),
    ("117", Error::NeverOpens, Checking),
    ("118", Error::WantsBothUnions, Checking),
    ("119", Error::PassesUnended, Checking),
    ("120", Error::LooksAtFormsFirst, Checking),
    ("121", Error::LooksAtListFirst, Checking),
    ("122", Error::PassesSurplus, Checking),
    ("123", Error::TakesZeroForNone, Checking),
    ("124", Error::CountsJobTooFew, ByDeadline),
    ("125", Error::WantsSmallerBound, ByDeadline),
    ("126", Error::TakesFirstTwoPeriods, ByDeadline),
    ("127", Error::ChargesAtEqualDeadline, ByDeadline),
    ("128", Error::LooksAtFirstDeadlines, ByDeadline),
    ("129", Error::ChargesNothing, ByDeadline),
    ("130", Error::ChargesOnce, ByDeadline),
    ("131", Error::RoundsChargesDown, ByDeadline),
    ("132", Error::ChargesTheOtherWay, ByDeadline),
    ("133", Error::ChargesLargerDeadlines, ByDeadline),
    ("134", Error::CountsSetsForBlocks, ByDeadline),
    ("135", Error::MultipliesPeriods, ByDeadline),
    ("136", Error::LooksAtAccessesFirst, ByDeadline),
    ("137", Error::TellsLastJitter, ByDeadline),
    ("138", Error::TellsLastAccess, ByDeadline),
    ("139", Error::LooksAtPeriodsFirst, ByDeadline),
    ("140", Error::RefusesLastMultiple, ByDeadline),
    ("141", Error::CutsMultipleTo32Bits, ByDeadline),
    ("142", Error::LosesUnfinished, Replaying),
    ("143", Error::RunsLowestFirst, Replaying),
    ("144", Error::ReleasesTickLate, Replaying),
    ("145", Error::CountsEndFromOne, Replaying),
    ("146", Error::TellsLastTick, Replaying),
    ("147", Error::JudgesByPeriod, Replaying),
    ("148", Error::EndsBeforeDeadline, Replaying),
    ("149", Error::RefusesLastDeadline, Replaying),
    ("150", Error::LooksAtAnyDeadline, Replaying),
    ("151", Error::LooksAtPositionFirst, Replaying),
    ("152", Error::LooksAtDeadlineFirst, Replaying),
    ("153", Error::ReleasesOnce, Replaying),
    ("154", Error::LetsJobsEnd, Replaying),
];

impl Error {
    pub fn named(name: &str) -> Option<Error> {
        let found = ERRORS.iter().find(|row| row.0 == name);
        found.map(|row| row.1)
    }

    pub fn part(self) -> Part {
        let row = ERRORS.iter().find(|row| row.1 == self);
        row.map_or(Answering, |row| row.2)
    }
}
