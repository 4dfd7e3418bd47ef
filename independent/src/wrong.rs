//! The planner, and the wrong planners that the comparison has to catch.
//!
//! A wrong planner is the right one with one rule broken. The break stands beside the rule, as a test of `Planner::is`, so that
//! each fault can be read where it would be made; those of the C interface itself stand in `stub.rs`. Only the stub ever makes
//! a wrong planner.

/// Declares what is right or has a single fault, the enum of its faults, and `ALL` of them, each with its name and a few words.
macro_rules! right_or_wrong {
    ($(#[$of_it:meta])* $it:ident $(#[$of_wrong:meta])* $wrong:ident $($fault:ident $name:literal $words:literal)*) => {
        $(#[$of_it])*
        #[derive(Clone, Copy, Debug)]
        pub struct $it {
            wrong: Option<$wrong>,
        }

        impl $it {
            /// The one of document 01.
            pub fn right() -> $it {
                $it { wrong: None }
            }

            /// The one of this name, `nothing` being the right one; none if there is no such name.
            pub fn named(name: &str) -> Option<$it> {
                if name == "nothing" {
                    return Some($it::right());
                }
                let entry = ALL.iter().find(|entry| entry.1 == name)?;
                Some($it { wrong: Some(entry.0) })
            }

            pub(crate) fn is(&self, wrong: $wrong) -> bool {
                self.wrong == Some(wrong)
            }
        }

        $(#[$of_wrong])*
        #[derive(Clone, Copy, PartialEq, Eq, Debug)]
        pub enum $wrong { $($fault,)* }

        /// Every fault with its name and a few words.
        pub const ALL: &[($wrong, &str, &str)] = &[$(($wrong::$fault, $name, $words),)*];
    };
}
pub(crate) use right_or_wrong;

right_or_wrong! {
    /// A planner: the right one, or one with a single fault.
    Planner
    /// What a wrong planner does wrong.
    Wrong

    // Choosing the next cell.
    SmallerG "smaller-g" "among equal sums it takes the smaller g"
    HigherCell "higher-cell" "last ties go to the higher cell number"
    SumAlone "sum-alone" "ties go to the cell that joined the frontier first"
    EqualGJoins "equal-g-joins" "a neighbour whose g would stay equal gets the new parent and joins"
    GNeverFalls "g-never-falls" "a neighbour that has a g keeps it, though the new one is smaller"
    OpensOneMore "opens-one-more" "it opens one cell more than the lookahead"
    StopsAtJoin "stops-at-join" "easy error 5: stops when the goal joins the frontier"
    UsedUpBeforeEmpty "used-up-before-empty" "lookahead used up with an empty frontier: the last opened cell is the target"
    RowsWrap "rows-wrap" "the end of a row adjoins the start of the next"

    // Sensing, and the look ahead.
    SensesAhead "senses-ahead" "easy error 4: after a move it senses only the next cell of the route"
    NotAfterLastMove "not-after-last-move" "it does not sense after the last move"
    SensesOnGoal "senses-on-goal" "step a senses"
    NoSensingFirst "no-sensing-first" "it does not sense before the search"
    NoLook "no-look" "it does not look ahead, and moves onto cells now known blocked"

    // The update of estimates.
    RaisesFrontier "raises-frontier" "easy error 2: frontier cells are updated too"
    LastOpenedSum "last-opened-sum" "easy error 3: it updates from the last opened cell's sum"
    NeverUpdates "never-updates" "no estimate changes"
    RaisesTarget "raises-target" "the target's estimate rises by one"
    UpdatesAtCutOff "updates-at-cut-off" "a cut-off leg with a target updates too"

    // Cut off.
    CutOffAtBound "cut-off-at-bound" "F = N-1 is cut off"
    UsedUpIsCutOff "used-up-is-cut-off" "easy error 1: a used-up lookahead is cut off"
    NoBound "no-bound" "F above N-1 goes on"
    CutOffForgets "cut-off-forgets" "what a cut-off leg sensed is taken back"

    // Counts.
    TargetOpened "target-opened" "the target counts as opened"
    MoveMore "move-more" "a leg that moves counts one move more"
    PastLimit "past-limit" "one move more than the limit"
    LegOnGoal "leg-on-goal" "a leg on the goal counts as one that searched"
    CutOffNoLeg "cut-off-no-leg" "a cut-off leg is not counted"
    CutOffNotOpened "cut-off-not-opened" "cells opened in a cut-off leg are not counted"

    // The trail.
    TrailFromCart "trail-from-cart" "the trail begins with the cart's first cell"
    TrailPastMoves "trail-past-moves" "the whole route is written, also past the moves made"
    TrailRestarts "trail-restarts" "each leg of a walk writes from the trail's first entry"

    // The order of refusals, and what they test.
    TwoBeforeOne "2-before-1" "refusal 2 is tested before 1"
    ThreeBeforeOne "3-before-1" "refusal 3 is tested before 1"
    ThreeBeforeTwo "3-before-2" "refusal 3 is tested before 2"
    FourBeforeThree "4-before-3" "refusal 4 is tested before 3"
    FiveBeforeFour "5-before-4" "refusal 5 is tested before 4"
    SixBeforeFive "6-before-5" "refusal 6 is tested before 5"
    SevenBeforeSix "7-before-6" "refusal 7 is tested before 6"
    EightBeforeSeven "8-before-7" "refusal 8 is tested before 7"
    NineBeforeEight "9-before-8" "refusal 9 is tested before 8"
    GoalFirst "goal-first" "a cart on its goal arrives before 4 to 9 are tested"
    NotPlanBytes "not-plan-bytes" "bytes above 1 in the plan are accepted"
    LongMaps "long-maps" "estimates that are too long are accepted"
    BlockedGoalRefused "blocked-goal-refused" "a blocked goal is refused with 8"
    SideOf65 "side-of-65" "a side of 65 is accepted"
    Lookahead4097 "lookahead-4097" "a lookahead of 4,097 is accepted"

    // Soundness.
    SoundAfterSensing "sound-after-sensing" "soundness is tested after sensing"
    SoundWithBlocked "sound-with-blocked" "known blocked cells count in the pairs"
    SoundByPlan "sound-by-plan" "cells blocked in the plan are left out of the pairs"
    SoundOneWay "sound-one-way" "an estimate may rise by any amount rightwards and downwards"
    SoundRowsOnly "sound-rows-only" "only pairs in one row are tested"
    GoalNotZero "goal-not-zero" "the goal's estimate may be any"
    BlockedUnbounded "blocked-unbounded" "a known blocked cell's estimate may pass N-1"
    EstimateN "estimate-n" "an estimate of N is accepted"
    NotSound "not-sound" "soundness is not tested"

    // The walk.
    LimitUncut "limit-uncut" "a leg gets the move limit even where fewer moves are left"
    SpentFirst "spent-first" "allowance is looked at before the goal"
    WalkTrailLimit "walk-trail-limit" "refusal 5 of a walk tests the move limit"
    LimitCutFirst "limit-cut-first" "refusal 4 of a walk tests the smaller of limit and allowance"
    PreparesAgain "prepares-again" "a walk prepares its estimates again"

    // The host's cart record.
    TotalsWrap "totals-wrap" "running totals start again from 0"
    TotalsReplaced "totals-replaced" "running totals hold the last leg only"

    // Trip records.
    SerialNoWrap "serial-no-wrap" "no serial follows 65,535"
    FirstSerialZero "first-serial-zero" "the first serial has to be 0"
    SerialsFirst "serials-first" "over the whole file 12 comes before 11"
    ZerosUntested "zeros-untested" "the zero bytes may hold anything"
    EndingRuleDropped "ending-rule-dropped" "ending 1 and last cell need not agree"
    UnderWayWritten "under-way-written" "ending 4 is accepted in a record"
    MovesUnbounded "moves-unbounded" "moves may be any"
    StartUntested "start-untested" "start may be any"
    LimitUntested "limit-untested" "a record's limit may be any"
    Required127 "required-127" "a required figure of 127 is accepted"
    ReadsPastEnd "reads-past-end" "a number past the end reads a record of zeros"
    NumberFirst "number-first" "a number past the end is refused before the file is tested"
    HighByteFirst "high-byte-first" "moves are written high byte first"

    // The C interface.
    SidesOf16Bits "sides-of-16-bits" "width and height are cut to 16 bits"
    SidesOf32Bits "sides-of-32-bits" "width and height are cut to 32 bits"
    CellsOf16Bits "cells-of-16-bits" "cart, start and goal are cut to 16 bits"
    SettingsOf32Bits "settings-of-32-bits" "lookahead, limit and allowance are cut to 32 bits"
    NumberOf32Bits "number-of-32-bits" "a record number is cut to 32 bits"
    SettingsSwapped "settings-swapped" "a lookahead is taken for a move limit, and a move limit for a lookahead"
    WritesBehind "writes-behind" "a byte behind the estimates is written"
    WritesBehindTrail "writes-behind-trail" "a byte behind the trail is written"
    WritesBehindRoom "writes-behind-room" "a byte behind a record's room is written"
    WritesBeforeResult "writes-before-result" "a byte before the result is written"
    WritesBefore "writes-before" "a byte before the known map is written"
    ReadsBehind "reads-behind" "a byte behind the plan is read"
    WritesPlan "writes-plan" "the plan, lent for reading, is written with its own value"
    RefusalChanges "refusal-changes" "a refused leg changes the known map"
    RefusalUnanswered "refusal-unanswered" "a refusal leaves the result as it was"
    CartNotGivenBack "cart-not-given-back" "a refusal answers 0 for the cart"
    Hangs "hangs" "a leg with lookahead 4,096 never returns"
    Dies "dies" "a leg with lookahead 4,096 ends the program"

    // Document 01's five useless planners.
    RefusesAlways "refuses-always" "useless: refuses always"
    ConstantEnding "constant-ending" "useless: each leg and walk arrives"
    NeverWrites "never-writes" "useless: writes nothing into lent maps, estimates and trails"
    Coasts "coasts" "useless: plans the first leg of a walk, and then follows the least estimate"
    InventsCounts "invents-counts" "useless: as opened it gives the moves, and the moves as opened"
}
