//! The trip printer, and the wrong printers that the comparison of texts has to catch: as with planners, the right one with one
//! rule broken, and the break stands beside the rule, in `printer.rs`. Only the command `independent trip` makes a wrong one.

use crate::wrong::right_or_wrong;

right_or_wrong! {
    /// A trip printer: the right one, or one with a single fault.
    Printer
    /// What a wrong printer does wrong.
    Wrong

    // The first line's words.
    TenDigits "ten-digits" "a number of ten digits is accepted"
    EightDigits "eight-digits" "a number of nine digits is a text fault"
    ZerosUncounted "zeros-uncounted" "leading zeros do not count among the nine digits"
    NoLeadingZeros "no-leading-zeros" "a leading zero is a text fault"
    EmptyWord "empty-word" "an empty word is 0"
    PlusSign "plus-sign" "a plus sign before a number is accepted"
    ManySpaces "many-spaces" "several spaces count as one, and those at either end as none"
    Tabs "tabs" "a tab counts as a space"
    CarriageReturns "carriage-returns" "a carriage return before a line feed is dropped"
    EightWords "eight-words" "what stands after the seventh word is ignored"
    SixWords "six-words" "a missing allowance is 16,384"
    UnendedFirstLine "unended-first-line" "a first line without a line feed is judged as if it had one"

    // The dash, and the allowance.
    DashIs0 "dash-is-0" "a dash stands for 0"
    DashIs4096 "dash-is-4096" "a dash stands for 4,096"
    DashAnywhere "dash-anywhere" "a dash stands for 1 in any place"
    DashBegins "dash-begins" "any limit that begins with a dash stands for 1"
    Allowance16385 "allowance-16385" "an allowance of 16,385 is accepted"
    AllowanceCut "allowance-cut" "a larger allowance is taken for 16,384"

    // The order of text faults and refusals.
    AllowanceLate "allowance-late" "too large an allowance is found after refusal 1"
    RowsBefore1 "rows-before-1" "the rows' text is tested before refusal 1"
    RefusalsBeforeRows "refusals-before-rows" "refusals 3 and 4 are tested before the rows' text"
    FourBefore3 "4-before-3" "refusal 4 is tested before 3"
    EightBefore3 "8-before-3" "refusal 8 is tested before 3"
    EightBefore4 "8-before-4" "refusal 8 is tested before 4"
    SideOf65 "side-of-65" "a side of 65 is not refused"
    OnGoalFirst "on-goal-first" "a cart on its goal arrives before refusals 4 and 8 are tested"
    BlockedGoal "blocked-goal" "a blocked goal is refused with 8"

    // The rows.
    UnendedLastRow "unended-last-row" "the last row may lack its line feed"
    BytesAfter "bytes-after" "bytes after the last row are ignored"
    EmptyLineAfter "empty-line-after" "an empty line after the last row is accepted"
    FrontOfLong "front-of-long" "of a text over 65,536 bytes only the front is judged"
    LongRows "long-rows" "what a row has past the width is ignored"
    ShortRows "short-rows" "a row that is too short ends in open cells"
    MissingRows "missing-rows" "rows that are missing are open"
    OtherBytes "other-bytes" "any byte but a line feed is an open cell in a row, unless it is a blocked one"

    // The walk.
    SpentFirst "spent-first" "the allowance is looked at before the goal"
    HigherCell "higher-cell" "last ties go to the higher cell number"

    // What is printed.
    CutOffLeg "cut-off-leg" "a cut-off leg has no line"
    LegsFrom0 "legs-from-0" "legs are numbered from 0"
    MovesSoFar "moves-so-far" "a leg's line has the moves of the walk so far"
    CellBefore "cell-before" "a leg's line has the cell before it"
    TotalsExchanged "totals-exchanged" "the end's moves and cells opened are exchanged"
    NoLegNoEnd "no-leg-no-end" "without a leg there is no end line"
    CutOffOneWord "cut-off-one-word" "the ending is printed as cut-off"
    PreparedEstimates "prepared-estimates" "the estimates are those before the walk"
    SpaceAtEnd "space-at-end" "a space ends the estimates line"
    LastLineUnended "last-line-unended" "no line feed ends the estimates line"
    RefusalStatus "refusal-status" "a refused trip ends the program with another status than 0"
}
