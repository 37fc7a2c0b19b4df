//! The wilful faults, one at a time.

use std::sync::atomic::{AtomicU16, Ordering};

macro_rules! faults {
    ($($fault:ident)*) => {
        /// A fault of the stand-in.
        #[derive(Clone, Copy, Debug, PartialEq, Eq)]
        #[repr(u16)]
        pub enum Fault { None, $($fault,)* }

        impl Fault {
            /// Every fault.
            pub const ALL: &'static [Fault] = &[$(Fault::$fault,)*];

            /// Does it show in `why` and its program only?
            pub fn is_of_why(self) -> bool {
                format!("{self:?}").starts_with("Why")
            }
        }
    };
}

faults! {
    // Sizes and refusals.
    RowsBeforeColumns
    LengthsBeforeLimits
    RoundsAfterLengths
    RightHandSideBeforeMatrix
    OutputBeforeRightHandSide
    FewRowsAfterWorkspace
    FewRowsAccepted
    ColumnLimitOneMore
    RowLimitOneMore
    RowLimitOneLess
    QrRowLimitOfFits
    RoundLimitOneMore
    RoundLimitOneLess
    LongerMatrixAccepted
    BetasLengthIgnored
    WorkspaceOneShortAccepted
    WorkspaceMustBeExact
    WorkspaceFormulaOneMore
    WorkspaceOldFigure
    WorkspaceFormulaBeyondLimits
    // What slices hold afterwards.
    WorkspaceNotCleared
    WorkspaceNotClearedAfterRefusal
    WorkspaceNotClearedWithoutData
    WorkspaceNotClearedAtFirstRefused
    WorkspaceClearedPastNeed
    WorkspaceClearedOneShort
    WorkspaceClearedToMinusZero
    WorkspaceClearedWhenShort
    OutputClearedWhenRefused
    ReportWrittenWhenRefused
    WrittenPastTheEnd
    ReadOnlyMatrixWritten
    JunkReadFromOutput
    // Root and magnitude.
    RootTruncated
    RootOfMinusZero
    RootOfNegatives
    RootOfSubnormals
    RootNanOtherBits
    MagnitudeOfMinusZero
    MagnitudeOfNanUnsigned
    // Builders.
    JtjFromMinusZero
    JtjLambdaTwice
    JtjLambdaFirst
    JtjNotMirrored
    JtrFromMinusZero
    JtjFused
    JtjLastPageSkipped
    JtjPagesSummedApart
    JtjRowsFromLast
    JtjRemainderLeftOut
    JtjDiagonalLeftOut
    JtjWrongHalfMirrored
    MarquardtLessOrEqual
    MarquardtNeverAlone
    MarquardtAlwaysAlone
    MarquardtTwice
    // Cholesky.
    CholeskyNanRefused
    CholeskyLessOnly
    CholeskyNoScale
    CholeskyNanInScale
    CholeskyScaleSigned
    CholeskyRefusedColumnWritten
    CholeskyUpperMirrored
    CholeskyRightHandSideLost
    // LU.
    PivotLastGreatest
    PivotNanTaken
    PivotNone
    PivotLessOrEqual
    SwapRightPartOnly
    SwapWithoutRightHandSide
    LuBackTestsDiagonal
    LuOnOverwritten
    LuFactorsNotKept
    // The inverse.
    InverseOutputClearedAtEight
    InverseWorkspaceLeftAtEight
    InverseColumnAsRow
    InverseUpperMirrored
    InverseUnitElsewhere
    InverseOutputBeforeMatrix
    InverseWorkspaceBeforeOutput
    InverseWorkspaceOfNormal
    // QR.
    QrShareFromZero
    QtShareFromZero
    QrMinusZeroNegative
    QrSkipNan
    QrSkipLessOrEqual
    QrNoSkip
    QrShareOtherOrder
    QtShareOtherOrder
    QrBetaOtherOrder
    QrColumnItselfLeft
    QrDividedByNorm
    QtLeavesLast
    BackLessOrEqual
    BackNoTest
    BackFromFirst
    BackOutputTouched
    // The column of a refusal.
    ColumnNotTold
    ColumnFromOne
    ColumnToldWhenAccepted
    ColumnToldWhenRefusedBySize
    ColumnIsPivotRow
    ColumnOfCholesky
    ColumnFirstFromAbove
    // The fits.
    LookStrict
    LookKeepsNan
    LastPassLessOrEqual
    LastPassKeepsSign
    LastPassMissing
    ScatterByPlace
    LastSupportNotKept
    LastSupportStartsFull
    RefusedRefitNotCounted
    RefusedRefitKeepsValues
    EmptyKeepsValues
    OneRoundMore
    OneRoundLess
    SettledTestedFirst
    LastLookMissing
    LastLookWithoutRefit
    LastLookTakesSmaller
    LastLookEmpties
    LastLookClears
    StopsSwapped
    KeptFromLastSupport
    KeptNotBelowColumns
    RefitsInvented
    FitsOnce
    LambdaNotRooted
    LambdaOnlyAtFirst
    MarquardtOnlyAtFirst
    MarquardtNotAtFirst
    KeptDamped
    BlockByPlace
    ProductsByPlace
    ProductsOverwritten
    ProductsByFirstTargets
    OldValuesStay
    TermIsPlace
    TermIsPlaceByQr
    TermNotToldAtFirst
    TermNotToldAtRefit
    TermAtEveryStop
    RefusesAll
    AlwaysZeros
    WritesNothing
    // The leftover error.
    ErrorOfAllTerms
    ErrorCountsNan
    ErrorSkipsZeros
    ErrorColumnByPlace
    ErrorCoefficientByPlace
    ErrorTermsFromLast
    ErrorProductsInTurn
    ErrorFused
    ErrorByFirstTargets
    ErrorRowsFromLast
    ErrorPagesSummedApart
    ErrorFromMinusZero
    ErrorZeroWhenRefused
    ErrorZeroWithoutData
    ErrorWrittenWhenRefused
    ErrorNotWritten
    // Theta by columns.
    LayoutReadByRows
    LayoutStrideOfColumns
    LayoutLastColumnLeft
    LayoutLastRowLeft
    LayoutFirstPageOnly
    LayoutFirstPageAgain
    LayoutLastPageLeft
    LayoutOnlySquare
    LayoutNotSquare
    LayoutProductsByRows
    LayoutRefitByPlace
    LayoutErrorByRows
    LayoutErrorByPlace
    LayoutMarquardtByRows
    LayoutMatrixSquare
    LayoutTargetOfColumns
    LayoutWorkspaceWithCopy
    // The frames.
    FrameLowDigitFirst
    FrameRowsBeforeColumns
    FrameRoundsBeforeRows
    FrameLimitsBeforeHeader
    FrameLastNewlineMissing
    FrameNanOtherBits
    FrameKeptShort
    FrameTermMissing
    FrameTermDecimal
    FrameTermBeforeKept
    FrameErrorMissing
    FrameErrorBeforeTerm
    FrameErrorNanOtherBits
    FrameUpperAccepted
    FrameCrlfAccepted
    FrameTailAccepted
    FrameThirdMissing
    FrameFourthSolver
    FrameNoColumnsNoRows
    FrameColumnLimit
    FrameRowLimit
    FrameRefusalDecimal
    FrameColumnsAsRows
    FrameColumnsTenth
    FrameColumnsShort
    FrameColumnsTransposed
    FrameTargetsLast
    FrameNoRowsNoLines
    FrameNoColumnsNoTargets
    // Why: its refusals, its causes, what it writes, its program.
    WhyCodeLast
    WhyCodeCut
    WhyCodeTen
    WhyCodeFourteen
    WhyColumnsAsRows
    WhySolverIgnored
    WhyThresholdZero
    WhyThresholdNan
    WhyInfinityRefused
    WhyThresholdFirst
    WhyThresholdAfterLengths
    WhyTermBeforeThreshold
    WhyTermAfterLengths
    WhyTermOneMore
    WhyTermOfLimit
    WhyTermCut
    WhyFirstRefusedCleared
    WhyAllCleared
    WhyLookCleared
    WhyLastLookDrops
    WhyRefitOneLess
    WhyEmptyRefit
    WhyLastRefit
    WhyRefitAlways
    WhyPlaceForTerm
    WhyFinalValue
    WhyClearedValue
    WhyMagnitude
    WhyZeroUnsigned
    WhyZeroKept
    WhyZeroedKept
    WhyZeroedFinal
    WhyNanZeroed
    WhyWrittenWhenRefused
    WhyCauseTooLong
    WhyCoeffsBeforeLastPass
    WhyWorkspaceLeft
    WhyFrameThresholdAfterRows
    WhyFrameThresholdBeforeLimits
    WhyFrameNoColumnsLine
    WhyFrameReportFirst
    WhyFrameKeptLeftOut
    WhyFrameRefitShort
    WhyFrameValueFirst
    WhyFrameNanOtherBits
    WhyFrameRefusalDecimal
    WhyFrameColumnsMissing
}

static CURRENT: AtomicU16 = AtomicU16::new(0);

/// Take a fault on, and leave the one before.
pub fn set(fault: Fault) {
    CURRENT.store(fault as u16, Ordering::Relaxed);
}

/// Take on the fault that `DAPMOTAR_FAULT` names, none if it is not set.
pub fn set_from_env() {
    let Ok(name) = std::env::var("DAPMOTAR_FAULT") else {
        return;
    };
    let named = Fault::ALL.iter().find(|fault| format!("{fault:?}") == name);
    set(*named.unwrap_or_else(|| panic!("no fault {name}; there are {:?}", Fault::ALL)));
}

/// Is this the fault taken on?
pub fn is(fault: Fault) -> bool {
    CURRENT.load(Ordering::Relaxed) == fault as u16
}

/// The second value under the fault, else the first.
pub fn or<T>(right: T, fault: Fault, wrong: T) -> T {
    if is(fault) { wrong } else { right }
}
