//! Wrong turns on purpose: each switch changes one rule. A comparison that
//! does not notice a switch would not notice the mistake either.

#[derive(Clone, Copy, PartialEq, Eq, Debug)]
pub enum Wrong {
    /// The lesser is taken in each minute and not over the segment.
    CapByMinute,
    /// A segment that runs backwards costs what it falls short of 0.
    NoFloor,
    /// What a minute falls short of 0 is not taken from the segment's others.
    FloorByMinute,
    /// A segment that runs backwards is listed as if it had delivered 0.
    DeliveredFloored,
    /// It costs nothing, but its energy counts below 0.
    FloorOnPaymentAlone,
    /// The base load is rounded to a whole kW.
    BaseRounded,
    /// A ramp minute expects as much as a steady one.
    WholeRamp,
    /// Delivery defaults count in P.
    DeliveryInP,
    /// Ramp up outside a window is paid at the optional rate wherever e is.
    RampBeforeWindowOptional,
    /// Ramp down outside a window is paid at the optional rate wherever cease is.
    RampAfterWindowOptional,
    /// The prices of utilisation and optional energy change places.
    GlossaryRates,
    /// Operands stand low byte first.
    LowByteFirst,
    /// A window that starts exactly at f is excluded too.
    ExcludeAtF,
    /// The pre-instruction time (the response) is forgotten when excluding.
    RecoveryAlone,
    /// P has no limit of 30.
    PUnlimited,
    /// P counts defaults, not windows.
    PByDefault,
    /// A window holds its end minute.
    WindowEndInside,
    /// A half is rounded to the smaller number.
    HalfDown,
    /// A half is rounded away from zero.
    HalfAway,
    /// Ramp minutes are taken down to a whole minute (but at least 1).
    RampsDown,
    /// A window may not start where the last one ends.
    TouchingRefused,
    /// The first instruction waits for the recovery too, from minute 0 on.
    RecoveryFromZero,
    /// Every cell but a marked one has a reading when another is entered.
    OnlyMarkEmpty,
    /// A revision is taken where one of its number is held.
    EqualRevisionTaken,
    /// A minute's byte counts as its revision without a reading too.
    EmptyMinuteHolds,
    /// A plain reading leaves its minute's revision as it was.
    PlainKeepsRevision,
    /// How many minutes the memory for revisions holds is not asked.
    RevisionRoomUnasked,
    /// A revised reading is written as a plain one.
    RevisedWrittenPlain,
    /// A rejected window pays like an accepted one.
    RejectedLive,
    /// A line is counted with the minute after its last one.
    LineMinuteLate,
    /// A line is counted before it is complete, as far as it has come.
    LineAtOnce,
    /// The segment's two sums go on through the whole instruction.
    SumsRunOn,
    /// They begin anew with a stage, and not with a period.
    SumsByStage,
    /// They begin anew with a period, and not with a stage.
    SumsByPeriod,
    /// They are zeros as soon as their line is complete.
    SumsGoneWithLine,
    /// The base load shown, and counted from, is that of the instruction before.
    BaseOfLast,
    /// The leap day stands in the year after a leap year.
    LeapYearLate,
    /// Saturdays are taken for Sundays.
    SaturdayForSunday,
    /// The clock changes on the month's first Sunday, not on its last. No row of a
    /// month shows it, since its minutes are the same.
    FirstSunday,
    /// A date changes no span.
    UndatedSpan,
    /// A dated March has all the minutes of its days.
    MarchKeepsItsSpan,
    /// A dated March asks of the memory no more than its minutes.
    ShortMarchMemory,
    /// An October asks of the memory no more than its days.
    OctoberRoomUnasked,
    /// The cells of a gained hour keep what they held.
    GainedHourUnmarked,
    /// Their revisions do.
    GainedRevisionsKept,
    /// A date is taken though another one was.
    SecondDateTaken,
    /// A date is taken though a window was entered.
    DatedAfterWindows,
    /// A date is taken though there is a reading.
    DatedOverReadings,
    /// A reading behind the contract's days keeps a date from being taken.
    ReadingsPastTheSpan,
    /// A date may be that of any day of its month.
    DatedByAnyDay,
    /// A date may be that of a month of other days than the contract's.
    DaysOfAnyMonth,
    /// The writer leaves the date out.
    DateUnwritten,
    /// A holiday of number 0 is every day.
    HolidayOfEveryDay,
    /// Holidays are working days.
    HolidaysUnseen,
    /// Every day of a month without a date is a working day.
    UndatedDaysWorking,
    /// The day behind the month's last one is asked like one of its own.
    DayBehindTheLast,
}

/// The names by which the command line knows the switches.
pub const SWITCHES: [(&str, Wrong); 56] = [
    ("cap-by-minute", Wrong::CapByMinute),
    ("no-floor", Wrong::NoFloor),
    ("floor-by-minute", Wrong::FloorByMinute),
    ("delivered-floored", Wrong::DeliveredFloored),
    ("floor-on-payment-alone", Wrong::FloorOnPaymentAlone),
    ("base-rounded", Wrong::BaseRounded),
    ("whole-ramp", Wrong::WholeRamp),
    ("delivery-in-p", Wrong::DeliveryInP),
    (
        "ramp-before-window-optional",
        Wrong::RampBeforeWindowOptional,
    ),
    ("ramp-after-window-optional", Wrong::RampAfterWindowOptional),
    ("glossary-rates", Wrong::GlossaryRates),
    ("low-byte-first", Wrong::LowByteFirst),
    ("exclude-at-f", Wrong::ExcludeAtF),
    ("recovery-alone", Wrong::RecoveryAlone),
    ("p-unlimited", Wrong::PUnlimited),
    ("p-by-default", Wrong::PByDefault),
    ("window-end-inside", Wrong::WindowEndInside),
    ("half-down", Wrong::HalfDown),
    ("half-away", Wrong::HalfAway),
    ("ramps-down", Wrong::RampsDown),
    ("touching-refused", Wrong::TouchingRefused),
    ("recovery-from-zero", Wrong::RecoveryFromZero),
    ("only-mark-empty", Wrong::OnlyMarkEmpty),
    ("equal-revision-taken", Wrong::EqualRevisionTaken),
    ("empty-minute-holds", Wrong::EmptyMinuteHolds),
    ("plain-keeps-revision", Wrong::PlainKeepsRevision),
    ("revision-room-unasked", Wrong::RevisionRoomUnasked),
    ("revised-written-plain", Wrong::RevisedWrittenPlain),
    ("rejected-live", Wrong::RejectedLive),
    ("line-minute-late", Wrong::LineMinuteLate),
    ("line-at-once", Wrong::LineAtOnce),
    ("sums-run-on", Wrong::SumsRunOn),
    ("sums-by-stage", Wrong::SumsByStage),
    ("sums-by-period", Wrong::SumsByPeriod),
    ("sums-gone-with-line", Wrong::SumsGoneWithLine),
    ("base-of-last", Wrong::BaseOfLast),
    ("leap-year-late", Wrong::LeapYearLate),
    ("saturday-for-sunday", Wrong::SaturdayForSunday),
    ("first-sunday", Wrong::FirstSunday),
    ("undated-span", Wrong::UndatedSpan),
    ("march-keeps-its-span", Wrong::MarchKeepsItsSpan),
    ("short-march-memory", Wrong::ShortMarchMemory),
    ("october-room-unasked", Wrong::OctoberRoomUnasked),
    ("gained-hour-unmarked", Wrong::GainedHourUnmarked),
    ("gained-revisions-kept", Wrong::GainedRevisionsKept),
    ("second-date-taken", Wrong::SecondDateTaken),
    ("dated-after-windows", Wrong::DatedAfterWindows),
    ("dated-over-readings", Wrong::DatedOverReadings),
    ("readings-past-the-span", Wrong::ReadingsPastTheSpan),
    ("dated-by-any-day", Wrong::DatedByAnyDay),
    ("days-of-any-month", Wrong::DaysOfAnyMonth),
    ("date-unwritten", Wrong::DateUnwritten),
    ("holiday-of-every-day", Wrong::HolidayOfEveryDay),
    ("holidays-unseen", Wrong::HolidaysUnseen),
    ("undated-days-working", Wrong::UndatedDaysWorking),
    ("day-behind-the-last", Wrong::DayBehindTheLast),
];

/// The rules to go by: the right ones, or all but one of them.
#[derive(Clone, Copy, PartialEq, Eq, Debug)]
pub struct Switch(pub Option<Wrong>);

impl Switch {
    pub const RIGHT: Switch = Switch(None);

    pub fn named(name: &str) -> Option<Switch> {
        let found = SWITCHES.iter().find(|(known, _)| *known == name)?;
        Some(Switch(Some(found.1)))
    }

    pub fn is(self, wrong: Wrong) -> bool {
        self.0 == Some(wrong)
    }
}
