//! Switches that make the same engine wrong in one named way. docs/FAULTS.md is the list of them, made from this file.

macro_rules! faults {
    ($($group:literal { $($(#[doc = $doc:literal])+ $name:ident),* $(,)? })*) => {
        /// One fault. `None` is the right engine.
        #[derive(Clone, Copy, Debug, PartialEq, Eq)]
        pub enum Fault {
            /// No fault.
            None,
            $($($(#[doc = $doc])+ $name,)*)*
        }

        /// All faults, without `None`.
        pub const FAULTS: &[Fault] = &[$($(Fault::$name,)*)*];

        /// The faults by groups: a heading, and each fault with what it makes wrong, which is its doc comment.
        pub const GROUPS: &[(&str, &[(Fault, &str)])] =
            &[$(($group, &[$((Fault::$name, concat!($($doc),+))),*])),*];
    };
}

faults! {
    "Errors that 01 names" {
        /// Enter with next recorded at one of its ends, whichever.
        OneEndEnough,
        /// Clear frees the front at the far box too.
        ClearFreesFarEnd,
        /// The holding is recorded when the request is sent.
        RecordedWhenSent,
        /// The holding is recorded when the box grants it.
        RecordedWhenGranted,
        /// The lock is freed when the front has passed.
        LockFreedAtEnter,
        /// Reader: a branch on the stem's side is accepted.
        BranchOnStemSide,
    }
    "Programs that 01 names" {
        /// No move is ever accepted.
        EveryTrainStands,
        /// The boxes always say no.
        BoxesAlwaysNo,
        /// The box grants at sending; its answer is a show.
        GrantAtSending,
        /// 22 at odd boxes where nobody holds the segment.
        No22WithoutHolder,
        /// 24 at odd boxes where nobody holds the lock.
        No24WithoutHolder,
        /// Every step is answered 0, with the right effect.
        OneCodeAccepts,
        /// Every step is answered 13, with no effect.
        OneCodeRefuses,
        /// Reader: every table is turned away.
        ReaderRefusesAll,
        /// Clear makes the train single and frees nothing.
        ClearFreesNothing,
    }
    "Start" {
        /// The first segment is not reserved at the box ahead.
        StartUnreserved,
        /// The first segment is reserved at the box behind as well.
        StartReservesBehind,
    }
    "Steps and requests" {
        /// A box byte in kinds 3 to 6 is not looked at.
        BoxByteIgnored,
        /// 14 is looked at before 13.
        TrainBeforeKind,
        /// A new request replaces an open message.
        OpenMessageIgnored,
        /// 16 is looked at before 15.
        NextBeforeMessage,
        /// A crossing train may not ask.
        CrossingMayNotAsk,
        /// 18 is looked at before 16 and 17.
        RecordedBeforePlace,
        /// What is recorded may be asked for again.
        AskedAgain,
    }
    "Answers" {
        /// A box answers an answered message once more.
        AnswersAgain,
        /// A reservation is given whoever holds it.
        ReservationTakenOver,
        /// 22 also where the train itself holds the segment.
        OwnSegmentRefused,
        /// 23 is not looked at: a lock is given though the sensor is active.
        SensorNotAsked,
        /// A lock is given though another holds it.
        LockTakenOver,
        /// 23 is looked at before 24.
        SensorBeforeLock,
        /// 25 is looked at before 24 and 23.
        ReservationsFirst,
        /// 25 is looked at before 23, after 24.
        ReservationsBeforeSensor,
        /// A lock is given without reservations.
        LockNeedsNoReservation,
        /// A lock is given without the front reserved.
        LockNeedsNextOnly,
        /// A lock is given without next reserved.
        LockNeedsFrontOnly,
        /// A lock is always given.
        LockAlwaysGiven,
        /// A reservation is set at both ends of next.
        ReservesBothEnds,
        /// The lock leaves the position as it was.
        PositionNotSet,
        /// The lock sets the other position.
        PositionTurned,
        /// The lock looks for next alone: right branch 2, else 1.
        PositionByNextOnly,
        /// The position is set at Enter, not with the lock.
        PositionSetAtEnter,
    }
    "Hearing" {
        /// The holding is recorded at the grant; hearing only ends the message.
        GrantIsHearing,
        /// A no ends the message at once, there is nothing to hear.
        NoNeedsNoHearing,
        /// A message not answered yet is heard as a yes.
        HearsUnanswered,
        /// A no is recorded as a holding.
        NoHeardAsYes,
        /// A no that was heard leaves the message open.
        NoStaysOpen,
        /// Hearing a no gives 0, not its code.
        NoHeardIsZero,
    }
    "Moves" {
        /// Enter with next recorded at the box ahead alone.
        NearEndEnough,
        /// Enter at a point without the lock.
        PointNeedsNoLock,
        /// Enter at a link needs a lock.
        LinkNeedsLock,
        /// Enter is accepted while crossing.
        EnterWhileCrossing,
        /// 16 is looked at before 20 at Enter.
        NextBeforeCrossing,
        /// A train with an open message may not move (15).
        OpenMessageHoldsTrain,
        /// Enter leaves the sensor passive.
        SensorStaysPassive,
        /// Clear leaves the lock.
        ClearKeepsLock,
        /// Clear frees the tail at the box passed, not the front.
        ClearFreesTailOnly,
        /// Clear frees all three reservations of the box passed.
        ClearFreesWholeBox,
        /// Clear leaves the train's records (no step can tell).
        RecordsKept,
    }
    "Giving back" {
        /// Kinds 7 and 8 have a box byte of 0; any other is 13.
        BackTakesNoBox,
        /// 15 is not asked of a give-back: it replaces an open message.
        BackWhileOpen,
        /// The lock's give-back does not ask 17: another box and a link are let through.
        LockBackAnywhere,
        /// 29 is looked at before 17.
        NothingBeforePlace,
        /// 18 in the place of 29.
        NothingToGiveIs18,
        /// 29 is looked at both ends of next together: one recorded is enough for either.
        EitherEndToGive,
        /// The train drops its record only when it hears the answer.
        DroppedWhenHeard,
        /// Giving back one end of next drops the record of the other too.
        DropsBothEnds,
        /// The box frees when the give-back is sent; its answer is a show.
        FreedAtSending,
        /// The box says yes and frees nothing.
        BackNeverFrees,
        /// The box says no (22, 24) where it does not hold it for this train.
        BackMayBeRefused,
        /// The box frees whoever holds it.
        BackFreesAnyone,
        /// Giving back a reservation frees the front there too.
        BackFreesFront,
        /// Giving back a reservation frees next at both ends.
        BackFreesBothEnds,
        /// Giving back a reservation frees the lock of the box too.
        BackFreesLock,
        /// Giving back the lock frees front and next there too.
        LockBackFreesSegments,
        /// Giving back the lock turns the point to its position at the start.
        LockBackTurnsPoint,
        /// A yes to a give-back is recorded as a holding.
        BackHeardAsHolding,
    }
    "Lost and sent again" {
        /// A lost message lets the train ask or give back anew: 15 is not asked.
        LostLetsAsk,
        /// A loss takes the request along: no message is open after it.
        LossForgets,
        /// A yes that is lost counts as heard.
        LostYesHeard,
        /// A no that is lost stays: sent again, it is the answer, and the box is not asked.
        LostNoStays,
        /// A give-back that is lost puts the train's record back.
        LossPutsRecordBack,
        /// A box answers a lost message.
        LostAnswered,
        /// Kind 9 is accepted on a lost message.
        LostLosesAgain,
        /// Kind 10 is accepted while the message is under way, sent or answered: it is sent once more.
        RepeatUnderWay,
        /// A box byte in kinds 9 and 10 is not looked at.
        RadioTakesBox,
        /// 30 is looked at before 14.
        NothingLostBeforeTrain,
        /// 22 to 25 are looked at before what is granted already.
        RowsBeforeGranted,
        /// 24 also where the train itself has the lock.
        OwnLockRefused,
        /// A yes to a lock that the train has already sets the position again.
        RepeatSetsPosition,
    }
    "One-way segments" {
        /// 31 is asked at the near end of next alone.
        WayAtNearEndOnly,
        /// 31 is asked at the far end of next alone.
        WayAtFarEndOnly,
        /// 31 takes A to B for B to A, and B to A for A to B.
        WaysSwapped,
        /// 22 is looked at before 31.
        HolderBeforeWay,
        /// 31 is looked at before what is granted already.
        WayBeforeGranted,
        /// 31 is asked of a lock too, before 24.
        LockAsksWay,
        /// 31 stops a reservation when it is sent; no box answers it.
        WayRefusedAtSending,
    }
    "Demand 3" {
        /// The order has a give-back where it is sent, not where it is answered.
        BackOrderedWhenSent,
        /// The order has no give-backs.
        BackNotOrdered,
        /// The order has a request or a give-back at each yes, not at the first one alone.
        RepeatOrderedAgain,
        /// The order has nothing that is granted after it was sent again.
        RepeatNotOrdered,
    }
    "Reader" {
        /// Loops are accepted.
        LoopTaken,
        /// Bytes after the last record are accepted.
        TrailingBytesTaken,
        /// Two trains with one first segment are accepted.
        SameFirstTaken,
        /// Routes may jump: 28 is not looked at.
        BrokenRouteTaken,
        /// Routes are checked in direction 0 only.
        RouteDirectionIgnored,
        /// A segment end whose box does not list it is accepted.
        UnlistedEndTaken,
        /// The stem side of box 1 is kept for all boxes.
        StemSideOfBoxOne,
        /// The stem side is kept as A where it is B, and as B where it is A.
        StemSidesSwapped,
        /// A stem with neither end at its box is kept as one with its A end there.
        NeitherSideIsA,
        /// 10, 11 and 28 are looked at train by train.
        TrainByTrain,
        /// 12 is looked at before the search for 11 and 28.
        FirstBeforeRoute,
        /// 9 is looked at before 8.
        LoopBeforeListing,
        /// A route length outside 1 to 64 is looked at before the file length.
        RouteLengthBeforeFileLength,
    }
    "One-way segments in a file" {
        /// A version 2 file is read with segment records of two bytes: code 5 has 2n in the place of 3n.
        WaysNotCounted,
        /// A direction byte above 2 is accepted.
        WayAboveTwoTaken,
        /// Version 3 is read as version 2.
        VersionThreeTaken,
        /// 32 is asked of train 1 alone.
        StartWayOfTrainOne,
        /// 32 is looked at before 12.
        StartWayBeforeFirsts,
        /// 32 is asked of every segment of a route.
        StartWayOfRoute,
        /// 32 takes A to B for B to A, and B to A for A to B.
        StartWaysSwapped,
    }
    "Writer" {
        /// The direction bytes are not written back: each is written as 0.
        WaysNotWritten,
    }
    "Train and place of a refused route" {
        /// 28 is looked for in all trains before 11 in any.
        JumpsOfAllFirst,
        /// 11 is looked for in all trains before 28 in any.
        NumbersOfAllFirst,
        /// At one place 28 is looked at before 11.
        JumpBeforeNumber,
        /// The route of the last train is not searched.
        LastTrainNotSearched,
        /// Trains are counted from 0.
        TrainsFromZero,
        /// Places on a route are counted from 0.
        PlacesFromZero,
        /// 28 is told at the place before, of the segment that is not followed.
        JumpAtPlaceBefore,
        /// 10 tells its train too.
        ShapeTellsTrain,
    }
    "Line record" {
        /// 27 does not ask 28 of a route as it stands.
        RouteInForceMayJump,
        /// 27 does not ask 28 of the table part.
        TableMayJump,
        /// 27 takes the codes of a request (22 and 31; 23 to 25) for the answer to a give-back.
        BackCodesOfRequests,
        /// 27 does not ask 16 and 17 of a give-back.
        BackMessageAnywhere,
        /// 27 does not take 23 for the answer to a lock.
        SensorAnswerRefused,
        /// 27 does not look at lost messages.
        LostNotInRecord,
        /// A direction in a version 1 record is accepted.
        VersionOneHasWays,
        /// 27 does not ask 32 of the table part.
        TableMayStartAgainst,
        /// 27 asks 32 of the route as it stands too.
        RouteInForceAsksWay,
        /// 27 does not take 31 for the answer to a reservation.
        WayAnswerRefused,
        /// 27 takes 31 for the answer to a lock or a give-back too.
        WayAnswerToAll,
    }
}

impl Fault {
    /// Whether the fault is in the reader.
    pub fn in_reader(self) -> bool {
        let listed = |heading| self.listed_under(heading);
        matches!(self, Fault::BranchOnStemSide | Fault::ReaderRefusesAll)
            || listed("Reader")
            || listed("One-way segments in a file")
            || listed("Train and place of a refused route")
    }

    /// Whether the fault is in the writer.
    pub fn in_writer(self) -> bool {
        self.listed_under("Writer")
    }

    /// Whether the group with this heading has the fault.
    fn listed_under(self, heading: &str) -> bool {
        let has = |faults: &[(Fault, &str)]| faults.iter().any(|&(fault, _)| fault == self);
        GROUPS.iter().any(|&(group, faults)| group == heading && has(faults))
    }

    /// Whether the fault is in the check of a line record.
    pub fn in_record(self) -> bool {
        self.listed_under("Line record")
    }

    /// Whether the fault is in what demand 3 says, with all steps right.
    pub fn in_demand(self) -> bool {
        self.listed_under("Demand 3")
    }

    /// Whether the fault is in the start or in the steps.
    pub fn in_steps(self) -> bool {
        !self.in_reader() && !self.in_writer() && !self.in_record() && !self.in_demand()
    }
}

/// The text of docs/FAULTS.md.
pub fn page() -> String {
    let mut page = String::from(PAGE_HEAD);
    for (heading, faults) in GROUPS {
        page += &format!("\n## {heading}\n\n| Switch | What it makes wrong |\n|---|---|\n");
        for (fault, wrong) in *faults {
            page += &format!("| {fault:?} | {} |\n", wrong.trim());
        }
    }
    page
}

const PAGE_HEAD: &str = "\
# Fault switches of the second implementation

Each switch makes the second implementation wrong in the one way named beside it. How many generated cases tell it from the right rules,
and by what, is counted in docs/MEASURES.md (\"What tells each error from the right rules\"); what the counts show is said in
reference/README.md. 01 is the scope paper.

This page is what `reference/target/release/fault_list` prints, from reference/src/fault.rs; a test of reference/ compares them.
";
