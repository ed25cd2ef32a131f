//! Deliberate misreadings of the run machine, which the cases must tell from the right reading, and of the calls, which
//! the machine cannot show and the hand-made calls must tell.

use crate::misreadings::misreadings;

misreadings! {
    StartsInTheLastState: "the run starts in the state declared last",
    IdIsPosition: "a rule's id is its position, whatever the map has",
    RowIsTestedAtTheEnd: "10 comes before 'done'",
    EdgesAreTestedAtTheEnd: "10 comes before 'done' for a length that ends off an edge",
    OddByteFits: "a byte behind the last length does no harm",
    RowIsTestedForLiveRules: "10 looks at live rules only",
    EdgesAreTestedForLiveRules: "only lengths of live rules must end on an edge",
    EdgesAreTestedForTheWinner: "only the winner's length must end on an edge",
    EdgeOfTheLengthAlone: "a length must be an edge, wherever the run is",
    StartIsNoEdge: "the start of the text is no edge",
    EndIsNoEdge: "the end of the text is no edge",
    OnlyTwoBytesAreCut: "only a character of two bytes has no edge inside",
    EmptyListIsNeverLive: "a rule without a list is never live",
    ExclusiveIsInclusive: "a rule without a list is live in exclusive states too",
    ListedRulesAreLiveInInitial: "a rule with a list is live in state 0 too",
    LaterRuleWinsATie: "the later rule wins at a tie",
    EarlierRuleWins: "the first live rule with a length wins",
    UnlinkedSkips: "a named winner without id is a skip",
    TokenStartsAtItsEnd: "a token starts where its bytes end",
    MovesByOne: "each move takes one byte",
    SkipKeepsTheStack: "the operation of a skip is left out",
    ReplaceKeepsTheRest: "replace changes only the top",
    SameStateIsPushedOnce: "pushing the current state changes nothing",
    PopNeedsItsTarget: "pop removes the top only where it is the target",
    EmptiedStackGetsTheTarget: "an emptied stack gets the target",
    LimitIsExcluded: "an entry of as many bytes as the limit is too long",
    LimitIsNotAsked: "an entry may be longer than the limit",
}

pub mod calls {
    use super::misreadings;

    misreadings! {
        // The kind of caller
        CallerBehindStart: "the start tests 13 behind 8",
        CallerBehindText: "the start tests 13 behind 12",
        KindOfSixteenBits: "only the low 16 bits of the start's kind are looked at",
        KindOfThirtyTwoBits: "only the low 32 bits of the start's kind are looked at",
        KindOfEightBits: "only the low 8 bits of the run's kind are looked at",
        KindsAreSwapped: "0 is a kiosk and 1 a seller",
        StartKeepsTheKind: "the start does not write the run's kind",
        StartWritesAtThirteen: "the start writes run and stack although it refuses the kind",
        MoveLosesTheKind: "a move writes 0 as the run's kind",
        UnknownKindHasNoLimit: "a run of an unknown kind may have any n",
        UnknownKindHasLimitZero: "a run of an unknown kind may have an n of 0",
        KindBeforeText: "9 by the kind or its limit is tested before 12",
        KindBehindDone: "9 by the kind or its limit is tested behind 'done'",
        // Its limit
        StartHasTheSellersLimit: "the start has the seller's limit for both kinds",
        StartHasTheKiosksLimit: "the start has the kiosk's limit for both kinds",
        StartTakesAKioskOf513: "the start takes a kiosk's entry of 513 bytes",
        StartRefusesAKioskOf512: "the start refuses a kiosk's entry of 512 bytes",
        RunHasTheSellersLimit: "9 has the seller's limit for both kinds",
        RunHasTheKiosksLimit: "9 has the kiosk's limit for both kinds",
        RunTakesAKioskOf513: "a kiosk's run of 513 bytes is not 9",
        RunRefusesAKioskOf512: "a kiosk's run of 512 bytes is 9",
        // The start's text
        TextBeforeStart: "the start tests 12 before 8",
        StartTakesAnyBytes: "the start's text need not be UTF-8",
        StartTakesAShorterText: "the start's text may be shorter than n",
        StartTakesALongerText: "the start's text may be longer than n",
        StartWritesAtTwelve: "the start writes run and stack although it refuses the text",
        // The step's text
        TextBeforeSheet: "the step tests 12 before 6",
        TextBehindRun: "the step tests 12 behind 9",
        TextBehindDone: "the step tests 12 behind 'done'",
        TextBehindRow: "the step tests 12 behind 10",
        StepTakesAnyBytes: "the step's text need not be UTF-8",
        StepTakesAShorterText: "the step's text may be shorter than n",
        StepTakesALongerText: "the step's text may be longer than n",
        TextIsJudgedFromThePosition: "what is before the position need not be UTF-8",
        LengthOfSixteenBits: "only the low 16 bits of a text's length are looked at",
        // Positions off an edge
        ZeroFitsAnywhere: "a length of 0 fits at a position off an edge",
        NothingFitsOffAnEdge: "no length fits at a position off an edge",
        NoRulesStillAskForAnEdge: "an empty row of no rules is 10 at a position off an edge",
        RunOffAnEdgeIsBroken: "a run at a position off an edge is 9",
    }
}
