//! Mistakes on purpose, to show that the comparison finds them.

use crate::kit::listed::listed;

listed! {
    /// A mistake on purpose.
    #[derive(Clone, Copy, Debug, PartialEq, Eq)]
    pub enum Mistake {
        /// Those of sheets, and of all that is compared beside them.
        SHEETS: [
            /// Test 5 also shuts out equal sums.
            EqualShutsOut,
            /// A crossing may save nothing.
            EqualSaves,
            /// Only one of the two exchanges of compatibility.
            OneExchange,
            /// Only the first move of a crossing.
            OneMove,
            /// A cycle of n edges counts as short.
            FullCycleShort,
            /// The strike is made before the line's cases are read.
            EarlyStrike,
            /// One labelling only.
            OneLabelling,
            /// Seven splits one inside another.
            SevenSplits,
            /// 13 before 14.
            SplitBeforePair,
            /// 15 before 14.
            CrossingBeforePair,
            /// The record at fault is the one that the index names.
            IndexNamesTarget,
            /// A refused listing has written the pairs that fit.
            ListWrittenOnRefusal,
            /// The tour is not closed.
            OpenTour,
            /// Compatibility with the first edge of K only.
            FirstEdgeOnly,
            /// A chain that ends early names the owner of its split.
            OwnerNamed,
            /// A stopped sheet gives its strikes back.
            StrikesGivenBack,
            /// Later lines do not see earlier strikes.
            StaleMarks,
            /// A limit itself is refused: records, lengths, coordinates, bytes of a file.
            RecordLimit,
            LengthLimit,
            CoordinateLimit,
            FileLimit,
            /// ATT with 9 for 10.
            AttNine,
            /// ATT gives the nearest number, as EUC_2D does.
            AttNearest,
            /// MAN_2D taken for MAX_2D.
            ManIsMax,
            /// MAX_2D is the first difference.
            MaxIsFirst,
            /// A rule 6.
            RuleSix,
            /// A line without cases is accepted if an end of its edge has no more than two open edges.
            LastEdges,
            /// A line without cases is accepted if no shortest tour has its edge, on a board up to nine points.
            ShortestOnly,
            /// A byte of 3 passes for a mark.
            MarkThree,
            /// Within the asked sheet a pending edge counts as open.
            PendingOpenInSheet,
            /// An asked sheet that stops gives its strikes back.
            StoppedAskGivenBack,
            /// An asked sheet that stops strikes for good.
            StoppedAskStrikes,
            /// Marking does not mind pending marks.
            PendingMarked,
            /// 20 after 7.
            PendingAfterRecords,
            /// Confirming turns pending marks into open ones.
            ConfirmOpens,
            /// Withdrawing turns pending marks into struck ones.
            WithdrawStrikes,
            /// 21 is not told.
            NothingPendingUntold,
            /// The pair list counts a pending edge as struck.
            PendingStruckInList,
            /// The tour check counts a pending edge as struck.
            PendingStruckInTour,
            /// The first edge of a byte in its highest bits.
            FirstHighest,
            /// A set may have a byte more.
            LongerSet,
            /// A mark of 3 passes in a last byte with unused bits.
            LastByteUntested,
            /// An unused bit may be set.
            UnusedPassed,
            /// Fresh marks set unused bits.
            FreshUnused,
            /// A byte set's bytes are taken modulo 4.
            ByteModuloFour,
            /// A byte set is packed before its bytes are tested.
            PackedBeforeTest,
            /// What the packed set held before is tested, too.
            WrittenSetTested,
            /// Pending marks are packed as open ones.
            PendingPackedOpen,
            /// The last mark is not unpacked.
            LastMarkDropped,
            /// A saving by the smaller of the two exchanges.
            SmallerExchange,
            /// A crossing's saving by the larger of its two moves.
            LargerMove,
            /// A crossing's saving by one labelling only.
            FirstLabelling,
            /// A saving below 0 is told as 0.
            LossIsNothing,
            /// An edge taken out may have both ends the same.
            EndsTheSame,
            /// 11 before 2 and 5 in a saving.
            EdgesBeforeLengths,
            /// Test 5 moves the split point only.
            SplitMovedOnly,
            /// Test 5 does not move x.
            LowerStays,
            /// Test 5 does not move y.
            HigherStays,
            /// Test 5 moves the split point, x and y only.
            OthersStay,
            /// Test 5 moves points onto edges of K only, not onto those of the pair.
            PairsEdgesLeft,
            /// Test 5 leaves out edges at the point's neighbours.
            TouchingLeft,
            /// Test 5 moves a point onto one of its own edges, too.
            EdgeAtPoint,
            /// Test 5 also shuts out equal sums, for other points than the split point.
            SettledTies,
            /// The candidate sees the record before release.
            RecordShownEarly,
            /// The candidate sees the refusal number before release.
            NumberShownEarly,
            /// The candidate does not see the lines before release.
            LinesHidden,
            /// The candidate sees no more after release.
            HiddenAfterRelease,
            /// Releasing a released slip takes it back.
            ReleaseTakenBack,
            /// Releasing cuts the bits above 40.
            ReleaseCutsAbove,
            /// A view refused by 22 has written the bytes that fit.
            ShortViewWritten,
            /// A view clears the bytes past it.
            BytesPastCleared,
            /// What is taken out counts high.
            OutHigh,
            /// What is put in counts low.
            PutLow,
            /// What a crossing puts in counts low.
            CrossingLow,
            /// In test 5 a length that is taken out and put in counts once, as low.
            BothCountsOnce,
            /// A line without cases is accepted over two different tables if no shortest tour over either of them has its edge,
            /// on a board up to nine points.
            EndsOnly,
            /// Equal lengths get 25, too.
            EqualRefused,
            /// 25 is not told.
            LimitsUntold,
            /// 25 before 5.
            LimitsBeforeLengths,
            /// 25 after 6.
            LimitsAfterMarks,
            /// 5 does not read the low table, or the high one.
            LowEntryUntested,
            HighEntryUntested,
            /// Page 0 is taken for the first.
            PageZeroFirst,
            /// A page refused by 22 has written the bytes that fit.
            ShortPageWritten,
            /// A page clears the bytes past it.
            PastPageCleared,
            /// A length above the limit is read.
            LongLengthRead,
            /// A length with leading zeros is read.
            LeadingZeroRead,
            /// A line sets the edge behind its own.
            NextEdgeChanged,
            /// What follows the last line is not looked at.
            SurplusPassed,
            /// Surplus is told as the last line.
            SurplusAsLast,
        ]
        /// Those of TSPLIB texts.
        TEXTS: [
            /// A second DIMENSION is let through.
            SecondDimension,
            /// A second NAME is let through.
            SecondName,
            /// EDGE_WEIGHT_FORMAT with coordinates.
            FormatWithCoordinates,
            /// EXPLICIT without EDGE_WEIGHT_FORMAT.
            FormatMissing,
            /// Surplus weights are let through.
            WeightPastTheCount,
            /// A number of 33 bits loses its highest bit.
            NumberOf33Bits,
            /// A number may have ten digits only.
            TenDigits,
            /// A number may begin with a plus sign.
            PlusSign,
            /// 19 tells the line after the one at fault.
            LineToldLate,
            /// 19 tells the last whole line where one is missing.
            LastLineTold,
            /// Weights above the limit are let through.
            WeightLimitUntested,
            /// Weights are written before test 5.
            WeightsWrittenFirst,
            /// 5 before 2 in reading a text.
            LengthsBeforeSize,
            /// 1 before 19.
            PointsBeforeText,
            /// 19 for a DIMENSION outside 4 to 180.
            PointsInLanguage,
            /// The number of points of a text is tested where it alone is asked for.
            PointsTested,
            /// A tab passes for a blank.
            TabIsBlank,
            /// A line may end in a carriage return.
            ReturnEnds,
            /// Keywords in lower case.
            AnyCase,
            /// Any TYPE.
            AnyType,
            /// EUC_2D and CEIL_2D alone.
            TwoNames,
            /// A NAME may have no colon in it.
            EveryColon,
            /// NAME and COMMENT need a value.
            ValueNeeded,
            /// A colon after EOF.
            EofColon,
            /// Blank lines before the section.
            BlankLines,
            /// COMMENT after the section.
            CommentInBody,
            /// Node lines in any order.
            AnyOrder,
            /// Weights a row a line.
            RowsByLine,
            /// The last line needs no newline.
            NewlineMissing,
            /// Anything behind EOF.
            BehindEof,
        ]
        /// Those of desks.
        DESKS: [
            /// The round begins at the last desk served itself.
            SameDeskAgain,
            /// No desk comes after desk 8.
            RoundEndsAtEight,
            /// A last desk served above 8 counts as none.
            LastNotModulo,
            /// A next index is looked at in the turn of the line that it names.
            NextIndexToldLate,
            /// A turn makes no test of the table's entries and of pending marks.
            TestsNotRepeated,
            /// A test that fails at a turn tells no lines.
            LinesLostAtTest,
            /// A turn tells its own line alone.
            LinesOfTurn,
            /// A waiting index above the record count names no record.
            OwnerForgotten,
            /// A desk keeps the line that was refused.
            RefusedTurnKeepsLine,
            /// A turn whose line is refused does not count as a serving.
            RefusedTurnUnserved,
            /// A desk whose sheet has ended keeps its lines.
            EndedKeepsLines,
            /// A desk whose sheet has ended clears the one after it, too.
            OtherDeskCleared,
            /// Handing in counts as a serving.
            HandInServes,
            /// A sheet is handed in over a line.
            HandInOverLine,
            /// A desk is read by its lowest byte.
            DeskByLowByte,
            /// The sheet's tests before 28 and 29.
            TestsBeforeDesk,
            /// 28 before 22.
            DeskBeforeBuffer,
            /// Opening clears every byte lent.
            PastDesksCleared,
            /// Opening clears a state that is too short.
            ShortDesksOpened,
            /// Any index that is not 0 is a line left.
            UnservedLineLeft,
        ]
        /// Those of new orders of segments.
        SEGMENTS: [
            /// An order that is as short as the old path closes a case.
            OrderAsShort,
            /// Where K is a closed tour, one of its two paths is the segment.
            ClosedTourTaken,
            /// A segment may have no inner point.
            NoInnerPoint,
            /// A segment is a whole path of K.
            PathEndsOnly,
            /// The chain of points is entered before the segment is looked for.
            ChainBeforeSegment,
            /// 23 before 14.
            SegmentBeforePair,
            /// 24 before 23 at the end of the chain.
            ShorterBeforePoints,
            /// 23 and 24 name the last record of the chain.
            PointNamed,
            /// A chain may name an inner point twice.
            PointTwice,
            /// A chain may leave inner points out.
            PointMissing,
            /// A chain may name any points, as many as there are inner ones.
            AnyPoints,
            /// A new order is read from v to u.
            OrderBackwards,
            /// A new order counts low.
            OrderCountsLow,
            /// The old path counts high.
            OldPathHigh,
            /// A chain of more than twelve points is not followed to its end.
            LongChainCut,
            /// Records of points do not raise the highest one entered.
            PointsNotEntered,
            /// d of a point may be anything.
            PointFieldUnread,
            /// 11 does not read a point of a chain.
            PointUnread,
            /// c of a case with a new order may be anything.
            CentreUnread,
            /// 11 does not read the ends of a segment.
            EndsUnread,
            /// A new order counts as a split: six splits around it are too many.
            ReorderingDeeper,
        ]
        /// Those of reasons in words.
        REASONS: [
            /// The last test that fails is told.
            LaterTestTold,
            /// Of two struck edges the higher one is told.
            HigherStruckTold,
            /// Of two exchanges that save the one of the higher edge is told.
            HigherLegTold,
            /// Of two points that move the higher one is told.
            HigherPointTold,
            /// Of two exchanges the one that saves more is told.
            LargerSavingTold,
            /// The saving of an exchange is told by the smaller of the two.
            SmallerExchangeTold,
            /// An exchange tells the line's edge before the pair's.
            LineEdgeFirst,
            /// The line's edge is told as its record has it.
            EdgeAsGiven,
            /// The points of a loop are told as they lie on it.
            LoopAsWalked,
            /// A pending edge is told as an open one.
            PendingToldOpen,
            /// The reasons are those of the marks that the line leaves.
            LineToldStruck,
            /// Pairs that stand have no sentence.
            StandingUntold,
            /// A further split is told with the point of the line's own.
            OwnSplitTold,
            /// The next index of the line told is read.
            NextIndexTold,
            /// Record 1 counts as the first entered.
            FirstIsOne,
            /// Record 0 is taken for the first.
            RecordZeroFirst,
            /// A record number is read by its lowest 16 bits.
            RecordByLowBits,
            /// 8 names the record that was asked for.
            AskedRecordNamed,
            /// A line is not told while something is pending.
            ToldPendingRefused,
            /// 22 before the line's own refusals.
            BufferBeforeLine,
            /// A text refused by 22 has written the bytes that fit.
            ShortTextWritten,
            /// A text clears the bytes past it.
            PastTextCleared,
        ]
    }
}
