//! The rules that planted faults break, in lists by what they concern, each with its fault's name and words.

macro_rules! rules {
    ($([$list:ident] $($rule:ident $name:literal $words:literal;)*)*) => {
        #[derive(Clone, Copy, PartialEq, Eq)]
        pub enum Rule { $($($rule,)*)* }
        $(pub const $list: &[(Rule, &str, &str)] = &[$((Rule::$rule, $name, $words)),*];)*
    };
}

rules! {
    [ANALYSING]
    FieldsBackwards "fields-backwards" "the last field in fault decides, not the first";
    LastRecord "last-record" "the last record in fault decides, not the first";
    CutAtEnd "cut-at-end" "refusal 1 stands where the bytes end";
    NoInjection "no-injection" "routes without the injection link";
    NoEjection "no-ejection" "routes without the ejection link";
    Undirected "undirected" "the two directions between neighbours are one link";
    YxRouting "yx-routing" "hops along the column first";
    NodeByColumn "node-by-column" "node number = column x rows + row";
    LatencyNoRouting "latency-no-routing" "unloaded latency without the routing cycles";
    LatencyWholeLength "latency-whole-length" "routing cycles x length in the unloaded latency";
    LatencyNoLink "latency-no-link" "unloaded latency without the link cycles";
    LowestFirst "lowest-first" "a larger priority number is the higher priority";
    DirectWithoutLink "direct-without-link" "direct without a shared link";
    UpDownSwapped "up-down-swapped" "upstream taken for downstream and the reverse";
    DirectKept "direct-kept" "a k direct for i too is kept";
    AnyPriority "any-priority" "a k of lower priority than j is taken too";
    HitsNoJitter "hits-no-jitter" "hits without the jitter";
    HitsAllowance "hits-allowance" "hits with an allowance R_k - C_k";
    HitsOfLatency "hits-of-latency" "hits in a window of C_j, not R_j";
    SumsOfBounds "sums-of-bounds" "the sums over k take R_k, not C_k";
    PacketsNoJitter "packets-no-jitter" "packets without the jitter";
    PacketsNoAllowance "packets-no-allowance" "packets without the delay allowance";
    OwnJitter "own-jitter" "a flow's own jitter enters its recurrence";
    UpPastMultiple "up-past-multiple" "an exact multiple holds one packet more";
    Down "down" "quotients rounded down";
    MethodZeroSb "method-zero-sb" "method 0 is SB";
    MethodZeroXlwx "method-zero-xlwx" "method 0 is XLWX, as before L6";
    SbNoAllowance "sb-no-allowance" "SB without the delay allowance";
    XlwxAllowanceOfSb "xlwx-allowance-of-sb" "the allowance of XLWX is R_j - C_j";
    IbnAllowanceOfXlwx "ibn-allowance-of-xlwx" "the allowance of IBN is that of XLWX";
    XlwxWeightOfSb "xlwx-weight-of-sb" "the weight of XLWX is C_j alone";
    IbnWeightOfSb "ibn-weight-of-sb" "the weight of IBN is C_j alone";
    IbnNoMinimum "ibn-no-minimum" "IBN takes C_k, not the lesser of C_k and B";
    IbnOnlyB "ibn-only-b" "IBN takes B, not the lesser of C_k and B";
    BNoLink "b-no-link" "B without the link cycles";
    BNoFlits "b-no-flits" "B without the buffer flits";
    BNoShared "b-no-shared" "B without the number of shared links";
    BSharedWithK "b-shared-with-k" "B with the links shared by j and k";
    DeadlineExclusive "deadline-exclusive" "a bound equal to the deadline less the jitter is late";
    DeadlineOneMore "deadline-one-more" "a bound one above the deadline less the jitter is bounded";
    LatePastPeriod "late-past-period" "late when the first value passes the period of an interferer";
    LateFirst "late-first" "late comes before waits when C plus jitter is above the deadline";
    WaitsLowest "waits-lowest" "waits names the unbounded direct flow of lowest priority";
    WaitsPlanOrder "waits-plan-order" "waits names the first unbounded direct flow of the plan";
    WaitsRoot "waits-root" "waits names the flow that the named flow waits on";
    WaitingIgnored "waiting-ignored" "a waiting direct flow is no reason to wait";
    RoundsOneMore "rounds-one-more" "rounds one too many";
    RoundsNotLast "rounds-not-last" "the replacement that changes nothing is not counted";
    RoundsNotLate "rounds-not-late" "the replacement that passes the deadline less the jitter is not counted";
    RoundsFromZero "rounds-from-zero" "rounds start at x = 0";
    RoundsLateOne "rounds-late-one" "a late flow with C plus jitter above the deadline has one round";
    ReplyByPriority "reply-by-priority" "the reply in the order of priority";
    NamedZero "named-zero" "the named flow is 0000 unless the verdict is 2";
    LateBound "late-bound" "a late flow's bound is its deadline less its jitter";
    ReplyOneMore "reply-one-more" "a reply of exactly the needed length is too short";
    ShortFirst "short-first" "refusal 11 comes before the plan's own faults";
    GuardBefore "guard-before" "the guard byte before the reply is written";
    GuardBehind "guard-behind" "the guard byte behind the reply is written";
    FurtherWritten "further-written" "the byte after the reply's own is written";
    RefusalWrites "refusal-writes" "a refusal writes the first byte of the reply buffer";
    PlanWritten "plan-written" "the plan's last byte is written";

    [TICK]
    DeadlineWhole "deadline-whole" "the deadline is not lessened by the jitter, as before L3";
    JitterTwice "jitter-twice" "the deadline is lessened by the jitter twice";
    JitterOneMore "jitter-one-more" "the deadline is lessened by one more than a jitter that is not 0";
    JitterOneLess "jitter-one-less" "the deadline is lessened by one less than a jitter that is not 0";
    JitterOfNext "jitter-of-next" "the deadline is lessened by the jitter of the plan's next flow";
    JitterOfDirect "jitter-of-direct" "the deadline is lessened by the jitter of the direct flow of highest priority";
    DeadlineLessC "deadline-less-c" "the deadline is lessened by C, not by the jitter";
    JitterHidden "jitter-hidden" "a jitter above the deadline leaves the whole deadline";
    JitterInBound "jitter-in-bound" "the bound in the reply starts at the tick";
    JitterInR "jitter-in-r" "R_j starts at the tick of j";
    JitterInWindow "jitter-in-window" "the window of a flow starts at its tick";
    CWholeDeadline "c-whole-deadline" "C is held against the whole deadline, and only what follows it against less";
    RoundsWholeDeadline "rounds-whole-deadline" "the rounds go on to the whole deadline, which the verdict does not";
    RoundsZeroOnlyC "rounds-zero-only-c" "a late flow has no round only if C alone is above the deadline, and else one";
    JitterLateFirst "jitter-late-first" "late comes before waits when the jitter is above the deadline";
    JitterRefused "jitter-refused" "a jitter above the deadline is refused 37";

    [SEVENTH_READING]
    SevenRefused "seven-refused" "a platform record of length 7 is refused 3, as before L7";
    SixRefused "six-refused" "a platform record of length 6 is refused 3";
    FiveLetIn "five-let-in" "a platform record of length 5 is let in, with method 0";
    EightLetIn "eight-let-in" "a platform record of length 8 is let in";
    LengthLowByte "length-low-byte" "of the platform's length the second byte alone decides";
    SeventhCut "seventh-cut" "a cut seventh byte is no cut body";
    NextByteTaken "next-byte-taken" "the byte behind a record of length 6 is taken for the priority flits";
    SeventhDemanded "seventh-demanded" "a record of length 6 is refused 26, as a seventh byte of 0 is";
    StartsNotMoved "starts-not-moved" "the flows are read from 9 on behind a seventh byte too";
    CutNotMoved "cut-not-moved" "1 behind a seventh byte is told as without it";
    AfterEndNotMoved "after-end-not-moved" "10 behind a seventh byte is told as without it";
    EndByteUnread "end-byte-unread" "of a plan no more than 1,484 bytes are read";

    [SEVENTH_PLACES]
    SeventhAtMethod "seventh-at-method" "refusal 26 stands at the method";
    SeventhAtStart "seventh-at-start" "refusal 26 stands at the record's start";
    SeventhFirst "seventh-first" "26 comes before 20";
    SeventhLast "seventh-last" "26 comes behind the faults of all flows";
    PlacesNotMoved "places-not-moved" "places behind a seventh byte are told as without it";
    PlacesAlwaysMoved "places-always-moved" "places behind a record of length 6 are told as behind a seventh byte";
    SixtyFifthNotMoved "sixty-fifth-not-moved" "a 65th flow is refused at 1,481 behind a seventh byte too";

    [PRIORITY_FLITS]
    FlitsAlone "flits-alone" "C without the priority flits";
    FlitsNoLink "flits-no-link" "the priority flits are added to C without the link cycles";
    FlitsRouted "flits-routed" "the priority flits take routing cycles";
    FlitsBuffered "flits-buffered" "B with the priority flits added to the buffer flits";
    FlitsTwice "flits-twice" "the priority flits are added twice";
    FlitsEachLink "flits-each-link" "the priority flits are added for each link of the route";
    FlitsOne "flits-one" "one flit is added, however many priority flits there are";
    FlitsGreater "flits-greater" "the greater of flits and priority flits is taken";
    FlitsTwoBytes "flits-two-bytes" "the flits with the priority flits are cut to two bytes";
    FlitsAtMost "flits-at-most" "the flits with the priority flits are 65,535 at most";
    FlitsNotDefault "flits-not-default" "method 0 leaves the priority flits out";
    FlitsNotSb "flits-not-sb" "SB leaves the priority flits out";
    FlitsNotXlwx "flits-not-xlwx" "XLWX leaves the priority flits out";
    FlitsNotIbn "flits-not-ibn" "IBN leaves the priority flits out";
    OwnWithout "own-without" "C_i of the recurrence is without the priority flits";
    WeightWithout "weight-without" "C_j of a weight is without the priority flits";
    AllowanceWithout "allowance-without" "C_j of an allowance is without the priority flits";
    SumsWithout "sums-without" "C_k of the sums over k is without the priority flits";
    StartWithout "start-without" "rounds start at C without the priority flits";
    LateWithout "late-without" "C without the priority flits decides whether a late flow has rounds";

    [SHARED]
    RowUndirected "row-undirected" "the two directions along a row are one link";
    ColumnUndirected "column-undirected" "the two directions along a column are one link";
    RowBackwardApart "row-backward-apart" "hops towards lower columns are never shared";
    ColumnBackwardApart "column-backward-apart" "hops towards lower rows are never shared";
    RowAnywhere "row-anywhere" "hops between the same two columns are shared in whatever row";
    ColumnAnywhere "column-anywhere" "hops between the same two rows are shared in whatever column";
    RowOfDestination "row-of-destination" "hops between columns are compared in the destinations' rows";
    ColumnOfSource "column-of-source" "hops between rows are compared in the sources' columns";
    InjectionOfRow "injection-of-row" "the sources in one row have one injection link";
    InjectionOfColumn "injection-of-column" "the sources in one column have one injection link";
    EjectionOfRow "ejection-of-row" "the destinations in one row have one ejection link";
    EjectionOfColumn "ejection-of-column" "the destinations in one column have one ejection link";
    EndsTurn "ends-at-turn" "links behind the turn are not counted where links before it are shared";
    StartsTurn "starts-at-turn" "links before the turn are not counted where links behind it are shared";
    InjectionElse "injection-else" "where the injection link is shared no other is counted";
    InjectionAlone "injection-alone" "the injection link is counted only where no other is shared";
    RowOneMore "row-one-more" "flows with a common hop in a row share one more";
    ColumnOneMore "column-one-more" "flows with a common hop in a column share one more";
    RowOneLess "row-one-less" "flows with common hops in a row share one less";
    ColumnOneLess "column-one-less" "flows with common hops in a column share one less";
    RowSameEnds "row-same-ends" "hops along a row are shared only between the same two columns as a whole";
    ColumnSameEnds "column-same-ends" "hops along a column are shared only between the same two rows as a whole";
    RowShorter "row-shorter" "flows with a common hop in a row share as many as the one with fewer has";
    ColumnShorter "column-shorter" "flows with a common hop in a column share as many as the one with fewer has";
    RowTouching "row-touching" "flows one behind the other in a row share a hop where they meet in a node";
    ColumnTouching "column-touching" "flows one behind the other in a column share a hop where they meet in a node";
    RowGap "row-gap" "the hops between flows one behind the other in a row are shared";
    ColumnGap "column-gap" "the hops between flows one behind the other in a column are shared";

    [PLACE]
    PlaceOnOther "place-on-other" "first places are counted on the other flow's route";
    PlaceOnK "place-on-k" "the first place of links shared with k is counted on k's route, not j's";
    PlaceOnI "place-on-i" "the first place of links shared with i is counted on i's route, not j's";
    PlaceNoInjection "place-no-injection" "first places are counted from the first hop";
    PlaceNoRow "place-no-row" "a first place behind the turn is counted without the row hops";
    PlaceOtherRow "place-other-row" "a first place behind the turn is counted with the other flow's row hops";
    PlaceTurnLess "place-turn-less" "a first place behind the turn is one too small";
    PlaceTurnStart "place-turn-start" "a run over the turn is placed at the first hop";
    PlaceRowStart "place-row-start" "a run that starts in the row is placed at the first hop";
    PlaceColumnStart "place-column-start" "a run that starts in the column is placed at the first hop behind the turn";
    PlaceRowSources "place-row-sources" "a run that starts in the row is placed by the sources' distance";
    PlaceColumnSources "place-column-sources" "a run that starts in the column is placed by the sources' distance";
    PlaceRowFar "place-row-far" "a run that starts towards lower columns is placed behind its hops in the row";
    PlaceColumnFar "place-column-far" "a run that starts towards lower rows is placed behind its hops in the column";
    PlaceEjectionZero "place-ejection-zero" "an ejection link shared alone is placed at 0";
    PlaceEjectionOther "place-ejection-other" "an ejection link shared alone has its place on the other flow's route";

    [TEXT]
    TextMethodAsked "text-method-asked" "the method printed is the one asked for";
    TextMeshRefused "text-mesh-refused" "the mesh line comes before a refusal";
    TextRowsFirst "text-rows-first" "the mesh is printed as rows by columns";
    TextNoLastLf "text-no-last-lf" "the last line has no LF";
    TextLateBare "text-late-bare" "a late line without its rounds";
    TextPriorityFlits "text-priority-flits" "the mesh line ends with the priority flits, if there are any";
    TextBufferMore "text-buffer-more" "the mesh line adds the priority flits to the buffer flits";

    [NUMBERING]
    FieldsAsBefore "fields-as-before" "every field outside its values is refused 5, as before L2";
    PlatformFromThirty "platform-from-30" "the platform's fields are numbered from 30, as the flow's are";
    FlowFromTwenty "flow-from-20" "the flow's fields are numbered from 20, as the platform's are";
    DeadlineSwapped "deadline-swapped" "a deadline of zero is refused 38, one above its period 36";
    DeadlineAlwaysZero "deadline-always-36" "a deadline above its period is refused 36 too";
    DeadlineAlwaysAbove "deadline-always-38" "a deadline of zero is refused 38 too";
    JitterLast "jitter-last" "a deadline above its period is refused 37, a jitter 38";
    SeventhAsMethod "seventh-as-method" "a seventh byte outside its values is refused 25";

    [WRITING]
    WriteIdPriority "write-id-priority" "id and priority are written in each other's place";
    WriteEnds "write-ends" "source and destination are written in each other's place";
    WriteDeadlineJitter "write-deadline-jitter" "deadline and jitter are written in each other's place";
    WriteLittleTwo "write-little-two" "fields of two bytes are written least significant byte first";
    WriteLittleFour "write-little-four" "fields of four bytes are written least significant byte first";
    WriteLittleLength "write-little-length" "a record's length is written least significant byte first";
    WriteLengthWhole "write-length-whole" "a record's length counts its header too";
    WriteIdByte "write-id-byte" "an id is cut to one byte";
    WriteXlwx "write-xlwx" "method 0 is written as 2, as a conversion would";
    WriteIbn "write-ibn" "method 0 is written as 3, the method really used";
    WriteNoEnd "write-no-end" "the end record is not written";
    WriteLastByte "write-last-byte" "the last byte is not written";
    WriteReversed "write-reversed" "the flows are written in reverse order";
    WriteByPriority "write-by-priority" "the flows are written in the order of priority";
    WriteBehind "write-behind" "the flow behind the count is written too";
    WriteOneLess "write-one-less" "the last flow of the count is not written";
    WriteCutToMost "write-cut-to-most" "a count above 64 is taken for 64";
    WriteCountFourBytes "write-count-four-bytes" "a count is cut to four bytes";
    WriteManyFirst "write-many-first" "refusal 6 comes before the faults of the first 64 flows";
    WriteShortFirst "write-short-first" "refusal 11 comes before the reader's";
    WriteOneMore "write-one-more" "a buffer of exactly the needed length is too short";
    WritePlaceZero "write-place-zero" "the place of a refusal is 0";
    WriteValueBuffer "write-value-buffer" "the value is the buffer's length";
    WriteRefusalWrites "write-refusal-writes" "a refusal has written the bytes before its place";
    WriteShortWrites "write-short-writes" "refusal 11 has written what there is room for";
    WriteCleared "write-cleared" "the further bytes of the buffer are cleared";
    WriteGuardBefore "write-guard-before" "the guard byte before the buffer is written";
    WriteGuardBehind "write-guard-behind" "the guard byte behind the buffer is written";
    WriteSevenAlways "write-seven-always" "a seventh byte of 0 is written too";
    WriteSixAlways "write-six-always" "no seventh byte is written";
    WriteNone "write-none" "priority flits are not looked at";
    WriteZeroRefused "write-zero-refused" "priority flits 0 are refused 26";
    WriteAtMostEight "write-at-most-eight" "priority flits above 8 are taken for 8";
    WriteAboveAsNone "write-above-as-none" "priority flits above 8 are taken for 0";
    WriteFourBits "write-four-bits" "priority flits are cut to four bits";
    WriteSeventhBlank "write-seventh-blank" "the seventh byte is written as 0";
    WriteSeventhBefore "write-seventh-before" "the seventh byte is written before the method";
    WriteLengthSix "write-length-six" "a record with a seventh byte says length 6";
    WriteLengthSeven "write-length-seven" "a record without a seventh byte says length 7";
    WriteNeedsSix "write-needs-six" "the seventh byte does not count in the plan's length";
    WriteNeedsSeven "write-needs-seven" "a seventh byte that is not written counts in the plan's length";
    WriteLongest "write-longest" "of a plan of 1,485 bytes 1,484 are written";
    RereadNone "reread-none" "reading what was written gives no priority flits";
    RewriteSix "rewrite-six" "writing what was read from seven bytes gives six";
    RewriteSeven "rewrite-seven" "writing what was read from six bytes gives seven";
    RereadXlwx "reread-xlwx" "reading what was written gives method 2 for 0";
    RereadIbn "reread-ibn" "reading what was written gives method 3 for 0";
    RereadReversed "reread-reversed" "reading what was written gives the flows in reverse order";
    RewriteXlwx "rewrite-xlwx" "writing what was read gives method 2 for 0";
    RewriteIbn "rewrite-ibn" "writing what was read gives method 3 for 0";
    RewriteReversed "rewrite-reversed" "writing what was read gives the flows in reverse order";

    [CONVERTING]
    ConvertTag "convert-tag" "the first byte of a converted plan is written too";
    ConvertBefore "convert-before" "the byte before the method is written too";
    ConvertBehind "convert-behind" "the byte behind the method is written too";
    ConvertLast "convert-last" "the last byte of a converted plan is written too";
    ConvertOtherLast "convert-other-last" "the last byte of a plan that has another method is written";
    ConvertRouting "convert-routing" "routing cycles 0 are rewritten as 2 too";
    ConvertDestinations "convert-destinations" "destinations 0, at a method's offset in a flow, become 2 too";
    ConvertMoved "convert-moved" "in a record of length 7 the 2 is written at 9";
    ConvertSixLeft "convert-six-left" "0 is left in a record of length 6";
    ConvertSevenLeft "convert-seven-left" "0 is left in a record of length 7";
    ConvertFlowlessLeft "convert-flowless-left" "0 is left in a plan without flows";
    ConvertFullLeft "convert-full-left" "0 is left in a plan of 64 flows";
    ConvertLongestLeft "convert-longest-left" "0 is left in a plan of 1,485 bytes";
    ConvertValueLength "convert-value-length" "the value is the plan's length";
    ConvertValueReply "convert-value-reply" "the value is the reply's length";
    ConvertValuePlace "convert-value-place" "the value is 8, the place of the method";
    ConvertValueOne "convert-value-one" "the value is 1 if 0 was rewritten";
    ConvertValueOther "convert-value-other" "the value is 1 if nothing was rewritten";
    ConvertValueMethod "convert-value-method" "the value is the method that is left";
    ConvertNumberOne "convert-number-one" "the number is 1 if 0 was rewritten";
    ConvertOtherRefused "convert-other-refused" "another method than 0 is refused 25 at 8";
    ConvertShort "convert-short" "a plan is refused 11 at 0, as without room for its reply";
    ConvertRefusedShort "convert-refused-short" "11 at 0 comes before the reader's refusals";
    ConvertEmptyShort "convert-empty-short" "a plan of length 0 is refused 11 at 0";
    ConvertEmptyTaken "convert-empty-taken" "a plan of length 0 is accepted";
    ConvertPlaceZero "convert-place-zero" "the place of a refusal is 0";
    ConvertOneNumber "convert-one-number" "every refusal has the number 1";
    ConvertRefusedLast "convert-refused-last" "the last byte of a refused plan is written";
    ConvertLongCut "convert-long-cut" "of the bytes no more than 1,485 are read";
    ConvertGuardBefore "convert-guard-before" "the guard byte before the plan is written";
    ConvertGuardBehind "convert-guard-behind" "the guard byte behind the plan is written";
    AgainBack "again-back" "converted again, 2 becomes 0";
    AgainOn "again-on" "converted again, 2 becomes 3";
    AgainRefused "again-refused" "converted again, a plan is refused 25 at 8";
    AgainValue "again-value" "converted again, a plan has the value 1";

    [CLAIMED]
    ReplyIbn "reply-ibn" "a converted plan has the reply of IBN, which 0 has now";
    ReplySb "reply-sb" "a converted plan has the reply of SB";
    ReplyOther "reply-other" "a plan with another method has the reply of XLWX behind a conversion";
    ClaimShort "claim-short" "the claims are shown a refusal 11";
    ClaimPlace "claim-place" "the claims are shown a refusal one byte later";
    ClaimNumber "claim-number" "the claims are shown a refusal with the next number";
    ClaimValue "claim-value" "the claims are shown the length as an accepted plan's value";
    ClaimRefusedByte "claim-refused-byte" "the claims are shown a refused plan with its last byte altered";
    ClaimByte "claim-byte" "the claims are shown an accepted plan with its last byte altered";
    ClaimZero "claim-zero" "the claims are shown a plan with its 0 left";
    ClaimOther "claim-other" "the claims are shown a plan with another method written over";
    ClaimLonger "claim-longer" "the claims are shown an accepted plan with a byte more";
    ClaimAgainByte "claim-again-byte" "the claims are shown a plan that the second conversion alters";
    ClaimAgainReturned "claim-again-returned" "the claims are shown a second conversion with another value";
}

pub fn is_in(rules: &[(Rule, &str, &str)], rule: Rule) -> bool {
    rules.iter().any(|(listed, _, _)| *listed == rule)
}
