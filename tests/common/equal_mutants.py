"""The mutants that are known to be equal in meaning: by crate and definition, then by change, with the reason. A proof's text may not fit them, an example may not refuse them.

And the definitions of which no change fits the types, so that they have no mutant."""

ORDER_OF_LINES = "the list is only asked whether it has a line"
APART = "no number passes both tests, so their order does not matter"
NOT_ABOVE = "a number not above 0 is 0"
NEVER_READ = "stands behind the last line of the table, which nothing reads"
TURNS = "a plan's bytes never use up the turns (`Fuel.turns_enough`)"
ORDERS = "equal orders do not occur: a k in S_j^D and not in S_i^D shares no link with i"
SYMMETRIC = "two routes share as many links either way round (`mesh` `Theorems.count_symmetric`)"
PRIORITIES = "no two flows of a plan have one priority"
FOLLOWS = "that the run begins at the first place follows from where it stands on the two routes; where none is shared it may be said to begin at 0"

REASONS = {
    "plan_values Values.platform_length": {"`when eqb p` → `when leb p`": "priority flits not above 0 are 0"},
    "plan_table Refusals.record_refusals": {"`(1, 0)` ↔ `(2, 0)`": ORDER_OF_LINES},
    "plan_table Refusals.platform_refusals": {"`(20, 3)` ↔ `(21, 4)`": ORDER_OF_LINES},
    "plan_table Refusals.flow_refusals": {"`(7, 3)` ↔ `(8, 5)`": ORDER_OF_LINES},
    "plan_table Table.tag_of": {"`Some PlatformRecord when eqb byte 0x01` ↔ `Some FlowRecord when eqb byte 0x02`": APART},
    "plan_table Table.no_field": {"`, 0,` → `, 1,`": NEVER_READ, "`(One,` → `(Two,`": NEVER_READ, "`, Cut)` → `, UnknownTag)`": NEVER_READ},
    "plan_checks Checks.header_at": {"`(eqb at` → `(leb at`": NOT_ABOVE},
    "plan Reading.records": {"`refused Cut at` → `refused UnknownTag at`": TURNS, "`Cut at` → `Cut zero`": TURNS},
    "plan Reading.read_plan": {"`(suc (` → `( (`": "a turn takes 3 bytes, so that one turn less is enough; of no bytes both say 1 at 0"},
    "writer Fits.FitsEach": {"`k < length` → `k ≤ length`": "behind the list stands a blank flow, whose zeros fit"},
    "mesh Mesh.along": {"`hops (λ k. up (u + k)) (v - u)` ↔ `hops (λ k. down (u - k)) (u - v)`": "one of the two stretches is empty"},
    "mesh Shared.shared_count": {"`a` ↔ `b`": SYMMETRIC},
    "mesh Shared.OneRun": {
        "`a` ↔ `b`": "what the two routes share is the same either way round, by `same_order` beside it",
        "`: 0 <` → `: 1 <`": FOLLOWS, "`0 < shared_count` → `0 ≤ shared_count`": FOLLOWS, "`0` ↔ `shared_count a b`": FOLLOWS,
    },
    "mesh Shared.Shares": {"`a` ↔ `b`": SYMMETRIC},
    "mesh Shared.AllBefore": {"`p 0)` → `p 1)`": "p is a place on the route, so that what stands behind its end is not read"},
    "mesh Shared.Sides": {"`k < first_shared` → `k ≤ first_shared`": "by `after` beside it the two first places differ"},
    "recurrence ComesTo.comes_to_from": {"`Late k` → `Late zero`": "the fuel is never used up"},
    "model Latency.method_used": {"`SB when eqb p.method 1` ↔ `XLWX when eqb p.method 2`": APART},
    "model Delays.buffered": {"`i` ↔ `j`": SYMMETRIC},
    "model Links.pair_of": {"`(route_of p i)` ↔ `(route_of p j)`": SYMMETRIC},
    "model PaperEquations.⌈◌÷◌⌉": {"`(eqb (` → `(leb (`": NOT_ABOVE},
    "model PaperEquations.bi₇": {"`i` ↔ `j`": SYMMETRIC},
    "model PaperSets.cd": {"`(route p i)` ↔ `(route p j)`": "what two routes share is the same either way round, in the same order (`mesh` `Theorems.one_run`)"},
    "model PaperSets.order": {"`= 0` → `= 1`": "it is asked of a link on the route alone"},
    "model PaperSets.first": {"`= 0` → `= 1`": "it is asked of a domain with links alone"},
    "model PaperSets.Sᵘᵖ": {"`&& ltb (` → `&& leb (`": ORDERS},
    "model PaperSets.Sᵈᵒʷⁿ": {"`&& ltb (` → `&& leb (`": ORDERS},
    "model Interference.comes_before": {
        "`= ltb (` → `= leb (`": "it is asked of a k that is direct for j and not for i; that shares no link with i, so the two first places differ (`Sides.sides_exactly`)",
    },
    "model Verdicts.higher": {"`(ltb g` → `(leb g`": PRIORITIES},
    "model Verdicts.highest": {"`g` ↔ `f`": PRIORITIES},
    "model Verdicts.verdict_below": {"`Late 0` → `Late 1`": "no flow has a priority number below 0"},
    "model Verdicts.verdict": {"`(suc i` → `( i`": "a priority number is 1 or more, and so is that of each flow on the way down: one turn less is enough"},
    "reply Records.verdict_by": {"`when eqb number` → `when leb number`": NOT_ABOVE, "`Bounded bound rounds when eqb number 0` ↔ `Late rounds when eqb number 1`": APART},
    "converter Converted.rewritten": {"`when eqb (` → `when leb (`": NOT_ABOVE},
    "converter Converted.approved_method": {"`when eqb p` → `when leb p`": NOT_ABOVE},
    "lines Replied.told_at": {
        "`when eqb (` → `when leb (`": NOT_ABOVE,
        "`(item bounded_word (bound_at is k) ++ item rounds_word (rounds_at is k)) when eqb (verdict_at is k) 0` ↔ `(late_word ++ item rounds_word (rounds_at is k)) when eqb (verdict_at is k) 1`": APART,
    },
}

NO_MUTANT = {
    "plan_table Table.width", "plan_table Table.lowest_of", "plan_table Table.highest_of", "plan_table Table.refusal_above", "plan Reading.plan_of", "plan Reading.plan_in", "plan Records.◌then◌",
    "recurrence Limits.AllFair", "recurrence Sums.sum_over", "model Interference.those", "model Bounds.bound_of",
}
