//! Those of the two rules: what goes with a dropped area, and what with a dropped service.

use super::{AREA, BESIDE, BLOCK, CARD, Case, INSIDE, LIMIT, NO_KIND, PURSE, TURNED, case};

/// Those of a dropped area and what lies deeper.
pub fn stretches() -> Vec<Case> {
    vec![
        case(
            "an area takes its children along",
            &[
                CARD,
                (TURNED, "11"),
                ("svc|2|2009|1|0000", "parent"),
                ("area|2|2000|20FF|0000", "parent"),
                ("svc|3|2049|1|0000", "parent"),
                (BESIDE, ""),
            ],
        ),
        case(
            "an earlier area could take it",
            &[CARD, (AREA, ""), (TURNED, "11"), (INSIDE, "parent")],
        ),
        case(
            "the line that ends it is judged",
            &[CARD, (TURNED, "11"), (AREA, ""), (INSIDE, "")],
        ),
        case(
            "the area that ends it begins its own",
            &[
                CARD,
                (AREA, ""),
                ("area|2|1080|107F|0000", "11"),
                (TURNED, "11"),
                ("svc|2|1009|1|0000", "parent"),
            ],
        ),
        case(
            "a refused service ends it and begins none",
            &[
                CARD,
                (AREA, ""),
                (TURNED, "11"),
                (NO_KIND, "16"),
                (INSIDE, ""),
            ],
        ),
        case(
            "a dropped service begins none",
            &[CARD, (AREA, ""), (NO_KIND, "16"), (INSIDE, "")],
        ),
        case(
            "an area at depth 0",
            &[
                CARD,
                (AREA, ""),
                ("area|0|1000|10FF|0000", "21"),
                (BESIDE, "parent"),
            ],
        ),
        case(
            "an area at depth 9",
            &[
                CARD,
                ("area|9|1000|10FF|0000", "21"),
                ("svc|10|1009|1|0000", "parent"),
                ("svc|9|1009|1|0000", "21"),
                ("svc|10|1009|1|0000", "21"),
            ],
        ),
        case(
            "an inner area does not narrow it",
            &[
                CARD,
                (TURNED, "11"),
                ("area|3|2000|20FF|0000", "parent"),
                ("svc|2|2009|1|0000", "parent"),
            ],
        ),
        case(
            "a kept block does not end it",
            &[
                CARD,
                (BESIDE, ""),
                (TURNED, "11"),
                (BLOCK, ""),
                ("svc|2|2009|1|0000", "parent"),
            ],
        ),
        case(
            "a kept limit does not end it",
            &[
                CARD,
                (PURSE, ""),
                (TURNED, "11"),
                (LIMIT, ""),
                ("svc|2|2009|1|0000", "parent"),
            ],
        ),
        case(
            "a second card does not end it",
            &[
                CARD,
                (TURNED, "11"),
                ("card|0001|0000", "30"),
                ("svc|2|2009|1|0000", "parent"),
            ],
        ),
        case(
            "a malformed area does not end it",
            &[
                CARD,
                (AREA, ""),
                (TURNED, "11"),
                ("area|1|1000|10FF", "30"),
                ("svc|2|2009|1|0000", "parent"),
            ],
        ),
        case(
            "a malformed service does not end it",
            &[
                CARD,
                (AREA, ""),
                (TURNED, "11"),
                ("svc|1|3009|1", "30"),
                ("svc|2|2009|1|0000", "parent"),
                (LIMIT, "parent"),
            ],
        ),
        case(
            "a malformed area begins none",
            &[CARD, ("area|1|1000|10FF", "30"), (INSIDE, "21")],
        ),
        case(
            "a dropped area, then the same well",
            &[
                CARD,
                (TURNED, "11"),
                (INSIDE, "parent"),
                (AREA, ""),
                (INSIDE, ""),
            ],
        ),
        case(
            "an area that leaves its parent",
            &[
                CARD,
                (AREA, ""),
                ("area|2|1080|11FF|0000", "18"),
                ("svc|3|1089|1|0000", "parent"),
            ],
        ),
        case(
            "the root's code again",
            &[
                CARD,
                ("area|1|0000|FFFF|0000", "13"),
                (INSIDE, "parent"),
                (BESIDE, ""),
            ],
        ),
    ]
}

/// Those of a dropped service and its limits.
pub fn orphans() -> Vec<Case> {
    vec![
        case(
            "a service takes its limits along",
            &[
                CARD,
                (PURSE, ""),
                (NO_KIND, "16"),
                (LIMIT, "parent"),
                (LIMIT, "parent"),
            ],
        ),
        case(
            "a malformed service takes limits",
            &[CARD, (PURSE, ""), ("svc|1|3091|1", "30"), (LIMIT, "parent")],
        ),
        case(
            "the word svc alone takes limits",
            &[CARD, (PURSE, ""), ("svc", "30"), (LIMIT, "parent")],
        ),
        case(
            "a taken service takes limits",
            &[
                CARD,
                (PURSE, ""),
                (TURNED, "11"),
                ("svc|2|2051|1|0000", "parent"),
                (LIMIT, "parent"),
            ],
        ),
        case(
            "a malformed limit of a dropped service",
            &[CARD, (PURSE, ""), (NO_KIND, "16"), ("lim|1", "parent")],
        ),
        case(
            "a malformed limit",
            &[CARD, (PURSE, ""), ("lim|1", "30"), (LIMIT, "")],
        ),
        case("a limit of an area", &[CARD, (AREA, ""), (LIMIT, "28")]),
        case(
            "limits after a kept block",
            &[
                CARD,
                (BESIDE, ""),
                (PURSE, ""),
                (NO_KIND, "16"),
                (BLOCK, ""),
                (LIMIT, ""),
            ],
        ),
        case(
            "limits after a kept area",
            &[CARD, (NO_KIND, "16"), (AREA, ""), (LIMIT, "28")],
        ),
        case(
            "limits after a kept service",
            &[CARD, (NO_KIND, "16"), (PURSE, ""), (LIMIT, "")],
        ),
        case(
            "limits after a dropped area",
            &[
                CARD,
                (PURSE, ""),
                (NO_KIND, "16"),
                (TURNED, "11"),
                (LIMIT, "parent"),
            ],
        ),
        case(
            "limits after a dropped block",
            &[
                CARD,
                (PURSE, ""),
                (NO_KIND, "16"),
                ("blk|3009|0|00", "30"),
                (LIMIT, "parent"),
            ],
        ),
        case(
            "a dropped area takes no limit",
            &[CARD, (PURSE, ""), (TURNED, "11"), (LIMIT, "")],
        ),
        case(
            "a second card takes nothing",
            &[
                CARD,
                (PURSE, ""),
                ("card|0001|0000", "30"),
                (LIMIT, ""),
                (AREA, ""),
                (INSIDE, ""),
            ],
        ),
        case(
            "another word takes no limit",
            &[CARD, (PURSE, ""), ("svcs|1|3000|1|0000", "30"), (LIMIT, "")],
        ),
    ]
}
