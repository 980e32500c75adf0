//! The files of recorded outcomes under `tests/data/`, and how many outcomes each has: the newest of
//! a call, those of the calls of document 01, those from before plan's set held helpful moves, those by
//! hand on comparisons, on weight 0, on moves that do nothing, on helpful moves, on closure days and on
//! schedules, and of calls by hand on the rig's limits, recorded from the reference.

pub type Records = &'static [(&'static str, usize)];

pub const READ: Records = &[
    ("read.txt", 160),
    ("base/read.txt", 403),
    ("before-helpful/base/read.txt", 404),
    ("comparisons/read.txt", 4),
    ("weights/read.txt", 5),
];

pub const BLOCK: Records = &[
    ("block.txt", 139),
    ("base/block.txt", 200),
    ("before-helpful/base/block.txt", 200),
    ("comparisons/block.txt", 4),
    ("idle-moves/block.txt", 16),
    ("rig-by-hand/block.txt", 2),
];

pub const NORMALISE: Records = &[
    ("normalise.txt", 78),
    ("base/normalise.txt", 273),
    ("before-helpful/base/normalise.txt", 274),
    ("comparisons/normalise.txt", 4),
    ("weights/normalise.txt", 5),
];

pub const STEP: Records = &[
    ("step.txt", 154),
    ("base/step.txt", 343),
    ("before-helpful/base/step.txt", 355),
    ("comparisons/step.txt", 5),
    ("weights/step.txt", 5),
];

pub const DECIDE: Records = &[
    ("decide.txt", 141),
    ("base/decide.txt", 319),
    ("before-helpful/decide.txt", 70),
    ("before-helpful/base/decide.txt", 340),
    ("rig-by-hand/decide.txt", 1),
];

pub const PLAN: Records = &[
    ("plan.txt", 141),
    ("base/plan.txt", 448),
    ("before-helpful/plan.txt", 51),
    ("before-helpful/base/plan.txt", 447),
    ("helpful/plan.txt", 39),
    ("rig-by-hand/plan.txt", 1),
];

/// Plans whose set has grown since: it holds the moves taken at layer 0 only. All else still holds.
pub const GROWN_SETS: (&str, usize) = ("before-helpful/grown.txt", 21);

pub const CAMPAIGN: Records = &[
    ("campaign.txt", 50),
    ("comparisons/campaign.txt", 4),
    ("helpful/campaign.txt", 39),
    ("idle-moves/campaign.txt", 4),
    ("rig-by-hand/campaign.txt", 1),
];

pub const PDDL: Records = &[
    ("pddl.txt", 59),
    ("comparisons/pddl.txt", 3),
    ("idle-moves/pddl.txt", 4),
];

pub const BLOCKING: Records = &[("blocking.txt", 107), ("idle-moves/blocking.txt", 8)];

pub const REWRITE: Records = &[
    ("rewrite.txt", 160),
    ("comparisons/rewrite.txt", 4),
    ("idle-moves/rewrite.txt", 9),
];

pub const PLACE: Records = &[("place.txt", 157), ("closure/place.txt", 7)];

pub const CHECK: Records = &[
    ("check.txt", 141),
    ("schedules/check.txt", 16),
    ("comparisons/check.txt", 6),
    ("weights/check.txt", 7),
    ("idle-moves/check.txt", 11),
];

pub const RIG_READ: Records = &[("rig/rig_read.txt", 160), ("rig-by-hand/rig_read.txt", 28)];

pub const RIG_BLOCK: Records = &[("rig-by-hand/rig_block.txt", 30)];

pub const RIG_NORMALISE: Records = &[
    ("rig/rig_normalise.txt", 72),
    ("rig-by-hand/rig_normalise.txt", 16),
];

pub const RIG_STEP: Records = &[("rig/rig_step.txt", 160), ("rig-by-hand/rig_step.txt", 21)];

pub const RIG_DECIDE: Records = &[
    ("rig/rig_decide.txt", 103),
    ("rig-by-hand/rig_decide.txt", 22),
];

pub const RIG_PLAN: Records = &[("rig/rig_plan.txt", 89), ("rig-by-hand/rig_plan.txt", 23)];

pub const RIG_CAMPAIGN: Records = &[("rig-by-hand/rig_campaign.txt", 21)];

pub const LISTING: Records = &[
    ("listing.txt", 125),
    ("base/listing.txt", 270),
    ("before-helpful/base/listing.txt", 274),
    ("comparisons/listing.txt", 4),
    ("weights/listing.txt", 5),
];
