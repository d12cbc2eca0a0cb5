//! The answers that a call can have.

/// Every answer that a call can have in a run; 1 stands for a count above 0.
pub const ANSWERS: [(&str, &[i64]); 17] = [
    ("write", &[1, 0, -10, -11, -14, -20, -22, -24]),
    ("read", &[1, 0, -10, -11, -20, -22, -24]),
    ("peek", &[1, 0, -10, -11, -20, -22, -24]),
    ("set_disposition", &[0, -10, -11, -20]),
    ("shutdown", &[0, -11]),
    ("set_read_threshold", &[0, -10, -11]),
    ("set_write_threshold", &[0, -10, -11, -24]),
    ("thresholds", &[0, -11]),
    ("info", &[0, -10, -11]),
    ("wait", &[0, -3, -10, -11]),
    ("take", &[0, -22]),
    ("cancel", &[1, -11, -25]),
    ("close", &[0, -11]),
    ("user_write", &[1, 0, -10, -11, -14, -20, -22, -24, -30]),
    ("user_read", &[1, 0, -10, -11, -20, -22, -24, -30]),
    ("user_set_disposition", &[0, -10, -11, -20, -30]),
    ("user_shutdown", &[0, -11, -30]),
];
