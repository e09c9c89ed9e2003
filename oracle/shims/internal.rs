// The names under which the original's backends find the dialects.

pub mod derives {
    pub mod multiconnection {
        pub(crate) use crate::backend::sql_dialect;
    }
}
