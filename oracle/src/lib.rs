//! The original's files, unchanged, over our client library and shims for what is missing. build.rs lays them out.

#![allow(dead_code, unused_imports, unused_macros, unused_parens, unreachable_pub, clippy::all)]

include!(concat!(env!("OUT_DIR"), "/tree/root.rs"));
