//! luck's linter crate: the checks that the proved library ports, from luck's own files (see build.rs).
//!
//! luck keeps them to its own crate, so each has a function of the same name here that only calls it.

mod fault;
mod format_string;

use luck_token::LuaVersion;

pub use fault::Fault;
pub use format_string::{Finding, Literal};

include!(concat!(env!("OUT_DIR"), "/root.rs"));

pub fn validate_format(body: &str, version: LuaVersion) -> Result<usize, Fault> {
    format_pattern::validate_format(body, version).map_err(Fault)
}

pub fn validate_lua_pattern(body: &str) -> Result<usize, Fault> {
    format_pattern::validate_lua_pattern(body).map_err(Fault)
}

pub fn validate_pack_format(body: &str, is_packsize: bool) -> Result<usize, Fault> {
    format_pattern::validate_pack_format(body, is_packsize).map_err(Fault)
}

pub fn validate_gsub_replacement(body: &str, capture_count: Option<usize>, version: LuaVersion) -> Result<(), Fault> {
    format_pattern::validate_gsub_replacement(body, capture_count, version).map_err(Fault)
}

pub fn validate_os_date(body: &str, version: LuaVersion) -> Result<(), Fault> {
    format_pattern::validate_os_date(body, version).map_err(Fault)
}
