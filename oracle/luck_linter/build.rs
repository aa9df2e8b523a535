fn main() {
    luck_source::write_crate_root("luck_linter", &["format_pattern"]);
    luck_source::write_functions("luck_linter", "rules/format_string", &["checkable_body", "literal_error"]);
}
