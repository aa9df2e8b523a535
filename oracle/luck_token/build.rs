fn main() {
    luck_source::write_crate_root("luck_token", &["span", "string", "version", "whitespace"]);
}
