//! The names of the calls, as the commands take them.

/// Whole walks, which are compared and measured as a call is.
pub const WALKS: &str = "walks";

/// Every function of the C interface in its order, without `safeteal_`; but for the two of single floats, which take no
/// planes. Behind them whole walks.
pub fn calls() -> Vec<String> {
    let names = safeteal::ffi::DECLARED.iter();
    let names = names.filter_map(|(name, _)| name.strip_prefix("safeteal_"));
    let planes = names.filter(|name| !["pixel", "stored"].contains(name));
    planes.chain([WALKS]).map(str::to_owned).collect()
}
