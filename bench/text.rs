//! What both programs of the benchmark write alike.

/// The names in brackets, to stand behind their number; nothing if there are none.
pub fn listed(names: &[String]) -> String {
    if names.is_empty() {
        return String::new();
    }
    format!(" ({})", names.join(", "))
}
