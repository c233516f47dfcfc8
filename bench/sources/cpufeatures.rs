//! Stands in for the crate cpufeatures, where there is no registry: `new!(name, "feature")` makes a module `name` with a function
//! `get`, which returns whether the processor has the feature.

/// Makes the module.
#[macro_export]
macro_rules! new {
    ($name:ident, $feature:tt) => {
        mod $name {
            pub fn get() -> bool {
                std::is_x86_feature_detected!($feature)
            }
        }
    };
}
