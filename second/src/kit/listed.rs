//! Enums with lists of their variants.

/// An enum whose variants are written in lists: each list is a constant with all that stand in it, in order, so that
/// none is left out.
macro_rules! listed {
    (
        $(#[$of:meta])*
        pub enum $name:ident {
            $($(#[$of_list:meta])* $list:ident: [$($(#[$of_variant:meta])* $variant:ident,)*])*
        }
    ) => {
        $(#[$of])*
        pub enum $name {
            $($($(#[$of_variant])* $variant,)*)*
        }

        impl $name {
            $($(#[$of_list])* pub const $list: [$name; [$(stringify!($variant)),*].len()] = [$($name::$variant),*];)*
        }
    };
}

pub(crate) use listed;
