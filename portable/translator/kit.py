"""The kit's libraries whose functions the code calls, and the names within their types, whose source is not at hand."""

CRATES = ("core",)

# The variants of the kit's enums, in MIR's order. Their fields have no names, nor have those of the kit's structs.
VARIANTS = {
    "core::cmp::Ordering": ("Less", "Equal", "Greater"),
    "core::ops::ControlFlow": ("Continue", "Break"),
    "core::option::Option": ("None", "Some"),
    "core::result::Result": ("Ok", "Err"),
}
