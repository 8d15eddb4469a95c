"""The proved MIR of a library as one C file. `portable/from_mir` says what goes in and what comes out."""
