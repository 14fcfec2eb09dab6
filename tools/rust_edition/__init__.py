"""Rules that write the Rust edition from the sources; see `tools/rust_edition.py`."""
