"""What writes the sources of Rattle as sources of Rust."""
