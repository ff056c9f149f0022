"""Archives of the C library and WebAssembly programs for machines that the kit itself does not build for, from the modules of proved crates: tools/targets."""
