"""What `tools/lint` knows: constructs outside the language, names, steps, values, executors, and what to write in their place."""
