"""The trials of `./trial_memory`: programs whose allocations are refused in turn."""
