"""The trials of `./trial_rows`: the built programs on the rows of the folder `rows`."""
