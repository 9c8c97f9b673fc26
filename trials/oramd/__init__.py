"""The trials of `./trial`: oramd, as host, formatting and proxy."""
