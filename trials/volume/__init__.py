"""The trials of `./trial_volume`: a host whose file lies on a replicated volume."""
