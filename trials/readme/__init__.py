"""The trials of `./trial_readme`: the commands of the README's quick start, and those of the units in contrib/systemd."""
