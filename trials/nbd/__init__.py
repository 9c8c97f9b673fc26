"""The trials of `./trial_nbd`: a disk, over NBD."""
