"""The trials of `./trial_disk`: `oramdisk host`."""
