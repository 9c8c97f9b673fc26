"""The trials of `./trial_formats`: what a disk's two sides keep and send, read by docs/formats.md alone.

Nothing here comes from the program's code. From the other trials these use what finds programs, counts results, gives
ports and edits settings, but nothing that knows a format.
"""
