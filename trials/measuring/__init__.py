"""What `./measure` does: it measures a disk over a line that delays and limits what goes over it."""
