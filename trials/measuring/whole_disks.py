"""What it takes to read a whole disk: to check it, and to export it."""

import resource
import subprocess
import sys
import time

from trials.measuring.line import Line

def measure_readings(disk, ways):
    """Checks a disk and exports it over each of these lines, and prints a row of a table for each."""
    print("\nReading a whole disk: seconds, records read each second, share of the line, and the most memory\n")
    print("| Round trip | check | | export | | |\n|---|---|---|---|---|---|")
    for way in ways:
        checked, exported = (measure_reading(disk, way, command) for command in ("check", "export"))
        print(f"| {way.label} | {checked[0]:.1f} s | {checked[1]} | {exported[0]:.1f} s | {exported[1]} | {exported[2] / 1e6:.0f} MB |", flush=True)


def measure_reading(disk, way, command):
    """The seconds that a reading takes over a line, what goes over it in a second, and how much memory it takes at most."""
    line = Line(disk.port, way)
    disk.set_host(line.port)
    image = disk.folder / "measured.img"
    words = [disk.oramdisk, command, "disk.toml", *([image.name] if command == "export" else [])]
    begun = time.monotonic()
    end = subprocess.run(words, cwd=disk.folder, capture_output=True, check=False)
    took = time.monotonic() - begun
    line.listener.close()
    image.unlink(missing_ok=True)
    if end.returncode:
        sys.exit(f"measure: {command} ended with status {end.returncode}: {end.stderr.decode()}")
    rate = line.carried / took
    share = f", {rate * 8 / way.rate:.0%} of the line" if way.delay else ""
    # The greatest of all processes that have ended so far.
    memory = resource.getrusage(resource.RUSAGE_CHILDREN).ru_maxrss * 1024
    return took, f"{rate / 1e6:.1f} MB/s{share}", memory
