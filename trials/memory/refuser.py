"""A library that refuses one allocation of a program."""

import os
import subprocess
from pathlib import Path

from trials.processes import LONGEST_WAIT

# Its malloc refuses the allocation whose number, from 1, is in REFUSED. At the end it writes how many there were into the file COUNTED.
LIBRARY = r"""
#define _GNU_SOURCE
#include <dlfcn.h>
#include <stdio.h>
#include <stdlib.h>

static unsigned long count, refused;
static void *(*real_malloc)(size_t);
static void *(*real_realloc)(void *, size_t);

__attribute__((constructor)) static void begin(void) {
    const char *number = getenv("REFUSED");
    real_malloc = dlsym(RTLD_NEXT, "malloc");
    real_realloc = dlsym(RTLD_NEXT, "realloc");
    count = 0;
    refused = number ? strtoul(number, NULL, 10) : 0;
}

__attribute__((destructor)) static void end(void) {
    const char *name = getenv("COUNTED");
    unsigned long made = count;
    FILE *file = name ? fopen(name, "w") : NULL;
    if (file) {
        fprintf(file, "%lu", made);
        fclose(file);
    }
}

void *malloc(size_t size) {
    if (!real_malloc)
        real_malloc = dlsym(RTLD_NEXT, "malloc");
    return ++count == refused ? NULL : real_malloc(size);
}

void *realloc(void *old, size_t size) {
    if (!real_realloc)
        real_realloc = dlsym(RTLD_NEXT, "realloc");
    return ++count == refused ? NULL : real_realloc(old, size);
}
"""


class Refuser:
    """Runs programs with one of their allocations refused."""

    def __init__(self, folder):
        self.folder, self.library = folder, f"{folder}/refuser.so"
        subprocess.run(["cc", "-shared", "-fPIC", "-O1", "-x", "c", "-", "-o", self.library, "-ldl"], input=LIBRARY.encode(), check=True)

    def run(self, program, rows, refused, counted=None):
        """Runs a program on rows, with the allocation of this number refused, from 1. Returns its status and what it wrote."""
        env = {**os.environ, "LD_PRELOAD": self.library, "REFUSED": str(refused)}
        if counted:
            env["COUNTED"] = counted
        ran = subprocess.run([program], input=rows, capture_output=True, env=env, cwd=self.folder, timeout=LONGEST_WAIT)
        return ran.returncode, ran.stdout

    def count(self, program, rows):
        """How the program ends with memory, and how many allocations it makes for that."""
        name = f"{self.folder}/counted"
        ended = self.run(program, rows, 0, name)
        return ended, int(Path(name).read_text())
