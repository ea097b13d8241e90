#!/usr/bin/env python3
"""Refuses each growth of memory of a run in turn, and says what the program did. It is no part of the gate.

    bench/memory_faults.py [PROGRAM]

The N-th call for memory of a run is refused, for N from 1 until the run makes fewer calls than N. Each run has to end
with status 6, nothing on standard output and `silkroad: no memory` on standard error, or with the result that the run has
when nothing is refused: the same status and bytes, or of `replay`, whose order is its threads', a log that `audit` takes.
The program is taken as built (crates/silkroad/out/silkroad). It needs a C compiler, for a library that stands before the
C library's calls for memory.
"""
import os
import subprocess
import sys
import tempfile

REFUSER = r"""
#define _GNU_SOURCE
#include <errno.h>
#include <fcntl.h>
#include <stdatomic.h>
#include <stdio.h>
#include <stdlib.h>
#include <sys/syscall.h>
#include <unistd.h>

static atomic_long calls;
static long refused = -1;

__attribute__((constructor)) static void begin(void) {
  const char *text = getenv("REFUSED");
  refused = text ? atol(text) : 0;
  atomic_store(&calls, 0);
}

static int refuses(void) {
  if (refused < 0 || atomic_fetch_add(&calls, 1) + 1 != refused) return 0;
  errno = ENOMEM;
  return 1;
}

extern void *__libc_malloc(size_t);
extern void *__libc_realloc(void *, size_t);
extern void *__libc_calloc(size_t, size_t);
extern void *__libc_memalign(size_t, size_t);

void *malloc(size_t size) { return refuses() ? NULL : __libc_malloc(size); }
void *realloc(void *old, size_t size) { return refuses() ? NULL : __libc_realloc(old, size); }
void *calloc(size_t count, size_t size) { return refuses() ? NULL : __libc_calloc(count, size); }
void *aligned_alloc(size_t to, size_t size) { return refuses() ? NULL : __libc_memalign(to, size); }
int posix_memalign(void **at, size_t to, size_t size) {
  if (refuses()) return ENOMEM;
  *at = __libc_memalign(to, size);
  return *at ? 0 : ENOMEM;
}

// The program ends by `_exit`, which runs no destructor.
void _exit(int status) {
  const char *count_file = getenv("CALLS_FILE");
  char text[32];
  int size = snprintf(text, sizeof text, "%ld\n", atomic_load(&calls));
  int file = count_file ? open(count_file, O_WRONLY | O_CREAT | O_TRUNC, 0600) : -1;
  if (file >= 0 && write(file, text, size) != size) status = 99;
  syscall(SYS_exit_group, status);
  __builtin_unreachable();
}
"""

SCRIPT = """servers = ["10.1.0.1:80", "10.1.0.2:80"]
[shape]
pipes = 1
buckets = 1
digest_bits = 0
versions = 4
pool_max = 1
full_rows = 4
filter_bits = 1
ring = 8
window_ms = 1
idle_ms = 1
lives = 1
[[vip]]
addr = "192.0.2.1:80"
pool = [0]
"""

# Two pipes, and changes while packets go.
CHANGED = """servers = ["10.1.0.1:80", "10.1.0.2:80"]
[shape]
pipes = 2
buckets = 4
digest_bits = 2
full_rows = 4
versions = 2
idle_ms = 100
[[vip]]
addr = "192.0.2.1:80"
pool = [0]
[[change]]
at_ms = 3
vip = 0
pool = [1]
[[change]]
at_ms = 5
down = 0
"""

NO_MEMORY = (6, b"", b"silkroad: no memory\n")


class Runs:
    """Runs of the program in a folder, with a call for memory refused."""

    def __init__(self, program, folder):
        self.program = program
        self.folder = folder
        self.refuser = os.path.join(folder, "refuser.so")
        source = os.path.join(folder, "refuser.c")
        with open(source, "w") as file:
            file.write(REFUSER)
        subprocess.run(["cc", "-shared", "-fPIC", "-O1", "-o", self.refuser, source], check=True)

    def plain(self, words, given):
        """The status, what was printed, and what was said."""
        done = subprocess.run([self.program] + words, input=given, capture_output=True, cwd=self.folder, timeout=120)
        return done.returncode, done.stdout, done.stderr

    def refusing(self, words, given, refused):
        """The same, with this call for memory refused (0: none), and how many calls there were (0 where the run didn't tell)."""
        count = os.path.join(self.folder, "calls")
        if os.path.exists(count):
            os.remove(count)
        around = dict(os.environ, LD_PRELOAD=self.refuser, REFUSED=str(refused), CALLS_FILE=count)
        done = subprocess.run([self.program] + words, input=given, capture_output=True, cwd=self.folder, env=around, timeout=120)
        calls = int(open(count).read()) if os.path.exists(count) else 0
        return (done.returncode, done.stdout, done.stderr), calls

    def is_own(self, words, whole, got):
        """Whether a run's result is that of the run that is refused nothing."""
        if words[0] != "replay":
            return got == whole
        return (got[0], got[2]) == (whole[0], whole[2]) and self.plain(["audit", words[1]], got[1])[0] == 0

    def sweep(self, words, given):
        """Refuses one call after the other. How many results were neither."""
        whole, calls = self.refusing(words, given, 0)
        own = no_memory = bad = 0
        refused = 1
        while refused <= calls:
            got, made = self.refusing(words, given, refused)
            calls = max(calls, made)
            if got == NO_MEMORY:
                no_memory += 1
            elif self.is_own(words, whole, got):
                own += 1
            else:
                bad += 1
                print(f"{' '.join(words)}: call {refused}: status {got[0]}, {len(got[1])} bytes printed, said {got[2]!r}")
            refused += 1
        print(f"{' '.join(words)}: status {whole[0]}, {calls} calls for memory; refused one by one: "
              f"{no_memory} times no memory, {own} times its own result, {bad} times neither", flush=True)
        return bad


def main():
    top = os.path.dirname(os.path.dirname(os.path.abspath(__file__)))
    program = os.path.abspath(sys.argv[1] if len(sys.argv) > 1 else os.path.join(top, "crates/silkroad/out/silkroad"))
    with open(os.path.join(top, "crates/silkroad/stdin"), "rb") as file:
        first = file.read()
    bad = 0
    with tempfile.TemporaryDirectory() as folder:
        runs = Runs(program, folder)
        for name, text in [("script.toml", SCRIPT), ("changed.toml", CHANGED)]:
            with open(os.path.join(folder, name), "w") as file:
                file.write(text)
        log = runs.plain(["one", "192.0.2.1:80", "10.1.0.1:80"], first)[1]
        made = runs.plain(["make", "1", "60"], b"")[1]
        for words, given in [
            (["one", "192.0.2.1:80", "10.1.0.1:80"], first),
            (["replay", "script.toml"], first),
            (["steps", "script.toml", "1"], first),
            (["audit", "script.toml"], log),
            (["make", "1", "60"], b""),
            (["replay", "changed.toml"], made),
            (["steps", "changed.toml", "1"], made),
        ]:
            bad += runs.sweep(words, given)
    return 1 if bad else 0


if __name__ == "__main__":
    sys.exit(main())
