#!/usr/bin/env python3
"""Times the commands that exist on captures of 200,000 and 4,194,304 packets, and writes RESULTS.md beside this file.

Usage: measure.py PROGRAM [BOOK [PIPE]]. PROGRAM is the built program (crates/silkroad/out/silkroad). BOOK is the built program of book_main.txt, to
whose controller's book keys come: put it as src/main.rt into a crate `book` with the file of book_proofs.txt, and the line
`book: sr_plan sr_shadow sr_hash sr_base` in a copy of crates.txt, and `rt run` it there. PIPE is that of pipe_main.txt, which handles packets over plain words: a crate `pipe_bench` with the files of pipe_proofs.txt
and the line `pipe_bench: sr_scripted sr_script sr_plain sr_pipe sr_core sr_acts sr_machine sr_law sr_hash sr_base sr_io`. Each figure is the best of five runs, of `tcpdump` one, over the smaller capture alone, and of the book the median of fifteen. It is no test.
"""
import os
import platform
import shutil
import statistics
import struct
import subprocess
import sys
import tempfile
import time

SIZES = (200_000, 4_194_304)
ONE = ["one", "192.0.2.1:80", "10.1.0.1:80,10.1.0.2:80"]


POOL = 'servers = ["10.1.0.1:80", "10.1.0.2:80"]\n[[vip]]\naddr = "192.0.2.1:80"\npool = [0, 1]\n'
FLOOR = 16_000_000  # bytes; a child's peak is never below this script's own, of some 14 MB
JUDGED = (2_000, 1_200_000, 4_194_304)  # packets of the captures whose logs are judged; one in four is for the virtual address


def best(command, path, runs=5):
    """The least wall time in seconds of so many runs, and the peak memory in bytes of the last."""
    times = []
    peak = 0
    for _ in range(runs):
        with open(path, "rb") as source:
            begin = time.perf_counter()
            # a fixed zone, so that no packet's time needs the zone's file
            child = subprocess.Popen(
                command, stdin=source, stdout=subprocess.DEVNULL, stderr=subprocess.DEVNULL, env={**os.environ, "TZ": "UTC0"}
            )
            _, _, usage = os.wait4(child.pid, 0)
            times.append(time.perf_counter() - begin)
            peak = usage.ru_maxrss * 1024
    return min(times), peak


def row(name, packets, seconds, peak):
    rate = packets / seconds / 1e6
    each = f"{peak / packets:.0f}" if peak > FLOOR else ""
    return f"| {name} | {packets:,} | {seconds:.3f} | {rate:.2f} | {peak / 1e6:.1f} | {each} |"


def as_pcapng(capture, path):
    """Writes the packets of a capture that `make` made as pcapng: a section, an interface of raw IP, and a block for each packet."""
    record = struct.Struct("<IIII40s")
    block = struct.Struct("<IIIIIII40sI")
    with open(capture, "rb") as source, open(path, "wb") as out:
        source.read(24)
        out.write(struct.pack("<IIIHHqI", 0x0A0D0D0A, 28, 0x1A2B3C4D, 1, 0, -1, 28))
        out.write(struct.pack("<IIHHII", 1, 20, 101, 0, 262144, 20))
        while records := source.read(record.size * 65536):
            blocks = bytearray()
            for seconds, rest, size, original, frame in record.iter_unpack(records):
                time_us = seconds * 1_000_000 + rest
                blocks += block.pack(6, block.size, 0, time_us >> 32, time_us & 0xFFFFFFFF, size, original, frame, block.size)
            out.write(blocks)


def log_of(program, capture, path, last=b""):
    """Writes the log that `one` prints of a capture, and a last line; answers how many lines the text has."""
    with open(capture, "rb") as source, open(path, "wb") as out:
        subprocess.run([program, *ONE], stdin=source, stdout=out, check=True)
        out.seek(0, os.SEEK_END)
        out.write(last)
    with open(path, "rb") as log:
        return sum(1 for _ in log)


def plain(folder, path, packets):
    """The row of `one` as a plain Rust program without proofs, where there is a compiler for it."""
    if not shutil.which("rustc"):
        return
    built = os.path.join(folder, "plain_one")
    here = os.path.dirname(os.path.abspath(__file__))
    subprocess.run(["rustc", "-O", "-o", built, os.path.join(here, "plain_one.rs")], check=True)
    seconds, peak = best([built, *ONE[1:]], path)
    yield row("`one` as a plain Rust program (`plain_one.rs`)", packets, seconds, peak)


def replays(program, folder):
    """Rows of `replay`: one pool changes after a second of the capture."""
    script = os.path.join(folder, "change.toml")
    with open(script, "w") as out:
        out.write(POOL.replace("[0, 1]", "[0]") + "[[change]]\nat_ms = 1000\nvip = 0\npool = [1]\n")
    for packets in (20_000, SIZES[0]):
        capture = os.path.join(folder, "replayed.pcap")
        with open(capture, "wb") as out:
            subprocess.run([program, "make", "1", str(packets)], stdout=out, check=True)
        seconds, peak = best([program, "replay", script], capture, runs=1)
        yield row("`silkroad replay`, one in four packets", packets, seconds, peak)


def audits(program, folder):
    """Rows of `audit`: of a long log with a bad last line, which is read and not judged, and of a short lawful one."""
    script = os.path.join(folder, "pool.toml")
    with open(script, "w") as out:
        out.write(POOL)
    log = os.path.join(folder, "log")
    lines = log_of(program, os.path.join(folder, f"{SIZES[1]}.pcap"), log, b"bad\n")
    seconds, peak = best([program, "audit", script], log)
    yield row("`silkroad audit`, reading", lines, seconds, peak)
    for packets in JUDGED:
        capture = os.path.join(folder, "judged.pcap")
        with open(capture, "wb") as out:
            subprocess.run([program, "make", "1", str(packets)], stdout=out, check=True)
        lines = log_of(program, capture, log)
        seconds, peak = best([program, "audit", script], log)
        yield row("`silkroad audit`, judging", lines, seconds, peak)


def books(program):
    """Rows of the book, each without what comes before it: so many keys come, and are planned, settled, swept ten times or retired. For the
    smaller number there are places enough."""

    def asked(word, keys):
        return spent([program, word, str(keys)], 15, statistics.median)

    for keys in (40_000, 300_000):
        taken, peak = asked("take", keys)
        yield row("the book: take", keys, taken, peak)
        settled, peak = asked("settle", keys)
        yield row("the book: plan, and settle where there is a place", keys, settled - taken, peak)
        if keys == 40_000:
            swept, peak = asked("sweep", keys)
            yield row("the book: sweep", 10 * keys, swept - settled, peak)
        retired, peak = asked("retire", keys)
        yield row("the book: retire", keys, retired - settled, peak)


def spent(command, runs=5, pick=min):
    """The least processor time in seconds of so many runs, or another pick, and the peak memory in bytes of the last."""
    times = []
    for _ in range(runs):
        child = subprocess.Popen(command, stdin=subprocess.DEVNULL, stdout=subprocess.DEVNULL)
        _, _, usage = os.wait4(child.pid, 0)
        times.append(usage.ru_utime + usage.ru_stime)
    return pick(times), usage.ru_maxrss * 1024


def pipes(program):
    """Rows of a pipe: packets that are handled one after another, without what comes before them."""
    count = 4_194_304
    for mode, without, name in (
        ("hit", ["hit", "0"], "data that hits in way 1"),
        ("miss", ["miss", "0"], "data that misses"),
        ("open", ["none", str(count)], "openers that learn"),
    ):
        seconds, peak = spent([program, mode, str(count)])
        yield row(f"`Pipe::handle`, plain words: {name}", count, seconds - spent([program, *without])[0], peak)


def main():
    program = os.path.abspath(sys.argv[1])
    rows = []
    with tempfile.TemporaryDirectory() as folder:
        for packets in SIZES:
            path = os.path.join(folder, f"{packets}.pcap")
            with open(path, "wb") as out:
                subprocess.run([program, "make", "1", str(packets)], stdout=out, check=True)
            seconds, peak = best([program, "make", "1", str(packets)], os.devnull)
            rows.append(row("`silkroad make`", packets, seconds, peak))
            seconds, peak = best([program, *ONE], path)
            rows.append(row("`silkroad one`", packets, seconds, peak))
            blocks = os.path.join(folder, "blocks.pcapng")
            as_pcapng(path, blocks)
            seconds, peak = best([program, *ONE], blocks)
            rows.append(row("`silkroad one`, pcapng", packets, seconds, peak))
            os.remove(blocks)
            rows.extend(plain(folder, path, packets))
            if packets != SIZES[0]:
                continue
            if shutil.which("tcpdump"):
                seconds, peak = best(["tcpdump", "-nr", "-"], path, runs=1)
                rows.append(row("`tcpdump -nr`", packets, seconds, peak))
            else:
                rows.append(f"| `tcpdump -nr` | {packets:,} | not installed | | | |")
        rows.extend(audits(program, folder))
        rows.extend(replays(program, folder))
        if len(sys.argv) > 2:
            rows.extend(books(os.path.abspath(sys.argv[2])))
        if len(sys.argv) > 3:
            rows.extend(pipes(os.path.abspath(sys.argv[3])))
    cores = os.cpu_count()
    text = (
        "# Measurements\n\n"
        f"Best of five (`tcpdump`: one run; the book: median of fifteen), standard input a file, standard output dropped. A peak of 14 MB is the measuring script's own floor."
        f" {platform.system()} {platform.machine()}, {cores} processors.\n\n"
        "| command | packets, lines or keys | seconds | millions of them per second | peak memory, MB | bytes for each |\n"
        "|---|---|---|---|---|---|\n" + "\n".join(rows) + "\n\n"
        "Of the logs that `audit` reads here three lines in four are of skipped records. `tcpdump` is slower on this machine than it usually is, for a\n"
        "reason that isn't known; at ten times its figure `one` would still be some thirty times as fast.\n"
    )
    with open(os.path.join(os.path.dirname(os.path.abspath(__file__)), "RESULTS.md"), "w") as out:
        out.write(text)
    print(text)


main()
