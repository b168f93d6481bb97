"""Times readings and edits of large files by a manager, for the scripts of bench/ that do so.

Times are those of the processor, the least of many short runs, since whatever else the machine does can only
add to them. A run reads the file in each turn, or reads and edits it; a run without turns is taken off the one,
and that one off the other. All kinds of runs take turns, so that they meet the same machine.
"""
import tempfile

from harness import built, marked, need, processor_seconds

RUNS = 60
TURNS = 4


def seconds(program, count, turns, editing):
    """Returns the seconds of the processor that a run takes, and the length of the file."""
    took, printed = processor_seconds([program, count, turns, editing])
    return took, int(printed)


def least(program, counts):
    """Returns the least seconds of each kind of run: by count, idle, reading, and reading and editing."""
    kinds = [(count, turns, editing) for count in counts for turns, editing in ((0, 0), (TURNS, 0), (TURNS, 1))]
    runs = [[seconds(program, *kind) for kind in kinds] for _ in range(RUNS)]
    lengths = {kind[0]: runs[0][i][1] for i, kind in enumerate(kinds)}
    return {kind: min(run[i][0] for run in runs) for i, kind in enumerate(kinds)}, lengths


def measured(program, counts):
    """Returns the seconds of one reading and of one edit for each count, and prints them."""
    times, lengths = least(program, counts)
    taken = []
    for count in counts:
        idle, reading, both = times[count, 0, 0], times[count, TURNS, 0], times[count, TURNS, 1]
        read, edit = max(reading - idle, 1e-6) / TURNS, max(both - reading, 1e-6) / TURNS
        print(f"{count:,} finds in {lengths[count]:,} bytes: {read * 1000:.2f} ms a reading, {edit * 1000:.2f} ms an edit of all", flush=True)
        taken.append((read, edit))
    return taken


def compare(manager, source, length, growth):
    """Builds the program over the manager's crate, whose file has that length for one find; measures 2,500 finds and
    10,000, and prints the growth with what is wanted of it."""
    need("rt")
    crates = ["rnv_base", "rnv_manager", manager]
    files = {"src/main.rt": source, "args": "1\n0\n0\n", "stdout": f"{length}\n"}
    with tempfile.TemporaryDirectory(prefix="renovate_bench_") as folder:
        program = built(folder, "edit_times", crates, crates, files, words=["1", "0", "0"])
        (few_read, few), (read, many) = measured(program, (2_500, 10_000))
    for what, small, large, most in [("10,000 against 2,500 finds, reading", few_read, read, growth),
                                     ("10,000 against 2,500 finds, edits", few, many, growth),
                                     ("an edit against one reading", read, many, 3)]:
        print(f"  {what}: {large / small:.1f} times the time (wanted: at most {most}){marked(large / small <= most)}")
