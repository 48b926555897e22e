"""What a running process tells of its memory, for the benchmarks."""


def told_of(pid, word):
    """A number of KiB that the system tells of a process; 0 where it has ended."""
    try:
        with open(f"/proc/{pid}/status", encoding="ascii") as file:
            return next((int(line.split()[1]) for line in file if line.startswith(f"{word}:")), 0)
    except (OSError, StopIteration):
        return 0


def peak_of(pid):
    """The peak resident memory of a process, in KiB: since it began, or since `forget_peak`."""
    return told_of(pid, "VmHWM")


def resident_of(pid):
    """The resident memory of a process now, in KiB."""
    return told_of(pid, "VmRSS")


def forget_peak(pid):
    """Lets the peak of a process begin anew with what it has now."""
    with open(f"/proc/{pid}/clear_refs", "w", encoding="ascii") as file:
        file.write("5")
