"""Tests in groups: a group is a function that gives for each thing tried None, or what is wrong with it."""


def run_groups(groups):
    """Prints a line for each group, its first faults above it, and the sum; the status to end with."""
    passed = failed = 0
    for group in groups:
        results = list(group())
        bad = [fault for fault in results if fault]
        for fault in bad[:10]:
            print(f"  {fault}")
        print(f"{group.__name__.replace('_', ' ')}: {len(results) - len(bad)} passed, {len(bad)} failed", flush=True)
        passed, failed = passed + len(results) - len(bad), failed + len(bad)
    print(f"{passed} passed, {failed} failed")
    return 1 if failed else 0
