"""Tells the faults of golden texts, for the tests that read them by another program's rules."""


def tell(cases):
    """Prints the faults of each (name, faults), then 'N passed, M failed'; returns whether one failed, or none was there."""
    passed = failed = 0
    for name, faults in cases:
        passed, failed = passed + (not faults), failed + bool(faults)
        for fault in faults:
            print(f"{name}: {fault}")
    print(f"{passed} passed, {failed} failed")
    return failed != 0 or passed == 0
