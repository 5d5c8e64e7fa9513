"""Cases tried side by side, each worker at a terminal of its own."""

import os
import queue
from concurrent.futures import ThreadPoolExecutor

from parts.host import Gone
from parts.screen import Unreadable


class Workers:
    """So many drivers as there are processors, at most eight, or one where only one can be had."""

    def __init__(self, made, count=None):
        self.count = count or min(8, os.cpu_count() or 1)
        self.drivers = [made() for _ in range(self.count)]
        self.free = queue.SimpleQueue()
        for driver in self.drivers:
            self.free.put(driver)

    def result(self, case):
        """What came of a case, or why nothing did."""
        driver = self.free.get()
        try:
            return driver.result(case), None
        except (Unreadable, Gone, OSError, EOFError) as error:
            return None, error
        finally:
            self.free.put(driver)

    def results(self, cases):
        """What came of each case, in their order."""
        with ThreadPoolExecutor(self.count) as pool:
            yield from pool.map(self.result, cases)

    def close(self):
        for driver in self.drivers:
            driver.close()
