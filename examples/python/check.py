"""Checks records against a layout, and prints what is found with its mend; the status is 1 where something is: check.py LAYOUT RECORDS."""
import sys
from pathlib import Path

import takvorn

layout, records = takvorn.Layout.read(sys.argv[1]), Path(sys.argv[2]).read_text()
findings = takvorn.check(layout, records)
for finding in findings:
    print(finding)
sys.exit(bool(findings))
