"""The rows that section 10 of docs/RULES.md names."""

from __future__ import annotations

from rules import ROOT

# RULES 10.2.
ONLY_TREE_OF_2 = [3, 2, 2, ROOT]

# RULES 10.3 and 10.4: rows of three samples, valid and not.
ROWS_OF_3 = [
    [5, 4, 4, 3, ROOT, 3],
    [5, 3, 3, 4, 4, ROOT],
    [4, 3, 3, 3, ROOT, 7],
    [4, 3, 3, 3, ROOT, 0],
    [5, 3, 3, 3, ROOT, 4],
    [5, 4, 3, 3, ROOT, 3],
    [5, 2, 3, 3, ROOT, 3],
    [5, 4, 4, 3, ROOT, ROOT],
    [3, 4, 4, 3, ROOT, 3],
    [6, 4, 4, 3, ROOT, 3],
]

# RULES 10.4: a node without a child.
CHILDLESS_3 = [5, 3, 3, 3, ROOT, 3]

# RULES 10.15: a node above one sample and a chain at the root; a chain in the middle. Each with
# what it is renumbered to, and with its text.
BRANCH_0, CHAIN_ROOT = [5, 4, 3, 3, ROOT, 3], [5, 4, 4, 4, ROOT, 3]
CHAIN_MIDDLE = [7, 6, 6, 4, 4, ROOT, 4, 5]
SINGLE_BRANCHES = [
    (3, BRANCH_0, [4, 3, 3, 3, ROOT, 0], b"((0),1,2);"),
    (3, CHAIN_ROOT, [4, 3, 3, 3, ROOT, 0], b"((0,1,2));"),
    (4, CHAIN_MIDDLE, [6, 5, 5, 4, 4, ROOT, 4, 0], b"(((0,1)),2,3);"),
]

# RULES 10.5: a run with {0,1}, one with {0,2}, and their report.
WITH_01 = [5, 4, 4, 3, ROOT, 3]
WITH_02 = [5, 4, 3, 4, ROOT, 3]
BARE_3 = [4, 3, 3, 3, ROOT, 0]

# The three runs of the table.
RUNS_OF_5 = [
    [8, 7, 7, 6, 5, 5, ROOT, 5, 6, 0],
    [8, 6, 6, 6, 7, 7, ROOT, 5, 5, 0],
    [9, 7, 7, 5, 8, 8, ROOT, 5, 6, 6],
]

# RULES 10.1: their report, the agreed row and the support row; and its text with the supports.
REPORT_OF_5 = [[9, 7, 7, 6, 8, 8, ROOT, 5, 6, 5], [3, 3, 3, 3, 3, 3, 3, 2, 2, 2]]
TEXT_OF_5 = b"(((0,1)2,2)2,(3,4)2);"
