"""What copied_code.py stands on: the lines of sources, the runs of lines that are alike, the items in
which they stand, and the list of the pairs that are accepted."""
