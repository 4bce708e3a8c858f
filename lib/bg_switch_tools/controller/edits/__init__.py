"""What people do with the file of a plan: its check, its edits, and the wait for the deploy that an
edit announces."""
