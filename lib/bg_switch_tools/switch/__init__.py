"""The control port and the access log of a switch: its lines and replies, its reports, and the
values that tools read."""
