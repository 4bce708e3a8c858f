"""The rule by which the switch works: what a history says, and which entries it allows next.

Each definition asks the entries, as a reader would ask them. It is slow and keeps no state. The rule
judges the program and the tools, so it shares no code with them: it imports nothing of lib/.
"""
