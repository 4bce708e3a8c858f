"""The lines that a controller sends to a switch, and what they rest on."""
