"""The dashboard: what it knows of a switch (`board`) and of a fleet (`fleet_board`), and how it is
shown: as pages, as JSON and events, and as metrics."""
