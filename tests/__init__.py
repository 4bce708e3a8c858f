"""Tests of the tools. They need no switch: a thread answers at a control port of their own."""
