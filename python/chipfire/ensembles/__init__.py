"""Avalanches: single ones, series of drops, independent chains, and power laws."""
