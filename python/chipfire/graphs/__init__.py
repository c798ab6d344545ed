"""Graphs: the class, lattices, families, and graphs from and to other tools."""
