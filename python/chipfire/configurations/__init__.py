"""Configurations: chips on a graph, what is stable and recurrent, and the sandpile group."""
