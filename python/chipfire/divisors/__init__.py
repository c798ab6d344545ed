"""Divisors on undirected graphs, and polynomials of graphs."""
