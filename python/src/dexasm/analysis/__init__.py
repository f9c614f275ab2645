"""What follows from a program: references, graphs, sizes, and what Android's verifiers refuse."""
