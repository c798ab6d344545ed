"""Pictures and animations of chips and firing counts."""
