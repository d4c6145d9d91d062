"""The household's command `budget`: what a person types, told to the program as lines, and its replies shown as tables."""
