"""The reference program: the rules of hminify in plain Python. It shares no code with the program."""
