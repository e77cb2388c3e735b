"""What weft decides: small functions of what was read, that answer what is so and what is to be done.

Nothing here reads or writes a file, looks at a clock or at the environment, runs a program, or prints: all that is asked of is handed in, as bytes or
values, and the answer is a value. So each rule can be read, and tried, alone. The tests stand in tests/deciding, those of each module in a file of its
name."""
