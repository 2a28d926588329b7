"""Studies around the program: exact shares of conflicts, choices, comparisons and reports of tables."""
