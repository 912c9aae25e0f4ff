"""The second program: what calls and case files must answer, by truth tables; no decision diagram."""
