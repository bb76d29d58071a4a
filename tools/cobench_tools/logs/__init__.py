"""Logs of a CAN bus as other programs record them: the texts of candump -L, of ASC, TRC and CSV."""
