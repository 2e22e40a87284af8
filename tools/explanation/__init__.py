"""What tools/explain prints for a program: what is accepted or refused of it, where, why, and what to do."""
