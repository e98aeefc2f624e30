"""What makes pages, tables, pictures and builds, and what compares them in the gate."""
