"""What users run: pages, charts, counts, sweeps, batches of seeds, conversions. Each answers --help."""
