"""What the gate runs on the built programs; .ci/run names each with its arguments."""
