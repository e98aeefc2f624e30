"""The parts of tools/page.py: how a run is played, what the page says of each event, and the page itself."""
