"""The parts of tools/order.py: reading histories, what is forced, the search for an order, and reasons for none."""
