"""What readers get of the store: pages, CSV tables, bills. Writers read views and compute no figure of their own."""
