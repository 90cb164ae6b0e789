"""From one map to the next: what tools/swap does."""
