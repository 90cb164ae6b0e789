"""What several checks share, and the cases of some."""
