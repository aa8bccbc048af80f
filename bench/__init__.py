"""What a rating costs beside peers: bench/run."""
