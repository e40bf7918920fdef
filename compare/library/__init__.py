"""What comparisons, generators and benches share."""
