"""What the group `gateway` is made of."""
