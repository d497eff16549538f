"""Helpers of the group `map`: a served town behind nginx, and a page in a headless browser."""
