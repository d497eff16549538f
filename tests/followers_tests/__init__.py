"""Helpers of the group `followers`: a site of servers and PostgreSQL that are killed."""
