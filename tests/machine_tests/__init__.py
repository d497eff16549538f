"""Commands of operators on machines with a real systemd."""
