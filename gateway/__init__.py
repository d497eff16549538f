"""Streetmap's gateway: its collections in real reference systems, for GIS clients as they are."""
