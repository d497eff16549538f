"""What the gateway answers from the mirror in PostGIS (deploy/postgis/README.md): filters, order,
queryables, schemas and tiles. Without `mirror.database` in the settings none of it is there.

Each answer is of one state, that after one serial. Filters are read by `grammar`, whose result is a
tree of `filters`. `clauses` makes SQL of it, in which a request's texts are values alone.
"""
