"""bin/analysis: it judges a revision by the access log, or by a query of Prometheus."""
