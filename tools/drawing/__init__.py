"""Pictures of how queries are kept."""
