"""Makes the archive that teachers and students get: the parts of dist."""
