"""skyq: from a file of astronomical positions to answers of the sky catalogue engine, and back to files, pictures and clients."""
