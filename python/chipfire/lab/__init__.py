"""The laboratory of termination detectors: models, the explorer, pages, logs and judging."""
