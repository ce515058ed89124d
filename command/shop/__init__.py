"""The shop's command over libplate.so. It moves bytes; the numbers come from the proved calls."""
