"""Readers and judges that share nothing with the product; the format pages have their rules. The standard library alone."""
