"""A run as a page for the browser: `mavis report`."""
