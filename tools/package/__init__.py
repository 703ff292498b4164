"""From the sources to a program that is built, released and installed."""
