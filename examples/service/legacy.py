"""Older than the service, and left alone."""
from os import environ

print(environ.get("HOME"), 1.5)
