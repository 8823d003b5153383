"""Serves a working case to browsers, for people with roles."""

from ..serve.command import add_serve as add
from ..serve.command import run_serve as run

ORDER = 70
SUMMARY = "serve a working case to browsers, for people with roles"
NEEDS = ["yadvorkhul_enter"]
