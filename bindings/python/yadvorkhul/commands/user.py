"""Adds, removes and lists the people who may sign in to `serve`."""

from ..serve.command import add_user as add
from ..serve.command import run_user as run

ORDER = 71
SUMMARY = "add, remove or list the people who may sign in to serve"
NEEDS = ["yadvorkhul_enter"]
