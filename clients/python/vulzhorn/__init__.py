"""A client of the database Vulzhorn: numbered records that are durable once they are told as committed."""
from .database import Database, Transaction
from .errors import *  # noqa: F401, F403
from .program import Reply, find_program

__version__ = "0.1.0"
