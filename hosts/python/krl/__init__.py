"""A client of krl, the key-range lock server: it answers reads from its cache, and never stale.

It is the client of ``libkrl_client``, whose calls this package makes: there is no protocol in it.
``README.md`` has examples, and ``krl.aio`` has the same calls for ``asyncio``. ``krl.cache`` reads
cached tables of PostgreSQL."""

from ._library import END as END, TOP as TOP, Row as Row
from .client import Client as Client, Pin as Pin, Reader as Reader, Status as Status, Tls as Tls
from .client import Delete as Delete, Insert as Insert, Put as Put, Set as Set, Write as Write
from .client import connect as connect, evict as evict, join as join, join_map as join_map
from .errors import *

__version__ = "0.1.0"
