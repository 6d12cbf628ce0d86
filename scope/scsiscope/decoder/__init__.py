"""The 8-bit SCSI-2 parallel bus (ANSI X3.131-1994): phases, messages, commands, data and status over its 18 lines."""

from .pd import Decoder
