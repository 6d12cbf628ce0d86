"""What a user wants to see of a trace of a SCSI bus, over the judge of scsibus."""

__version__ = "1.0"
