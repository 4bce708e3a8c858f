"""What each refusal and each fault of the switch means, by its name, and what `unsaved` means."""

# The sentences of the switch itself: those of its error types. tests/test_sentences.py compares
# them.
REFUSALS = {
    "Aborted": "the last attempt was aborted",
    "AlreadyAborted": "the last attempt was already aborted",
    "AlreadyFull": "this attempt was already promoted in full",
    "AlreadyOpen": "a book is open already",
    "BadLimits": "a limit is above the usual one",
    "BadName": "a name is 1 to 63 lower-case letters, digits and hyphens, with no hyphen at its ends",
    "BadPorts": "a revision has one port for each replica, all distinct and none of them 0",
    "BadSeats": "a book has no such number of seats",
    "HistoryFull": "the history has no room left",
    "JournalFailed": "the journal lacks an earlier order, so nothing was carried out",
    "MomentBack": "the moment lies before the book's",
    "MomentTooLarge": "a moment is at most 2^53 seconds",
    "MoreThanDesired": "more endpoints are reported than the revision wants",
    "NoAnalysis": "this analysis is not awaited",
    "NoEndpoints": "the selected revision has no available endpoint",
    "NoPreview": "no preview service is set",
    "NoSuchRevision": "no revision has this number",
    "NoSuchSeat": "no seat has this place",
    "NotAborted": "the last attempt was not aborted",
    "NotHere": "requests enter and leave elsewhere, by the workers",
    "NotOpen": "the line asks for an open book, and none is open",
    "NotPaused": "the rollout is not paused",
    "NothingToAbort": "there is no attempt to abort",
    "NothingToPromote": "there is no attempt to promote",
    "NumbersSpent": "every request number has been given",
    "OutOfMemory": "out of memory",
    "PortsDiffer": "a revision of this name already has other ports",
    "SameTemplate": "the newest revision already has this name and these ports",
    "SeatBusy": "the seat holds a request, so none can enter at it",
    "SeatIdle": "the seat holds no request, so none can leave it",
    "TooLate": "the boot clock is not below the time limit of the line",
    "TooManyRevisions": "64 revisions exist already",
}

FAULTS = {
    "BadNumber": "a word of the line is not a number that its place allows",
    "BadWord": "a word of the line is none that its place allows",
    "Empty": "the line has no word",
    "NotAscii": "the line has a byte that is no printable ASCII character",
    "OutOfMemory": "out of memory",
    "TooLong": "the line has more than 4,096 bytes",
    "UnknownWord": "the first word of the line is none that is known",
    "WrongCount": "the line has too few or too many words",
}

# What a line comes to that was carried out, and that the journal is not known to keep.
UNSAVED = "it was carried out, but the journal is not known to keep it: a crash may undo it"
# What a switch is told to be whose journal lacks an order.
LACKS_ORDER = (
    "the journal of the switch can't be written: the latest order was carried out, and a crash may undo it; "
    "others are refused until it is kept"
)

# What an operator can do next, or may rely on.
HINTS = {
    "Aborted": "retry begins it again",
    "HistoryFull": "upgrade to a second switch (docs/OPERATING.md)",
    "JournalFailed": "the switch tries again with the next order; look at the disk of its journal",
    "NotOpen": "open NAME PORT.. opens one",
    "OutOfMemory": "nothing has changed",
    "PortsDiffer": "deploy these ports by a new name",
    "TooLate": "nothing has changed",
    "UnknownWord": "help lists the lines",
}
