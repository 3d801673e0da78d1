"""The limits and the times of the programs of bridges/, each once, with its unit. The case `limits-of-the-bridges`
compares those which the server, the page or the texts for people have too."""

# ---- of the server, by the names of its code
GREATEST_BUS = 250  # number of a bus
GREATEST_GA = 2044  # address of an accessory
GREATEST_FB = 4096  # address of a sensor
MOST_PORTS = 8  # ports of an accessory
MOST_FUNCTIONS = 29  # functions of a locomotive
LONGEST_READ = 1000  # bytes of a line that it reads
LONGEST_DELAY = 600  # seconds for which a route keeps its locks before a train, at most

# ---- what is made and thrown
TOP = 126  # steps of a locomotive that is made here, and of the speeds that a DCC-EX station is told
PULSE = 250  # milliseconds for which the port of a turnout is on
SECOND = 1.0  # seconds until the signal box is told that a second has passed
TURNOUT_PACE = 3.0  # turnouts a second that a station throws, if not told otherwise
STOPS = 2  # port of a route's accessory that stops its signal

# ---- the server and its panel
ANSWER = 3.0  # seconds within which the server answers; later it counts as gone
BEAT = 2.0  # seconds between two questions that show whether it is there
UNLISTED = 0.3  # seconds until it is asked for the rows of before that were not listed again
SOON = 0.01  # seconds until it is looked again whether a row is told, or a command still on its way
RECENT = 40  # rows of a locomotive that are looked through for one with speed 0
LONGEST_BEGUN = 4096  # bytes without an end of line; the server sends 126 at most
SETTLED = 0.1  # seconds after a STOP ALL until what drives by a command that others had sent is stopped too
ALL_CONFIRM = 1.0  # seconds within which the drivers say that all stand
PORTS_APART = 0.002  # seconds between two ports of an accessory, so that their stamps tell which was put last
SESSION_TOLD = 0.3  # seconds until a program has told that a session is its own

# ---- a station and its driver
ASK = 1.0  # seconds between two questions to a silent station
AGAIN = 0.2  # seconds until a station is asked again whether it has read what it was told
ANSWERS = 2.0  # seconds for which the first question may be answered again, if it was asked more than once
UNANSWERED = 3  # questions to a station that is gone
PACE = 0.002  # seconds between two commands
SENSORS_WAITING = 1000  # reports of sensors that may wait for the server
STATE_TOLD = 1.0  # seconds until doctor.py can read what has changed
CONFIRMS = 0.25  # seconds within which the station confirms what it was told
SILENT = 2.0  # seconds after which it is told that the station does not confirm
TICK = 0.1  # seconds between two looks at what is not confirmed
SLEPT = 1.0  # seconds between two looks if this program slept
LEAVING = 2.0  # seconds, at most, until all stand at the end
LATE = 10.0  # seconds within which an echo comes: after less silence the line is opened anew
COLLECTED = 0.5  # seconds for which those are collected that cannot be driven
FOLLOWS = 0.5  # seconds after a STOP ALL within which the rows of locomotives follow
SILENT_NAMED = 9  # locomotives that a text of power has room for
TOGETHER = 0.5  # seconds within which all make an emergency stop, if one button stopped them
STAYS = 0.3  # seconds after which a report of a turnout is no late one
ANSWERED = 2.0  # seconds after a STOP ALL in which displays wait for its answer
CV_TAKES = 15.0  # seconds that a station may take for a CV
CV_PATIENCE = 60.0  # seconds for a CV: others may have asked before
UNSENT = 65536  # bytes that wait for a station that reads nothing; then its line is opened anew
UNREAD = 1000  # datagrams that wait to be read; further ones are lost, as any datagram may be
ASKS = 5  # looks of dcc_ex.py at what is not confirmed, from one question how a locomotive drives to the next
OUTPUT_ON = 0.1  # seconds for which a Z21 has the output of a turnout on
STRAY = 2.0  # seconds for which a datagram may be on its way
LEFT_STANDING = 145  # locomotives that the last datagram has room for, beside the stop of all and the power

# ---- connections of all programs
LONGEST_IN_STREAM = 65536  # bytes of a line, as asyncio has it
LINES_WAITING = 1000  # lines of a phone, or of a client of srcpd.py, that may wait
ADDRESSES_LOOK = 10.0  # seconds until this machine's addresses are looked at again: a network may come later
LONGEST_HOST = 40  # bytes of this machine's name in that of the server, which may have 63

# ---- the page
CONNECTIONS = 400  # connections in all
CONNECTIONS_OF_ONE = 100  # connections of one address
KEPT = 40  # further connections, for stops alone
KEPT_OF_ONE = 4  # of these, connections of one address
PAGES_OF_ONE = 4  # pages of one browser: it has 6 connections, and STOP ALL needs one that is free
PAGE_SILENCE = 10.0  # seconds after which a silent page counts as gone, if not told otherwise
BEHIND = 20000  # events that may wait for a page; one that is further behind is closed, and joins again
ASPECTS = 4  # aspects of a signal that the page can show
DRIVERS_LOOK = 1.0  # seconds until it is looked again at what drivers tell
IDLE = 20.0  # seconds for which a connection may wait for its next request
ARRIVE = 5.0  # seconds within which a request that has begun is here
LONGEST_BODY = 1000  # bytes of what a request brings
LONGEST_HEAD = 16384  # bytes of the head of a request
WRONG_WORDS = 10  # words that an address may get wrong at once; then one more each PAUSE
PAUSE = 60.0  # seconds until an address that was wrong has one trial more
TOKENS = 1000  # tokens that are kept: of the last who knew the word

# ---- phones
PHONES = 40  # phones that are served in all
PHONES_OF_ONE = 8  # phones of one address
NAMELESS = 5.0  # seconds for which a phone may be silent, or slow, until it has told its name
LONGEST_NAME = 40  # letters of a name that are kept
LONGEST_OF_PHONE = 4096  # bytes of a line of a phone
READ_AT_ONCE = 32  # lines that are read at once from a phone that has sent too many
PHONE_BEHIND = 1 << 20  # bytes that wait for a phone; one that is further behind is gone
CLOCK_LOOK = 0.25  # seconds between two looks at the clock
WAS_STOPPED = 1.0  # seconds without a look after which this program was stopped; what comes in for as long is of before
GATHERED = 0.3  # seconds for which changes of a list are gathered

# ---- the broker
QUEUED = 20000  # messages that may wait for the broker; paho tells them apart by 65,535 numbers
COMMANDS_WAITING = 1000  # commands that may wait, and that may be under way beside them
LONGEST_PAYLOAD = 1000  # bytes of a command
LOOKED_AT = 20000  # bytes of a payload that are looked at; this program sends none that is longer
READING = 15.0  # seconds that the reading of what the broker has may take
BROKER_LOOK = 0.3  # seconds until what the broker has and the registry has not is looked at again

# ---- old clients
CLIENTS = 40  # clients that are served in all
CLIENTS_OF_ONE = 20  # clients of one address
LINGER = 10.0  # seconds for which a WAIT goes on once its client has closed its side
LISTED = 1.0  # seconds until what was made is told of
POLL = 0.2  # seconds until a WAIT looks at the clock again: somebody may have turned it
