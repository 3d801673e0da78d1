"""The last answers by the rules of docs/protocol.md, each with lines that have it: those that its tables do not have.
Between two lines that are sent one after the other stands a comma."""

# Each on a connection of its own, before GO
BEFORE_GO = {
    "410 ERROR unknown command": (
        "SET", "SET PROTOCOL SRCP 0.8.4 now", "SET CONNECTIONMODE SRCP INFO COMMAND", "GO now", "GET 1 POWER"),
    "402 ERROR insufficient data": ("SET PROTOCOL", "SET PROTOCOL SRCP"),
    "201 OK PROTOCOL SRCP": ("SET PROTOCOL SRCP 0.8", "SET PROTOCOL SRCP 0.8.12345"),
    "400 ERROR unsupported protocol": ("SET PROTOCOL SRCP 0.8.", "SET PROTOCOL SRCP 0.7"),
    "401 ERROR unsupported connection mode": ("SET CONNECTIONMODE SRCP BOTH",),
    "202 OK CONNECTIONMODE": ("set connectionmode srcp info",),
    "101 INFO ..": ("SET CONNECTIONMODE SRCP INFO, SET CONNECTIONMODE SRCP BOTH, GO, GET 1 POWER",),
}

# In one session, while another session has the id 1 and holds the lock of locomotive 7 on bus 1
IN_A_SESSION = {
    "100 INFO ..": ("GET 1 GL 7", "INIT 1 GL 3 P, GET 1 GL 3"),
    "410 ERROR unknown command": ("GO",),
    "412 ERROR wrong value": (
        "SET PROTOCOL SRCP 0.8", "SET CONNECTIONMODE SRCP INFO", "INIT 1 GL 3 N 1 28 30", "SET 1 GL 3 1 29 28",
        "SET 2 LOCK GL 3 0", "SET 1 LOCK FB 3 0", "SET 1 LOCK POWER 0 0"),
    "415 ERROR forbidden": ("TERM 0 SESSION 1", "TERM 0 SESSION 99", "TERM 0 SESSION 0"),
    "416 ERROR no data": ("GET 0 SESSION 0", "GET 1 LOCK GL 8", "SET 1 LOCK GL 8 0"),
    "101 INFO ..": ("GET 0 SESSION 1",),
    "414 ERROR device locked": ("SET 1 GL 7 1 0 0", "TERM 1 LOCK GL 7"),
    "419 ERROR list too short": ("INIT 1 GL 3 P 1 28", "SET 1 GA 5 0 1", "GET 1 GA 5"),
    "420 ERROR unsupported device protocol": ("INIT 1 GL 3 X 1 28 5", "INIT 1 GL 3 A 1 28 5", "INIT 1 GA 6 X"),
    "418 ERROR list too long": ("SET 1 GL 3 1 5 28 1 1 1 1 1 1", "GET 1 POWER now"),
    "200 OK": (
        "INIT 1 GA 5 M, SET 1 GA 5 0 1 -1", "INIT 1 POWER of any kind", "INIT 1 GA 5 M of any kind", "INIT 1 FB"),
    "423 ERROR unsupported operation": ("WAIT 1 GL 3", "RESET 1 GL 3", "WAIT 0 SESSION", "TERM 1 FB 1", "TERM 1 POWER"),
    "421 ERROR unsupported device": (
        "RESET 0 SERVER", "VERIFY 1 SM 3 CV 1", "GET 1 DESCRIPTION", "GET 1 SM 3 CV 1", "GET 0 TIME",
        "SET 1 GM 0 0 TEXT"),
    "422 ERROR unsupported device group": ("WAIT 2 POWER ON 10", "GET 0 LOCK GL 3", "GET 0 POWER"),
    "100 INFO 1 POWER ON main line": ("SET 1 POWER ON  main   line, GET 1 POWER",),
    "100 INFO 1 POWER ON": ("SET 1 POWER ON, GET 1 POWER",),
}
